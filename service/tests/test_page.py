"""The page in a browser without a window."""
import shutil
import time
import unittest
from typing import Callable

import sample
import servers
from sample import BRANCH, ROOT, release

try:
    from selenium import webdriver
    from selenium.webdriver.chrome.service import Service as Driver
    from selenium.webdriver.common.by import By
    from selenium.webdriver.common.keys import Keys
except ImportError:
    webdriver = None

BROWSER = shutil.which("chromium") or shutil.which("chromium-browser") or shutil.which("google-chrome")
DRIVER = shutil.which("chromedriver")

# Returns the places of the caret and of the character that is marked, measured as the browser has drawn them.
_PLACES = """
    const mark = document.querySelector(".place"), caret = document.querySelector(".caret");
    const range = document.createRange();
    range.setStart(mark.firstChild, 0);
    range.setEnd(mark.firstChild, mark.firstChild.length);
    const [character] = range.getClientRects(), [drawn] = caret.getClientRects();
    return [character.left, character.bottom, character.width, drawn.left, drawn.top, drawn.width];
"""


def browser() -> "webdriver.Chrome":
    """Starts a browser without a window."""
    options = webdriver.ChromeOptions()
    options.binary_location = BROWSER
    for word in (
        "--headless=new",
        "--no-sandbox",
        "--disable-gpu",
        "--disable-dev-shm-usage",
        "--window-size=1100,900",
    ):
        options.add_argument(word)
    options.set_capability("goog:loggingPrefs", {"browser": "ALL"})
    return webdriver.Chrome(service=Driver(DRIVER), options=options)


@unittest.skipUnless(webdriver and BROWSER and DRIVER, "selenium, Chromium or its driver is not installed")
class Page(unittest.TestCase):
    @classmethod
    def setUpClass(cls) -> None:
        serving = servers.wsgiref(sample.shared())
        cls.port = serving.__enter__()
        cls.addClassCleanup(serving.__exit__, None, None, None)
        cls.browser = browser()
        cls.addClassCleanup(cls.browser.quit)

    def setUp(self) -> None:
        self.browser.get(f"http://127.0.0.1:{self.port}/")

    def tearDown(self) -> None:
        """Checks that the browser has run no other script, and has refused none of the page's own."""
        self.assertEqual([it for it in self.browser.get_log("browser") if "Security" in it["message"]], [])

    def at(self, name: str) -> "webdriver.remote.webelement.WebElement":
        return self.browser.find_element(By.ID, name)

    def text(self, name: str) -> str:
        return self.at(name).get_property("textContent")

    def ask(self, constraint: str, words: str = "") -> None:
        for name, text in (("constraint", constraint), ("words", words)):
            script = "document.getElementById(arguments[0]).value = arguments[1]"
            self.browser.execute_script(script, name, text)
        self.at("constraint").send_keys(Keys.CONTROL, Keys.ENTER)

    def until(self, holds: Callable[[], object]) -> None:
        end = time.monotonic() + 15
        while not holds():
            self.assertLess(time.monotonic(), end, self.text("answer") + self.text("refusal"))
            time.sleep(0.02)

    def rows(self) -> list:
        return [
            tuple(cell.get_property("textContent") for cell in row.find_elements(By.TAG_NAME, "td"))
            for row in self.browser.find_elements(By.CSS_SELECTOR, "#concepts tr")
        ]

    def concepts(self, places: list) -> list:
        return [(str(release.IDENTIFIERS[it]), release.name(it)) for it in places]

    def test_pages_of_a_constraint(self) -> None:
        below = release.descendants(1)
        self.ask(f"<{BRANCH}")
        self.until(lambda: self.text("total") == "1,092 concepts")
        self.assertEqual(self.rows(), self.concepts(below[:20]))
        self.assertRegex(self.text("time"), "^[0-9]+ ms$")
        self.assertEqual(self.text("range"), "1 to 20 of 1,092")
        self.assertFalse(self.at("previous").is_enabled())
        self.at("next").click()
        self.until(lambda: self.text("range") == "21 to 40 of 1,092")
        self.assertEqual(self.rows(), self.concepts(below[20:40]))
        self.at("previous").click()
        self.until(lambda: self.text("range") == "1 to 20 of 1,092")
        self.assertEqual(self.rows(), self.concepts(below[:20]))

    def test_words(self) -> None:
        self.ask("*", "conc 2999")
        self.until(lambda: self.text("total") == "1 concept")
        self.assertEqual(self.rows(), self.concepts([2999]))
        self.assertFalse(self.at("pages").is_displayed())

    def test_a_refusal_and_its_caret(self) -> None:
        self.ask("100005 XOR 101009")
        self.until(lambda: self.at("refusal").is_displayed())
        self.assertIn("at byte 7", self.text("reason"))
        self.assertEqual(self.text("refused"), "100005 X^OR 101009")
        self.check_caret()
        left = self.browser.execute_script("return document.getElementById('refused').getClientRects()[0].left")
        place = self.browser.execute_script(_PLACES)
        self.assertAlmostEqual((place[0] - left) / place[2], 7, delta=0.2)
        self.ask(str(ROOT))
        self.until(lambda: self.text("total") == "1 concept")
        self.assertFalse(self.at("refusal").is_displayed())

    def check_caret(self) -> None:
        """Checks that the caret is drawn under the character of the byte."""
        left, bottom, width, caret_left, caret_top, caret_width = self.browser.execute_script(_PLACES)
        self.assertAlmostEqual(left, caret_left, delta=1)
        self.assertLess(abs(caret_top - bottom), 12)
        self.assertLessEqual(caret_width, width + 1)

    @unittest.skipUnless(sample.IS_BUILT, "the stand-in does not know where a text is refused")
    def test_carets_after_other_characters(self) -> None:
        for constraint, character in (
            ("* |naïve 😀| AND §", "§"),
            ("*\nAND |é| ?*", "?"),
            ("<<404684003 ~ 12", "~"),
            ("* AND 日", "日"),
        ):
            self.ask(constraint)
            self.until(lambda: character + "^" in self.text("refused"))
            self.assertEqual(self.text("refused").replace("^", ""), constraint.split("\n")[-1])
            self.check_caret()

    def test_texts_that_could_be_elements(self) -> None:
        hostile = "<img src=x onerror=alert(1)>*</script><script>alert(1)</script>"
        self.ask(hostile)
        self.until(lambda: self.at("refusal").is_displayed())
        self.assertEqual(self.browser.find_elements(By.CSS_SELECTOR, "img"), [])
        self.ask(str(ROOT), hostile)
        self.until(lambda: self.text("total") == "0 concepts")

    def test_a_plan(self) -> None:
        self.ask(f"<<{BRANCH}")
        self.until(lambda: self.text("total") == "1,093 concepts")
        self.browser.execute_script("document.getElementById('plan').open = true")
        self.until(lambda: self.text("bound"))
        steps = [row.get_property("textContent") for row in self.browser.find_elements(By.CSS_SELECTOR, "#steps tr")]
        self.assertEqual(len(steps), 2)
        self.assertTrue(steps[0].startswith("descendants-self"))
        self.assertTrue(steps[1].startswith(f"  one {BRANCH}"))

    def test_a_concept(self) -> None:
        self.ask(str(release.IDENTIFIERS[sample.OWNER]))
        self.until(lambda: self.text("total") == "1 concept")
        self.browser.find_element(By.CSS_SELECTOR, "#concepts button").click()
        self.until(lambda: "Reference sets" in self.text("one"))
        for text in (
            release.name(sample.OWNER),
            "Parents",
            str(BRANCH),
            "Children",
            "Group",
            "2.5",
            release.name(sample.TYPE),
        ):
            self.assertIn(text, self.text("one"))
        self.browser.find_element(By.CSS_SELECTOR, "#one button").click()
        self.until(lambda: self.text("one").startswith(release.name(1)))


if __name__ == "__main__":
    unittest.main()
