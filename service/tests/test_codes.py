"""Single codes: whether they are valid, what the release has of them, and how two stand to each other."""
import unittest

import sample
from sample import release
from sample import BRANCH, INACTIVE, LEAF, OWNER, ROOT, SNOMED_CT, VERSION, ecl, get, issue_of, value_of

IN_SET, IN_SYSTEM = "/fhir/ValueSet/$validate-code", "/fhir/CodeSystem/$validate-code"
LOOK_UP, SUBSUMES = "/fhir/CodeSystem/$lookup", "/fhir/CodeSystem/$subsumes"

# Texts that are no identifier of a concept.
NO_IDENTIFIERS = (
    f"{ROOT}\n*",
    f"{ROOT} OR *",
    f"{ROOT})",
    f"{ROOT} ",
    f" {ROOT}",
    f"0{ROOT}",
    str(ROOT + 1),
    "4" * 19,
    "12345",
    "0",
    "\uff14\uff10\uff14\uff16\uff18\uff14\uff10\uff10\uff13",
    "4\uff10\uff14\uff16\uff18\uff14\uff10\uff10\uff13",
    "*",
    "x",
    "-1",
    "1e9",
    f"{ROOT}|x|",
    f"{ROOT}\x00",
    "1" * 70_000,
)


class Codes(unittest.TestCase):
    @classmethod
    def setUpClass(cls) -> None:
        cls.service = sample.shared()

    def validate(self, path: str = IN_SET, **parameters: object) -> tuple:
        """Returns the result, the message and the display."""
        answer = get(self.service, path, **parameters)
        self.assertEqual(answer.status, 200, answer.body)
        return tuple(value_of(answer, name) for name in ("result", "message", "display"))

    def test_codes_of_a_value_set(self) -> None:
        for place in (0, 1, 2, 40, 700, 2999):
            for url, members in (
                (ecl("*"), range(release.CONCEPTS)),
                (ecl(f"<{BRANCH}"), release.descendants(1)),
                (f"{SNOMED_CT}?fhir_vs=isa/{BRANCH}", [1, *release.descendants(1)]),
            ):
                code = str(release.IDENTIFIERS[place])
                found = self.validate(url=url, code=code, system=SNOMED_CT)
                if place in members:
                    self.assertEqual(found, (True, None, release.name(place)))
                else:
                    self.assertEqual(found, (False, f"{code} is not in the value set", None))

    def test_reasons(self) -> None:
        for path, url in ((IN_SET, ecl("*")), (IN_SYSTEM, SNOMED_CT)):
            for code, reason in (
                (INACTIVE, "inactive"),
                (release.UNKNOWN, "unknown"),
                (ROOT + 1, "check digit"),
                ("12345", "6 to 18 digits"),
                (f"0{ROOT}", "zero"),
                ("x", "digits"),
            ):
                result, message, display = self.validate(path, url=url, code=code, system=SNOMED_CT)
                self.assertEqual((result, display), (False, None))
                self.assertIn(reason, message)

    def test_texts_that_are_no_identifiers(self) -> None:
        for code in NO_IDENTIFIERS:
            if len(code) < 1000:
                self.assertFalse(self.validate(url=ecl("*"), code=code, system=SNOMED_CT)[0], code)
            else:
                self.assertEqual(issue_of(get(self.service, IN_SET, url=ecl("*"), code=code)), (413, "too-long"))

    def test_displays(self) -> None:
        for path, url in ((IN_SET, ecl("*")), (IN_SYSTEM, SNOMED_CT)):
            code = {"url": url, "code": str(BRANCH), "system": SNOMED_CT}
            self.assertEqual(self.validate(path, **code, display=release.name(1)), (True, None, release.name(1)))
            result, message, display = self.validate(path, **code, display="another")
            self.assertEqual((result, display), (False, release.name(1)))
            self.assertIn("another", message)

    def test_codings(self) -> None:
        coding = {"system": SNOMED_CT, "code": str(BRANCH), "display": release.name(1), "version": VERSION}
        for path, url in ((IN_SET, ecl(f"<<{BRANCH}")), (IN_SYSTEM, SNOMED_CT)):
            body = sample.body_of(url=("valueUri", url), coding=("valueCoding", coding))
            self.assertEqual(value_of(sample.post(self.service, path, body), "result"), True)
        body = sample.body_of(coding=("valueCoding", coding))
        self.assertEqual(value_of(sample.post(self.service, LOOK_UP, body), "display"), release.name(1))
        pair = {"codingA": ("valueCoding", coding), "codingB": ("valueCoding", {**coding, "code": str(ROOT)})}
        self.assertEqual(
            value_of(sample.post(self.service, SUBSUMES, sample.body_of(**pair)), "outcome"), "subsumed-by"
        )

    def test_systems_and_versions(self) -> None:
        code = {"code": str(ROOT)}
        self.assertFalse(self.validate(url=ecl("*"), **code, system="http://loinc.org")[0])
        self.assertEqual(issue_of(get(self.service, IN_SET, url=ecl("*"), **code)), (400, "required"))
        self.assertEqual(issue_of(get(self.service, IN_SET, url=ecl("*"), system=SNOMED_CT)), (400, "required"))
        for path in (IN_SYSTEM, LOOK_UP):
            name = "url" if path == IN_SYSTEM else "system"
            self.assertEqual(issue_of(get(self.service, path, **code)), (400, "required"))
            self.assertEqual(
                issue_of(get(self.service, path, **code, **{name: "http://loinc.org"})), (404, "not-found")
            )
            system = {name: SNOMED_CT, "version": VERSION.replace("2024", "2023")}
            self.assertEqual(issue_of(get(self.service, path, **code, **system)), (404, "not-found"))
            self.assertEqual(get(self.service, path, **code, **{name: SNOMED_CT, "version": VERSION}).status, 200)

    def test_hostile_constraints(self) -> None:
        for constraint in ("*) OR (*", "100005 XOR 101009", "*) MINUS (*", "*)\n(*", "* /*", "*|", "", "\x00", "*\x00"):
            answer = get(self.service, IN_SET, url=ecl(constraint), code=str(ROOT), system=SNOMED_CT)
            self.assertEqual(issue_of(answer), (400, "invalid"), constraint)

    def test_lookup(self) -> None:
        answer = get(self.service, LOOK_UP, system=SNOMED_CT, code=str(release.IDENTIFIERS[OWNER]))
        self.assertEqual(value_of(answer, "name"), "SNOMED CT")
        self.assertEqual(value_of(answer, "version"), VERSION)
        self.assertEqual(value_of(answer, "display"), release.name(OWNER))
        simple, groups = _properties(answer)
        code = [str(it) for it in release.IDENTIFIERS]
        self.assertEqual(
            simple,
            [
                ("inactive", False, None),
                ("parent", code[1], release.name(1)),
                *[("child", code[it], release.name(it)) for it in release.children(OWNER)],
                (code[sample.OTHER_TYPE], code[sample.VALUE], release.name(sample.VALUE)),
                ("refset", code[sample.SET], release.name(sample.SET)),
            ],
        )
        self.assertEqual(
            groups,
            [
                [
                    (code[sample.TYPE], code[sample.VALUE], release.name(sample.VALUE)),
                    (code[sample.OTHER_TYPE], 2.5, None),
                ],
                [(code[sample.TYPE], "0.100000000000000001", None)],
            ],
        )

    def test_some_properties(self) -> None:
        answer = get(self.service, LOOK_UP, system=SNOMED_CT, code=str(BRANCH), property="parent")
        self.assertEqual(_properties(answer), ([("parent", str(ROOT), release.name(0))], []))

    def test_lookup_of_others(self) -> None:
        answer = get(self.service, LOOK_UP, system=SNOMED_CT, code=str(INACTIVE))
        self.assertEqual(
            (value_of(answer, "display"), _properties(answer)[0]), (str(INACTIVE), [("inactive", True, None)])
        )
        for code in (str(release.UNKNOWN), *NO_IDENTIFIERS[:-1]):
            answer = get(self.service, LOOK_UP, system=SNOMED_CT, code=code)
            self.assertEqual(issue_of(answer), (404, "not-found"), code)

    def test_subsumes(self) -> None:
        for first, second, outcome in (
            (ROOT, LEAF, "subsumes"),
            (LEAF, ROOT, "subsumed-by"),
            (LEAF, LEAF, "equivalent"),
            (BRANCH, release.IDENTIFIERS[2], "not-subsumed"),
        ):
            answer = get(self.service, SUBSUMES, system=SNOMED_CT, codeA=first, codeB=second)
            self.assertEqual(value_of(answer, "outcome"), outcome)
        for code in (str(INACTIVE), str(release.UNKNOWN), *NO_IDENTIFIERS[:-1]):
            for codes in ({"codeA": code, "codeB": str(ROOT)}, {"codeA": str(ROOT), "codeB": code}):
                answer = get(self.service, SUBSUMES, system=SNOMED_CT, **codes)
                self.assertEqual(issue_of(answer), (404, "not-found"), code)


def _properties(answer: sample.Answer) -> tuple:
    """Returns the code, value and description of each property, and those of each group, in order of their codes."""
    simple, groups = [], []
    for parameter in answer.json["parameter"]:
        if parameter["name"] != "property":
            continue
        if parameter["part"][0]["valueCode"] == "609096000":
            groups.append(sorted((_triple(it["part"]) for it in parameter["part"][1:]), key=lambda it: it[0]))
        else:
            simple.append(_triple(parameter["part"]))
    return simple, groups


def _triple(parts: list) -> tuple:
    found = {it["name"]: next(value for key, value in it.items() if key.startswith("value")) for it in parts}
    return found["code"], found["value"], found.get("description")


if __name__ == "__main__":
    unittest.main()
