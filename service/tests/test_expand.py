"""Pages of value sets, against the tree of the release."""
import unittest

import sample
from sample import release
from sample import BRANCH, EDITION, LEAF, OWNER, ROOT, SET, SNOMED_CT, VERSION, codes_of, ecl, get, issue_of

EXPAND = "/fhir/ValueSet/$expand"


def identifiers(places: list) -> list:
    return [release.IDENTIFIERS[it] for it in places]


class Pages(unittest.TestCase):
    @classmethod
    def setUpClass(cls) -> None:
        cls.service = sample.shared()

    def expand(self, **parameters: object) -> sample.Answer:
        return get(self.service, EXPAND, **parameters)

    def test_all_pages_of_constraints(self) -> None:
        everything = identifiers(range(release.CONCEPTS))
        below = identifiers(release.descendants(1))
        for url, wanted, count in (
            (f"{SNOMED_CT}?fhir_vs", everything, 700),
            (ecl("*"), everything, 1000),
            (ecl(f"<{BRANCH}"), below, 100),
            (f"{SNOMED_CT}?fhir_vs=isa/{BRANCH}", [BRANCH, *below], 333),
            (f"{EDITION}?fhir_vs=isa/{LEAF}", [LEAF], 1),
            (f"{VERSION}?fhir_vs=ecl/{LEAF}", [LEAF], 7),
            (f"{SNOMED_CT}?fhir_vs=refset/{release.IDENTIFIERS[SET]}", identifiers([OWNER]), 5),
        ):
            found: list = []
            while len(found) < len(wanted):
                answer = self.expand(url=url, offset=len(found), count=count)
                self.assertEqual((answer.status, answer.json["expansion"]["total"]), (200, len(wanted)))
                self.assertEqual(answer.json["expansion"]["offset"], len(found))
                self.assertEqual(len(codes_of(answer)), min(count, len(wanted) - len(found)))
                found += codes_of(answer)
            self.assertEqual(found, wanted)

    def test_names(self) -> None:
        contained = self.expand(url=ecl("*"), count=500).json["expansion"]["contains"]
        for place, item in enumerate(contained):
            wanted = {"system": SNOMED_CT, "code": str(release.IDENTIFIERS[place]), "display": release.name(place)}
            self.assertEqual(item, wanted)

    def test_reference_sets_of_the_release(self) -> None:
        answer = self.expand(url=f"{SNOMED_CT}?fhir_vs=refset")
        self.assertEqual((answer.status, answer.json["expansion"]["total"]), (200, 0))
        self.assertNotIn("contains", answer.json["expansion"])

    def test_counts(self) -> None:
        for count, wanted in ((0, 0), (1, 1), (10_001, release.CONCEPTS), (None, 100)):
            parameters = {} if count is None else {"count": count}
            answer = self.expand(url=ecl("*"), **parameters)
            self.assertEqual((answer.json["expansion"]["total"], len(codes_of(answer))), (release.CONCEPTS, wanted))
            self.assertEqual("contains" in answer.json["expansion"], wanted > 0)

    def test_offsets_after_the_end(self) -> None:
        for offset in (release.CONCEPTS, (1 << 31) - 1):
            answer = self.expand(url=ecl("*"), offset=offset)
            self.assertEqual((answer.json["expansion"]["total"], codes_of(answer)), (release.CONCEPTS, []))

    def test_what_an_expansion_tells_of_itself(self) -> None:
        url = ecl(f"<<{BRANCH}")
        answer = self.expand(url=url, count=20_000, offset=3, filter="concept")
        self.assertEqual((answer.json["resourceType"], answer.json["url"]), ("ValueSet", url))
        self.assertEqual(answer.json["status"], "active")
        self.assertRegex(answer.json["expansion"]["identifier"], "^urn:uuid:[0-9a-f-]{36}$")
        self.assertRegex(answer.json["expansion"]["timestamp"], "^20[0-9-]{8}T[0-9:]{8}Z$")
        self.assertEqual(
            {it["name"]: it[next(key for key in it if key != "name")] for it in answer.json["expansion"]["parameter"]},
            {
                "version": f"{SNOMED_CT}|{VERSION}",
                "count": 10_000,
                "offset": 3,
                "filter": "concept",
                "displayLanguage": "en",
                "limit": 10**8,
            },
        )

    def test_posted_parameters(self) -> None:
        for url in (ecl(f"<<{BRANCH}"), f"{SNOMED_CT}?fhir_vs=ecl/<<{BRANCH} |100% sure|"):
            body = sample.body_of(url=("valueUri", url), count=("valueInteger", 2), activeOnly=("valueBoolean", True))
            answer = sample.post(self.service, EXPAND, body)
            self.assertEqual(
                (answer.status, codes_of(answer)), (200, [BRANCH, *identifiers(release.descendants(1)[:1])])
            )

    def test_parameters_that_would_change_the_answer(self) -> None:
        for name, value in (
            ("includeDesignations", "true"),
            ("date", "2024"),
            ("displayLanguage", "da"),
            ("fliter", "x"),
            ("context", "x"),
            ("exclude-system", "x"),
            ("valueSetVersion", "1"),
        ):
            self.assertEqual(issue_of(self.expand(url=ecl("*"), **{name: value})), (422, "not-supported"))
        for name, value in (
            ("includeDesignations", "false"),
            ("activeOnly", "true"),
            ("displayLanguage", "en-GB"),
            ("_format", "json"),
            ("_pretty", "true"),
        ):
            self.assertEqual(self.expand(url=ecl("*"), **{name: value}).status, 200)

    def test_a_missing_url(self) -> None:
        self.assertEqual(issue_of(self.expand()), (400, "required"))
        self.assertEqual(issue_of(self.expand(url="")), (400, "required"))
        self.assertEqual(issue_of(self.expand(url="http://loinc.org/vs")), (404, "not-found"))


class Filters(unittest.TestCase):
    @classmethod
    def setUpClass(cls) -> None:
        cls.service = sample.shared()

    def expand(self, words: str, constraint: str = "*", **parameters: int) -> sample.Answer:
        return get(self.service, EXPAND, url=ecl(constraint), filter=words, **parameters)

    def found(self, words: str, constraint: str = "*") -> list:
        answer = self.expand(words, constraint, count=10_000)
        self.assertEqual(answer.status, 200, answer.body)
        self.assertEqual(answer.json["expansion"]["total"], len(codes_of(answer)))
        return codes_of(answer)

    def test_words_and_their_beginnings(self) -> None:
        for words, wanted in (
            ("concept 29", [it for it in range(release.CONCEPTS) if str(it).startswith("29")]),
            ("29 CONC", [it for it in range(release.CONCEPTS) if str(it).startswith("29")]),
            ("e 2999", [2999]),
            ("É 2999 find", [2999]),
            ("(finding) 17", [it for it in range(release.CONCEPTS) if str(it).startswith("17")]),
            ("nothing", []),
            ("9 99 999", [999]),
        ):
            self.assertEqual(self.found(words), identifiers(wanted))

    def test_a_filter_and_a_constraint(self) -> None:
        below = set(release.descendants(1))
        wanted = identifiers([it for it in range(release.CONCEPTS) if str(it).startswith("2") and it in below])
        self.assertEqual(self.found("concept 2", f"<{BRANCH}"), wanted)
        self.assertEqual(self.found("concept 2", f"<{LEAF}"), [])

    def test_all_pages_of_a_filter(self) -> None:
        wanted, found = [ROOT, *identifiers(release.descendants(0))], []
        wanted.sort()
        while len(found) < len(wanted):
            answer = self.expand("concept", f"<<{ROOT}", offset=len(found), count=450)
            self.assertEqual(answer.json["expansion"]["total"], release.CONCEPTS)
            found += codes_of(answer)
        self.assertEqual(found, wanted)
        answer = self.expand("concept", offset=release.CONCEPTS, count=5)
        self.assertEqual((answer.json["expansion"]["total"], codes_of(answer)), (release.CONCEPTS, []))
        self.assertEqual(codes_of(self.expand("concept", count=0)), [])

    def test_texts_that_the_index_could_take_for_its_own_syntax(self) -> None:
        for words in ('"', "(", ")", "*", "-", "^", "+", "💊", "\x00", "'", "\\", ":", "{", ",", "_", "NOT", "x" * 5000):
            self.assertEqual(self.found(words), [])
        for words in ('conc" 2999', "(conc 2999", "conc* 2999", "conc^2999", "con-2999", "{conc 2999}", "conc\x002999"):
            self.assertEqual(self.found(words), [LEAF])
        for words in (
            "conc OR 2999",
            "term:conc",
            "conc NEAR 2999",
            'a"b',
            "lom OR leu",
            "NEAR(conc 2999, 5)",
            "conc AND",
        ):
            self.assertEqual(self.found(words), [])

    def test_blank_filters_are_none(self) -> None:
        for words in ("", " ", "\n"):
            self.assertEqual(self.expand(words).json["expansion"]["total"], release.CONCEPTS)

    def test_a_constraint_is_judged_by_itself(self) -> None:
        for constraint in ("*) OR (*", "100005 XOR 101009"):
            for words in ("concept", "nothing"):
                self.assertEqual(issue_of(self.expand(words, constraint)), (400, "invalid"))


class Limits(unittest.TestCase):
    def test_names_that_are_too_many(self) -> None:
        import worker

        before, worker.MOST_FOUND = worker.MOST_FOUND, 100
        try:
            answer = get(sample.shared(), EXPAND, url=ecl("*"), filter="concept")
        finally:
            worker.MOST_FOUND = before
        self.assertEqual(issue_of(answer), (422, "too-costly"))

    def test_pieces(self) -> None:
        import operations

        most = [10**17 * 9 + it for it in range(10_000)]
        for length in (1, 8192):
            pieces = list(operations._pieces(most, length))
            self.assertLess(max(map(len, pieces)) + length, 65_100)
            self.assertEqual([int(it) for piece in pieces for it in piece.split(" OR ")], most)
        self.assertEqual(list(operations._pieces([], 1)), [])

    def test_a_limit_on_visits(self) -> None:
        service = sample.Service(sample.settings(limit=100))
        self.addCleanup(service.close)
        sample.await_ready(service)
        url = ecl(f"<<{ROOT}")
        answer = get(service, EXPAND, url=url)
        self.assertEqual(issue_of(answer), (422, "too-costly"))
        (extension,) = answer.json["issue"][0]["extension"]
        self.assertGreater(extension["valueDecimal"], 100)
        self.assertEqual(get(service, "/explain", url=url).status, 200)


if __name__ == "__main__":
    unittest.main()
