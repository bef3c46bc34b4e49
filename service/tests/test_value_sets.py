"""Which constraint the URL of an implicit value set stands for."""
import unittest
import urllib.parse

import sample  # noqa: F401
from problems import Problem
from sample import EDITION, SNOMED_CT, VERSION
from value_sets import constraint_of, is_identifier

BASES = (SNOMED_CT, EDITION, VERSION)

TEXTS = (
    "<<404684003",
    "<<404684003 |100% sure|",
    "<<404684003 |100%25 sure|",
    "*|a#b?c&d=e+f|",
    "<<404684003 |naïve 😀|:{[2..*]363698007=*}\nOR 404684003",
    "404684003 /* %2A/ */",
)


class ValueSets(unittest.TestCase):
    def test_forms(self) -> None:
        for base in BASES:
            for form, wanted in (
                ("fhir_vs", "*"),
                ("fhir_vs=", "*"),
                ("fhir_vs=isa/404684003", "<<404684003"),
                ("fhir_vs=refset", "<900000000000455006"),
                ("fhir_vs=refset/733073007", "^733073007"),
                ("fhir_vs=ecl/*|x|#", "*|x|#"),
                ("fhir_vs=ecl/", ""),
            ):
                self.assertEqual(constraint_of(f"{base}?{form}", VERSION), wanted)

    def test_constraints_are_encoded_or_not(self) -> None:
        for text in TEXTS:
            for url in (text, urllib.parse.quote(text, safe=""), urllib.parse.quote(text)):
                self.assertEqual(constraint_of(f"{SNOMED_CT}?fhir_vs=ecl/{url}", None), text)

    def test_percent_signs_that_encode_nothing(self) -> None:
        for text in ("404684003%2", "404684003%zz", "%", "%%41"):
            self.assertEqual(constraint_of(f"{SNOMED_CT}?fhir_vs=ecl/{text}", None), text)

    def test_problems(self) -> None:
        other = VERSION.replace("2024", "2023")
        for url, status in (
            ("http://snomed.info/sct", 404),
            ("http://snomed.info/sct?", 404),
            ("http://snomed.info/sct?x=ecl/*", 404),
            ("http://snomed.info/sct/?fhir_vs", 404),
            ("http://snomed.info/sct/x?fhir_vs", 404),
            ("http://snomed.info/sct\n?fhir_vs", 404),
            (f"{other}?fhir_vs", 404),
            (f"{SNOMED_CT}/731000124108?fhir_vs", 404),
            ("http://loinc.org?fhir_vs", 404),
            (f"{SNOMED_CT}?fhir_vs=isa/404684003\n*", 404),
            (f"{SNOMED_CT}?fhir_vs=isa/404684003 OR *", 404),
            (f"{SNOMED_CT}?fhir_vs=isa/\uff14\uff10\uff14\uff16\uff18\uff14", 404),
            (f"{SNOMED_CT}?fhir_vs=refset/", 404),
            (f"{SNOMED_CT}?fhir_vs=ecl", 404),
            (f"{SNOMED_CT}?fhir_vs=other/404684003", 404),
            (f"{SNOMED_CT}?fhir_vs=ecl/%FF%FE", 400),
            (f"{SNOMED_CT}?fhir_vs=ecl/{'*' * 8193}", 413),
        ):
            with self.assertRaises(Problem, msg=url) as caught:
                constraint_of(url, VERSION)
            self.assertEqual(caught.exception.status, status, url)
        with self.assertRaises(Problem):
            constraint_of(f"{VERSION}?fhir_vs", None)

    def test_identifiers(self) -> None:
        for text, wanted in (
            ("404684003", True),
            ("40468", False),
            ("0404684003", False),
            ("404684003\n", False),
            ("4" * 18, True),
            ("4" * 19, False),
            ("\uff14" * 6, False),
            ("4" + "\uff14" * 8, False),
            ("", False),
        ):
            self.assertEqual(is_identifier(text), wanted)


if __name__ == "__main__":
    unittest.main()
