"""What one object is asked, one call after another."""
import os
import tempfile
import unittest
from typing import Callable

import release
import support
from hosecrag import Concept, Fault, Hosecrag, NoIdentifier, Refused, ReleaseRefused, TooCostly

ROOT, SMALL = release.IDENTIFIERS[0], release.IDENTIFIERS[700]


class Calls(unittest.TestCase):
    engine: Hosecrag

    @classmethod
    def setUpClass(cls) -> None:
        cls.engine = support.engine()

    @classmethod
    def tearDownClass(cls) -> None:
        cls.engine.close()

    def test_expand(self) -> None:
        for constraint, places in support.CONSTRAINTS:
            found = self.engine.expand(constraint)
            self.assertEqual((found.total, found), (len(places), support.concepts(places)))

    def test_pages(self) -> None:
        places = [0, *release.descendants(0)]
        for offset, first in ((0, 20), (2990, 20), (3000, 5), (7000, None), (5, 0), (3, None), (0, None)):
            end = None if first is None else offset + first
            found = self.engine.expand("*", offset=offset, first=first)
            self.assertEqual((found.total, found), (len(places), support.concepts(places[offset:end])))
            found = self.engine.expand("*", offset=offset, first=first, names=False)
            self.assertEqual(found, [Concept(release.IDENTIFIERS[it]) for it in places[offset:end]])

    def test_numbers_of_a_page(self) -> None:
        for offset, first, limit in ((-1, 0, 0), (0, -1, 0), (0, 0, -1), (1 << 64, 0, 0), (0, 0, 1 << 64)):
            with self.assertRaises(ValueError):
                self.engine.expand("*", offset=offset, first=first, limit=limit)
        self.assertEqual(self.engine.expand("*", offset=(1 << 64) - 1).total, release.CONCEPTS)

    def test_count_and_is_member(self) -> None:
        for constraint, places in support.CONSTRAINTS:
            self.assertEqual(self.engine.count(constraint), len(places))
            for place in (0, 1, 700, 2105, 2999):
                self.assertEqual(self.engine.is_member(release.IDENTIFIERS[place], constraint), place in places)

    def test_numbers_that_are_no_identifiers(self) -> None:
        for number in (5, 0, -1, ROOT + 1, 10**18, release.UNKNOWN):
            self.assertFalse(self.engine.is_member(number, "*"))
        with self.assertRaises(Refused):
            self.engine.is_member(5, "100005 XOR 101009")

    def test_refusals(self) -> None:
        calls: list[Callable[[str], object]] = [
            self.engine.expand,
            self.engine.count,
            self.engine.explain,
            self.engine.check,
        ]
        calls.append(lambda it: self.engine.is_member(ROOT, it))
        for call in calls:
            for text, wanted in (
                ("100005 XOR 101009", ("token", 7, None)),
                ("*{{C active=1}}", ("unsupported", 1, "filter")),
                ("*) OR (*", ("syntax", None, None)),
                ("", ("syntax", None, None)),
                (" \n ", ("syntax", None, None)),
                (" " * 70000, ("long", None, None)),
            ):
                with self.assertRaises(Refused) as caught:
                    call(text)
                self.assertEqual((caught.exception.cause, caught.exception.offset, caught.exception.form), wanted)
            self.assertEqual(self.engine.count("*"), release.CONCEPTS)

    def test_texts_that_no_line_can_hold(self) -> None:
        with self.assertRaises(ValueError):
            self.engine.count("\udc80")
        self.assertEqual(
            self.engine.count(f"<<{ROOT}\n |a term\nof two lines| \r\n/* and a comment */"), release.CONCEPTS
        )
        self.assertTrue(self.engine.is_member(SMALL, f"<<{ROOT}\nAND <<{SMALL}"))

    def test_limit(self) -> None:
        calls: list[Callable[..., object]] = [self.engine.expand, self.engine.count]
        calls.append(lambda it, limit: self.engine.is_member(ROOT, it, limit=limit))
        for call in calls:
            with self.assertRaises(TooCostly) as caught:
                call(f"<<{ROOT}", limit=0)
            self.assertGreater(caught.exception.bound, 0)
        self.assertEqual(self.engine.count(str(ROOT), limit=0), 1)
        self.assertEqual(self.engine.count(f"<<{ROOT}", limit=10**8), release.CONCEPTS)

    def test_explain(self) -> None:
        plan = self.engine.explain(f"<<{SMALL}")
        self.assertEqual([(it.depth, it.text) for it in plan.nodes], [(0, "descendants-self"), (1, f"one {SMALL}")])
        self.assertEqual(sum(it.bound for it in plan.nodes), plan.bound)
        self.assertEqual(self.engine.count(str(ROOT)), 1)

    def test_describe(self) -> None:
        for place in (0, 1, 5, 700, 2999):
            found = self.engine.describe(release.IDENTIFIERS[place])
            self.assertEqual((found.state, [found.concept]), ("active", support.concepts([place])))
            self.assertEqual(found.parents, support.concepts([(place - 1) // 3] if place else []))
            self.assertEqual(found.children, support.concepts(release.children(place)))
            self.assertEqual((found.attributes, found.reference_sets), ([], []))
            self.assertEqual(self.engine.describe(f" {release.IDENTIFIERS[place]} |a\nterm|"), found)
        found = self.engine.describe(release.UNKNOWN)
        self.assertEqual((found.state, found.concept), ("unknown", Concept(release.UNKNOWN)))
        for text, cause in (("5", "length"), ("", "length"), (str(ROOT + 1), "check")):
            with self.assertRaises(NoIdentifier) as caught:
                self.engine.describe(text)
            self.assertEqual(caught.exception.cause, cause)


class Starts(unittest.TestCase):
    def test_folders_that_are_refused(self) -> None:
        with tempfile.TemporaryDirectory() as empty:
            with self.assertRaises(ReleaseRefused) as caught:
                Hosecrag(empty, program=support.PROGRAM)
            self.assertEqual(str(caught.exception), "REFUSED no-concept-file")
            late = Hosecrag(empty, program=support.PROGRAM, wait=False)
            for _ in range(2):
                with self.assertRaises(ReleaseRefused):
                    late.count("*")
            self.assertFalse(late.is_ready())
            late.close()
        with self.assertRaises(Fault) as fault:
            Hosecrag("/nowhere", program=support.PROGRAM)
        self.assertEqual(fault.exception.status, 1)
        with self.assertRaises(ValueError):
            Hosecrag(program=support.PROGRAM)

    def test_programs_that_are_none(self) -> None:
        for program in ("/nowhere", os.path.dirname(support.HERE), os.path.join(support.HERE, "release.py")):
            with self.assertRaises(Fault) as caught:
                Hosecrag(support.FOLDER, program=program)
            self.assertIn("there is no built program", str(caught.exception))
        with self.assertRaises(Fault):
            Hosecrag(support.FOLDER, program="/bin/true")
        with self.assertRaises(Fault):
            Hosecrag(support.FOLDER, program="/bin/echo")

    def test_the_script_is_taken_for_its_program(self) -> None:
        with tempfile.TemporaryDirectory() as top:
            os.makedirs(f"{top}/crates/hosecrag/out")
            os.symlink(os.path.realpath(support.PROGRAM), f"{top}/crates/hosecrag/out/hosecrag")
            with open(f"{top}/hosecrag", "w") as script:
                script.write("#!/bin/sh\nexit 1\n")
            os.chmod(f"{top}/hosecrag", 0o755)
            with Hosecrag(support.FOLDER, program=f"{top}/hosecrag") as engine:
                self.assertEqual(engine.count(str(ROOT)), 1)

    def test_close(self) -> None:
        with support.engine() as engine:
            pid = engine.pid or 0
        engine.close()
        with self.assertRaises(ValueError):
            engine.count("*")
        self.assertFalse(engine.is_ready())
        with self.assertRaises(ProcessLookupError):
            os.kill(pid, 0)

    def test_an_object_that_is_dropped(self) -> None:
        engine = support.engine()
        pid = engine.pid or 0
        del engine
        with self.assertRaises(ProcessLookupError):
            os.kill(pid, 0)


if __name__ == "__main__":
    unittest.main()
