"""The lines of answers, as the documents of the program have them."""
import unittest
from decimal import Decimal

import support  # noqa: F401
from hosecrag import Concept, NoIdentifier, Node, Refused, TooCostly, answers

TYPE_T, TYPE_U = Concept(104001, "Type T (attribute)"), Concept(105000, "Type U (attribute)")
NAMES = {104001: "Type T (attribute)", 105000: "Type U (attribute)"}


class Lines(unittest.TestCase):
    def test_concepts(self) -> None:
        self.assertEqual(
            answers.concepts_of(b"101009 |Beta (finding)|\n108003\n103007 |a\r| \xc2\x85|b|\n"),
            [Concept(101009, "Beta (finding)"), Concept(108003), Concept(103007, "a\r| \x85|b")],
        )
        self.assertEqual(answers.concepts_of(b""), [])
        self.assertEqual(answers.identifiers_of(b"101009\n103007\n"), [Concept(101009), Concept(103007)])

    def test_plan(self) -> None:
        lines = [
            "PLAN 17",
            "and 10",
            " descendants 4",
            "  one 100005 0",
            " pairs out 1..* within by value 3",
            "  one 104001 0",
        ]
        plan = answers.plan_of(lines)
        self.assertEqual(plan.bound, 17)
        self.assertEqual(
            plan.nodes,
            [
                Node(0, "and", 10),
                Node(1, "descendants", 4),
                Node(2, "one 100005", 0),
                Node(1, "pairs out 1..* within by value", 3),
                Node(2, "one 104001", 0),
            ],
        )

    def test_attributes(self) -> None:
        def row(line: str) -> answers.Attribute:
            return answers.attribute_of(line, NAMES)

        self.assertEqual(
            row("1 104001 |Type T (attribute)| 106004 |Value X (value)|"),
            (1, TYPE_T, Concept(106004, "Value X (value)")),
        )
        self.assertEqual(row("2 105000 |Type U (attribute)| #2.5"), (2, TYPE_U, Decimal("2.5")))
        self.assertEqual(row("0 105000 |Type U (attribute)| #-3"), (0, TYPE_U, Decimal(-3)))
        self.assertEqual(row("0 104001 |Type T (attribute)| a| b"), (0, TYPE_T, "a| b"))
        self.assertEqual(row("0 104001 |Type T (attribute)| "), (0, TYPE_T, ""))
        self.assertEqual(row("7 246075003 106004"), (7, Concept(246075003), Concept(106004)))
        self.assertEqual(row("7 246075003 |a| b"), (7, Concept(246075003), "|a| b"))

    def test_a_name_that_ends_early(self) -> None:
        line = "1 104001 |x| 105000 |y| 106004 |z|"
        self.assertEqual(
            answers.attribute_of(line, {104001: "x| 105000 |y"}),
            (1, Concept(104001, "x| 105000 |y"), Concept(106004, "z")),
        )
        self.assertEqual(answers.attribute_of(line, {104001: "x"}).value, Concept(105000, "y| 106004 |z"))

    def test_errors(self) -> None:
        self.assertEqual(
            vars(Refused("ERR unsupported 1 filter")), {"cause": "unsupported", "offset": 1, "form": "filter"}
        )
        self.assertEqual(vars(Refused("ERR syntax")), {"cause": "syntax", "offset": None, "form": None})
        self.assertEqual(TooCostly("ERR bound 17").bound, 17)
        self.assertEqual((NoIdentifier("ERR id check").cause, NoIdentifier("ERR utf8").cause), ("check", "utf8"))


if __name__ == "__main__":
    unittest.main()
