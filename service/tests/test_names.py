"""The index of names, by itself."""
import os
import sqlite3
import tempfile
import threading
import unittest
from typing import Iterator

import sample  # noqa: F401
from hosecrag import Concept
from names import Names

TERMS = ["Lumbar vertebra", "Œdème of Lung", "naïve T-cell", "non-A, non-B hepatitis", None, "x" * 4000, "ﬁnding 2²"]
CONCEPTS = [Concept(10**17 * 9 + 7 * place, term) for place, term in enumerate(TERMS)]


def read_all() -> Iterator[Concept]:
    return iter(CONCEPTS)


class Index(unittest.TestCase):
    def names(self, path: object = None) -> Names:
        names = Names(path)
        self.addCleanup(names.close)
        names.make(read_all)
        return names

    def found(self, names: Names, text: str, most: int = 100) -> object:
        found = names.find(text, most)
        return None if found is None else [(it - 10**17 * 9) // 7 for it in found]

    def test_words(self) -> None:
        names = self.names()
        for text, wanted in (
            ("lum", [0]),
            ("VERT lumb", [0]),
            ("naive", [2]),
            ("naïve t", [2]),
            ("cell-T", [2]),
            ("non a b", [3]),
            ("l", [0, 1]),
            ("b lun", []),
            ("", []),
            ("-", []),
            ("x", [5]),
            ("x" * 4000, [5]),
            ("x" * 4001, []),
        ):
            self.assertEqual(self.found(names, text), wanted, text)

    def test_more_than_the_most(self) -> None:
        names = self.names()
        self.assertEqual(self.found(names, "l", 2), [0, 1])
        self.assertIsNone(self.found(names, "l", 1))

    def test_more_words_than_the_most(self) -> None:
        names = self.names()
        self.assertEqual(self.found(names, " ".join(f"w{it}" for it in range(10, 42))), [])
        self.assertIsNone(self.found(names, " ".join(f"w{it}" for it in range(10, 43))))
        self.assertEqual(self.found(names, "vertebra " * 50 + "v ve ver l lu"), [0])

    def test_threads(self) -> None:
        names, wrong = self.names(), []

        def ask() -> None:
            for _ in range(200):
                if self.found(names, "lum") != [0] or self.found(names, "t cell") != [2]:
                    wrong.append(1)

        threads = [threading.Thread(target=ask) for _ in range(4)]
        for thread in threads:
            thread.start()
        for thread in threads:
            thread.join()
        self.assertEqual(wrong, [])

    def test_a_file_of_names(self) -> None:
        with tempfile.TemporaryDirectory() as folder:
            path = os.path.join(folder, "names.sqlite")
            self.assertEqual(self.found(self.names(path), "lum"), [0])
            made = os.stat(path)
            self.assertEqual(self.found(self.names(path), "lum"), [0])
            self.assertEqual((os.stat(path).st_ino, os.stat(path).st_mtime_ns), (made.st_ino, made.st_mtime_ns))
            other = Names(path)
            other.make(lambda: iter([Concept(100005, "Lung")]))
            self.assertEqual((other.find("lu", 9), other.find("vert", 9)), ([100005], []))
            other.close()
            self.assertEqual(sorted(os.listdir(folder)), ["names.sqlite", "names.sqlite.lock"])

    def test_a_file_that_is_none(self) -> None:
        with tempfile.TemporaryDirectory() as folder:
            path = os.path.join(folder, "names.sqlite")
            for text in ("", "no database" * 500):
                with open(path, "w") as file:
                    file.write(text)
                self.assertEqual(self.found(self.names(path), "lum"), [0])

    def test_a_file_that_is_cut_off(self) -> None:
        with tempfile.TemporaryDirectory() as folder:
            path = os.path.join(folder, "names.sqlite")

            def fails() -> Iterator[Concept]:
                yield CONCEPTS[0]
                if os.path.exists(f"{path}.lock"):
                    raise sqlite3.OperationalError("disk full")

            names = Names(path)
            self.addCleanup(names.close)
            with self.assertRaises(sqlite3.OperationalError):
                names.make(fails)
            self.assertFalse(names.is_made)
            self.assertEqual(self.found(self.names(path), "vert"), [0])
            self.assertEqual(sorted(os.listdir(folder)), ["names.sqlite", "names.sqlite.lock"])


if __name__ == "__main__":
    unittest.main()
