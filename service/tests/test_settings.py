"""The settings, read from the environment."""
import os
import unittest

import sample  # noqa: F401
from settings import Settings, Unset, from_environment


class Environment(unittest.TestCase):
    def test_defaults(self) -> None:
        found = from_environment({"RELEASE": "a"})
        self.assertEqual(found, Settings(("a",), None, "en", None, 10**8, 2.0, None))
        empty = dict.fromkeys(("HOSECRAG", "NAME_LANGUAGE", "VERSION", "LIMIT", "SECONDS", "NAMES"), "")
        self.assertEqual(from_environment({"RELEASE": "a", **empty}), found)

    def test_all_of_them(self) -> None:
        found = from_environment(
            {
                "RELEASE": os.pathsep.join(("a", "", "b c")),
                "HOSECRAG": "program",
                "NAME_LANGUAGE": "da",
                "VERSION": sample.VERSION,
                "LIMIT": "0",
                "SECONDS": "0.5",
                "NAMES": "names.sqlite",
            }
        )
        self.assertEqual(found, Settings(("a", "b c"), "program", "da", sample.VERSION, 0, 0.5, "names.sqlite"))

    def test_what_is_refused(self) -> None:
        for changes in (
            {"RELEASE": ""},
            {"RELEASE": os.pathsep},
            {"LIMIT": "x"},
            {"LIMIT": "-1"},
            {"LIMIT": str(1 << 64)},
            {"SECONDS": "x"},
            {"SECONDS": "0"},
            {"SECONDS": "nan"},
            {"SECONDS": "inf"},
        ):
            with self.assertRaises(Unset):
                from_environment({"RELEASE": "a", **changes})


if __name__ == "__main__":
    unittest.main()
