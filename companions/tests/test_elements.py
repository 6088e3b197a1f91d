"""Elements and values, by what bagit-python and bagit-renew document."""
import unittest
from datetime import date
from typing import List

from bagitkeep.elements import (
    LABELS,
    elements_in,
    info_of,
    options_of,
    refresh,
    why_not,
    words_of,
)
from bagitkeep.errors import BagError
from bagitkeep.tags import Element

TWICE: List[Element] = [("a", "1"), ("b", "2"), ("a", "3")]


class Values(unittest.TestCase):
    def test_a_label_that_is_repeated_has_a_list(self) -> None:
        self.assertEqual(info_of(TWICE), {"a": ["1", "3"], "b": "2"})
        self.assertEqual(info_of([]), {})
        cased = [("a", "1"), ("A", "2"), ("a", "3"), ("a", "4")]
        self.assertEqual(info_of(cased), {"a": ["1", "3", "4"], "A": "2"})

    def test_values_are_texts(self) -> None:
        info = {"n": 3, "d": date(2026, 1, 2), "l": ["x", 4], "e": []}
        wanted = [("n", "3"), ("d", "2026-01-02"), ("l", "x"), ("l", "4")]
        self.assertEqual(elements_in(info), wanted)
        for value in None, b"x", {"x": "y"}, ["x", None], object():
            with self.assertRaises(BagError):
                elements_in({"a": value})

    def test_refresh_keeps_what_says_the_same(self) -> None:
        values = ["1", "3"]
        info = {"a": values, "n": 5, "gone": "x", "b": "0"}
        refresh(info, [*TWICE, ("n", "5"), ("new", "y")])
        wanted = {"a": ["1", "3"], "n": 5, "b": "2", "new": "y"}
        self.assertEqual(info, wanted)
        self.assertIs(info["a"], values)


class Words(unittest.TestCase):
    def words(self, *new: Element) -> List[str]:
        return words_of(TWICE, new)

    def test_what_is_not_altered_is_not_named(self) -> None:
        self.assertEqual(self.words(*TWICE), [])
        self.assertEqual(self.words(("a", "1"), ("a", "3"), ("b", "2")), [])
        odd = [("a=b", "x"), (" c", "y\r")]
        self.assertEqual(words_of(odd, odd), [])

    def test_all_values_of_an_altered_label(self) -> None:
        new = ("a", "1"), ("b", "2"), ("a", "3"), ("a", "4")
        words = ["--set=a=1", "--set=a=3", "--set=a=4"]
        self.assertEqual(self.words(*new), words)
        self.assertEqual(self.words(("b", "2"), ("a", "1")), ["--set=a=1"])
        turned = [("a", "3"), ("a", "1"), ("b", "2")]
        self.assertEqual(self.words(*turned), ["--set=a=3", "--set=a=1"])

    def test_labels_are_the_same_in_either_case_of_ascii(self) -> None:
        new = ("A", "1"), ("a", "3"), ("b", "2")
        self.assertEqual(self.words(*new), ["--set=A=1", "--set=a=3"])
        words = words_of([("\u00e9", "1")], [("\u00c9", "1")])
        self.assertEqual(words, ["--unset=\u00e9", "--set=\u00c9=1"])

    def test_gone_and_new(self) -> None:
        words = ["--unset=a", "--set=c=", "--set=-d=-\n-"]
        new = ("b", "2"), ("c", ""), ("-d", "-\n-")
        self.assertEqual(self.words(*new), words)

    def test_the_oxum_is_computed(self) -> None:
        old = [("Payload-Oxum", "1.1")]
        self.assertEqual(words_of(old, old), [])
        for new in [], [("Payload-Oxum", "2.1")], [("payload-oxum", "1.1")]:
            with self.assertRaises(BagError):
                words_of(old, new)

    def test_what_bagit_renew_refuses(self) -> None:
        # The rows of docs/UPDATING.md, "bad value"
        labels = "", "a:b", "a=b", "a ", " a", "\ta", "a\nb", "a\rb", "a\0"
        for label in *labels, "\ufeffa", "Payload-Oxum", "PAYLOAD-oxum":
            self.assertIsNotNone(why_not(label, "x"), label)
        values = "x\ry", "x\n\ny", "x\n y", " x", "x\t", "x\n", "\0", "\ud800"
        for value in values:
            self.assertIsNotNone(why_not("a", value), value)
            with self.assertRaises(BagError):
                self.words(("a", value))

    def test_what_bagit_renew_writes(self) -> None:
        for label in "a", "a b", "-a", "\u00e9", "#", "a\ufeff", "\u00a0a":
            self.assertIsNone(why_not(label, "x"), label)
        for value in "", "x", "x\ny", "\nx", ": =x", "\u00a0x\u00a0", "-":
            self.assertIsNone(why_not("a", value), value)


class Making(unittest.TestCase):
    def test_options(self) -> None:
        words = ["--contact-name=Ann", "--bagit-profile-identifier="]
        given = [("Contact-Name", "Ann"), ("BagIt-Profile-Identifier", "")]
        self.assertEqual(options_of(given), (words, []))

    def test_what_has_no_option(self) -> None:
        given = [
            ("contact-phone", "1"),
            ("Contact-Name", "Ann"),
            ("Other", "x"),
            ("Contact-Name", "Bo"),
            ("External-Description", "a\nb"),
            ("Bag-Size", "1 GB"),
        ]
        words, others = options_of(given)
        self.assertEqual(words, ["--bag-size=1 GB"])
        self.assertEqual(sorted(others), sorted(given[:-1]))
        names = [value for label, value in others if label == "Contact-Name"]
        self.assertEqual(names, ["Ann", "Bo"])

    def test_what_cannot_be_written(self) -> None:
        for value in "a\r", " a", "a\n\nb":
            with self.assertRaises(BagError):
                options_of([("Contact-Name", value)])

    def test_labels_of_the_rfc(self) -> None:
        self.assertEqual(len(set(map(str.lower, LABELS))), 14)


if __name__ == "__main__":
    unittest.main()
