"""The pure parts of what writes reports as data."""
import io
import re
import unittest
from typing import FrozenSet

from bagitkeep.lines import Closing, Unchecked, line_of
from bagitkeep.report import (
    Reading,
    Record,
    cell,
    codes_of,
    first_folder,
    is_of_file,
    read_line,
    record_of,
    write_json,
    write_summary,
)


class Parts(unittest.TestCase):
    def test_no_cell_is_a_formula(self) -> None:
        texts = "=1", "+1", "-1", "@a", "\tx", "\rx", "'=1", "''@", "'a", "a"
        for text in (*texts, "", "'", "a=1"):
            shown = cell(text)
            self.assertNotRegex(shown, "^[=+@\t\r-]")
            back = re.sub("^'(?='*[=+@\t\r-])", "", shown)
            self.assertEqual(back, text)

    def test_a_part_and_its_options(self) -> None:
        digest = "0123456789abcdef" * 4
        part: Record = {"bag": "d", "ended": "done", "faults": 0}
        part.update({"part": "2 of 8", "files": 9, "bytes": 10})
        options: Record = {"clashes": True, "profile": digest}
        for text, record in (
            ("", part),
            (", clashes", {**part, "clashes": True}),
            (f", profile: {digest}", {**part, "profile": digest}),
            (f", clashes, profile: {digest}", {**part, **options}),
        ):
            line = f"d part 2 of 8 done, files: 9, bytes: 10{text}, faults: 0"
            said = record_of(line_of(f"{line}\n".encode()))
            self.assertEqual(said, record)
        cells = [cell(it) for it in (True, 1, None)]
        self.assertEqual(cells, ["true", "1", ""])

    def test_paths_of_files(self) -> None:
        for path in "data/a", "a", "-", "...", "a b":
            self.assertTrue(is_of_file(path), path)
        for path in "", "/a", "a//b", "../a", "a/.", "a\0":
            self.assertFalse(is_of_file(path), path)

    def test_first_folders(self) -> None:
        folders = {"data/a": "data/", "data/x/y/z": "data/x/", "a": "./"}
        folders.update({"tags/x/y": "tags/", "": "-"})
        for path, folder in folders.items():
            self.assertEqual(first_folder(path), folder)

    def test_codes(self) -> None:
        self.assertEqual(codes_of("601,701"), {601, 701})
        for text in "", "601,", "601,601", "600", "no-oxum":
            with self.assertRaises(Exception):
                codes_of(text)

    def test_a_key_or_a_bag_of_the_name_unchecked(self) -> None:
        line, made = b"unchecked made\n", Closing("unchecked", "made")
        for below in b"", b"d made\n", b"d not made: bad value\n":
            self.assertEqual(read_line(line, below), made)
        for below in b"d is valid\n", b"unchecked x\n", b"made\n":
            self.assertEqual(read_line(line, below), Unchecked("made"))


class Readings(unittest.TestCase):
    MISSING = b"601 payload-file-missing data/%s %s - -\n"

    def read(
        self, text: bytes, codes: FrozenSet[int] = frozenset()
    ) -> Reading:
        reading = Reading(io.BytesIO(), codes)
        reading.read_lines("x", io.BytesIO(text), None)
        return reading

    def test_files_are_counted(self) -> None:
        lines = [
            self.MISSING % (name, alg)
            for name in (b"a", b"b")
            for alg in (b"md5", b"sha1")
        ]
        text = b"".join([*lines, b"d has faults: 4\n"])
        out = io.StringIO()
        write_summary(self.read(text + text), out)
        self.assertIn("        4 601 payload-file-missing", out.getvalue())

    def test_statuses(self) -> None:
        reports = {
            b"d is valid\n": 0,
            self.MISSING % (b"a", b"md5") + b"d has faults: 1\n": 1,
            b"d unread - device, faults: 0\n": 3,
            b"": 3,
            b"d is valid": 3,
            self.MISSING % (b"a", b"md5"): 3,
        }
        for text, status in reports.items():
            reading = self.read(text)
            self.assertEqual((reading.status, reading.is_refused), (status, 0))

    def test_what_is_refused(self) -> None:
        wrong = (
            b"what is this?\n",
            self.MISSING % (b"a", b"md5") + b"d is valid\n",
            b"d has faults: 1\n",
        )
        for text in wrong:
            self.assertTrue(self.read(text).is_refused)

    def test_each_fault_has_the_bag_of_its_report(self) -> None:
        one = self.MISSING % (b"a", b"md5")
        text = one + b"a has faults: 1\nb is valid\n" + one
        out = io.StringIO()
        write_json(self.read(text), out)
        bags = [line.split(",")[0] for line in out.getvalue().splitlines()]
        wanted = ['{"bag": "a"'] * 2 + ['{"bag": "b"', '{"bag": null']
        self.assertEqual(bags, wanted)


if __name__ == "__main__":
    unittest.main()
