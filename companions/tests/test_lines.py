"""The lines that stand in the pages and in the case files."""
import re
import sys
import tempfile
import unittest
from pathlib import Path

from bagitkeep.lines import (
    FAULTS,
    Closing,
    Fault,
    NotALine,
    Unchecked,
    decoded,
    encoded,
    line_of,
    report_of,
)

ROOT = Path(__file__).parents[2]
sys.path.append(str(ROOT / "tests"))
import report as cases  # noqa: E402

HEX = "0123456789abcdef" * 4

CLOSINGS = {
    "a is valid": Closing("a", "is valid"),
    "a%20b is complete": Closing("a b", "is complete"),
    "- agrees with its oxum": Closing("", "agrees with its oxum"),
    "%2D has a good declaration": Closing("-", "has a good declaration"),
    "%C3%A9 made": Closing("\u00e9", "made"),
    "d has faults: 12": Closing("d", "has faults", 12),
    "d stopped, faults: 3": Closing("d", "stopped", 3),
    "d rest done, faults: 0": Closing("d", "rest done", 0),
    "d unread - device, faults: 0": Closing("d", "unread", 0, "", "device"),
    "d unread a%0A not-found, faults: 2": Closing(
        "d", "unread", 2, "a\n", "not-found"
    ),
    "d part 2 of 8 done, files: 9, bytes: 10, faults: 0": Closing(
        "d", "done", 0, part=2, parts=8, files=9, bytes=10
    ),
    f"d part 1 of 8 done, files: 9, bytes: 10, clashes, profile: {HEX}"
    ", faults: 0": Closing(
        "d", "done", 0, part=1, parts=8, files=9, bytes=10, clashes=True,
        profile=HEX,
    ),
    "d part 1 of 8 done, files: 9, bytes: 10, clashes, faults: 0": Closing(
        "d", "done", 0, part=1, parts=8, files=9, bytes=10, clashes=True
    ),
    "d part 65536 of 65536 rest done, files: 0, bytes: 0, faults: 7": Closing(
        "d", "rest done", 7, part=65536, parts=65536, files=0, bytes=0
    ),
    "d not made: no algorithm": Closing(
        "d", "not made", reason="no algorithm"
    ),
    "d not made: .bagit-new is there": Closing(
        "d", "not made", reason=".bagit-new is there"
    ),
    "d not made: read a%20b special": Closing(
        "d", "not made", path="a b", cause="special", reason="read"
    ),
    "d not made: step 12 exists": Closing(
        "d", "not made", cause="exists", reason="step 12"
    ),
}

WRONG = """
d is Valid
 d is valid
d is valid.
d  is valid
a b is valid
d%2f is valid
d%41 is valid
d%FF is valid
d%ED%A0%80 is valid
d has faults: 0
d has faults: 02
d has faults: -1
d has faults
d stopped, faults: 0
d unread data/x broken, faults: 0
d unread data/x device
d part 0 of 8 done, files: 9, bytes: 10, faults: 0
d part 9 of 8 done, files: 9, bytes: 10, faults: 0
d part 1 of 8 done, files: 9, bytes: 10, clashes, clashes, faults: 0
d part 1 of 8 done, files: 9, bytes: 10, profile: abc, faults: 0
d part 1 of 8 done, files: 9, clashes, bytes: 10, faults: 0
d part 1 of 65537 done, files: 9, bytes: 10, faults: 0
d not made: step 0 device
d not made: no reason
unchecked
unchecked a b
601 payload-file-missing data/a md5 0 -
601 payload-file-missing data/%61 md5 - -
601 no-oxum data/a md5 - -
601  payload-file-missing data/a md5 - -
601 payload-file-missing data/a md5 -
601 payload-file-missing data/a sha3 - -
601 payload-file-missing data/a md5 18446744073709551616 -
999 no-fault data/a md5 - -
bagit: output refused
""".splitlines()


def lines_of_cases() -> dict:
    """The lines of the case files, by what they are."""
    with tempfile.TemporaryDirectory() as folder:
        data = ROOT / "crates" / "test_cases" / "data"
        cases.write_cases(data, ROOT / "docs" / "FAULTS.md", folder)
        return {
            path.name: path.read_bytes().splitlines(keepends=True)
            for path in Path(folder).iterdir()
        }


class Lines(unittest.TestCase):
    def refuses(self, text: bytes) -> None:
        with self.assertRaises(NotALine, msg=text):
            line_of(text)

    def test_words_are_those_of_the_page(self) -> None:
        page = (ROOT / "docs" / "FAULTS.md").read_text("utf-8")
        found = re.findall(r"^\| *([1-8]\d\d) *\| *`([a-z0-9-]+)`", page, re.M)
        words = {code: row[0] for code, row in FAULTS.items()}
        self.assertEqual(words, {int(code): word for code, word in found})

    def test_lines_of_case_files(self) -> None:
        lines = lines_of_cases()
        self.assertGreater(len(lines["faults"]), 1000)
        self.assertGreater(len(lines["no-faults"]), 50)
        for name in "faults", "status-0", "status-1", "status-3":
            for line in lines[name]:
                self.assertEqual(f"{line_of(line)}\n".encode(), line)
        for line in lines["faults"]:
            self.assertIsInstance(line_of(line), Fault)
        for line in lines["no-faults"]:
            self.refuses(line)

    def test_fault(self) -> None:
        wanted = {
            "501 manifest-line manifest-md5.txt md5 3 -": Fault(
                501, "manifest-md5.txt", "md5", 3, ""
            ),
            "802 label-required bag-info.txt - - %2D": Fault(
                802, "bag-info.txt", None, None, "-"
            ),
        }
        for text, fault in wanted.items():
            self.assertEqual(line_of(f"{text}\n".encode()), fault)
            self.assertEqual(str(fault), text)

    def test_closings(self) -> None:
        for text, closing in CLOSINGS.items():
            line = line_of(f"{text}\n".encode())
            self.assertEqual((line, str(line)), (closing, text))

    def test_unchecked(self) -> None:
        unchecked = line_of(b"unchecked Bag-Info%20x\n")
        self.assertEqual(unchecked, Unchecked("Bag-Info x"))
        self.assertEqual(str(unchecked), "unchecked Bag-Info%20x")

    def test_other_lines(self) -> None:
        for text in WRONG:
            self.refuses(f"{text}\n".encode())
        long = b"d has faults: " + b"9" * 5000 + b"\n"
        others = b"", b"\n", b"\xff is valid\n", b"d is valid\r\n", long
        for line in others:
            self.refuses(line)

    def test_cut_lines(self) -> None:
        for text in [*CLOSINGS, "601 payload-file-missing data/a md5 - -"]:
            for end in range(len(text) + 1):
                self.refuses(text[:end].encode())

    def test_escapes(self) -> None:
        pairs = {"": "-", "-": "%2D", "--": "--", "a b%": "a%20b%25"}
        pairs["\u00e9\x1b\n"] = "%C3%A9%1B%0A"
        for text, field in pairs.items():
            self.assertEqual(encoded(text), field)
            self.assertEqual(decoded(field), text)
        self.assertEqual(encoded(b"\xe9"), "%E9")


class Reports(unittest.TestCase):
    MISSING = b"601 payload-file-missing data/a md5 - -\n"

    def test_whole_reports(self) -> None:
        lines = [b"unchecked X\n", self.MISSING, b"d has faults: 1\n"]
        faults = report_of(lines)
        self.assertEqual(faults.closing, Closing("d", "has faults", 1))
        self.assertEqual(faults.faults, 1)
        valid = report_of([b"d is valid\n"])
        self.assertEqual(valid.closing, Closing("d", "is valid"))

    def test_others_have_no_closing_line(self) -> None:
        valid, one = b"d is valid\n", b"d has faults: 1\n"
        wrong = (
            [],
            [self.MISSING],
            [self.MISSING, valid],
            [self.MISSING, self.MISSING, one],
            [one],
            [valid, valid],
            [valid, b"\n"],
            [one, self.MISSING],
            [self.MISSING, b"unchecked X\n", one],
            [b"what is this?\n", valid],
            [b"d is valid"],
            [b"d is vali\n"],
        )
        for lines in wrong:
            self.assertIsNone(report_of(lines).closing, lines)


if __name__ == "__main__":
    unittest.main()
