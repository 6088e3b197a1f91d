"""Errors and their details, by what bagit-python documents."""
import pickle
import unittest
from typing import List

from bagitkeep.errors import (
    BagError,
    BagFault,
    BagManifestConflict,
    BagNotChecked,
    BagValidationError,
    ChecksumMismatch,
    FileMissing,
    ManifestErrorDetail,
    UnexpectedFile,
    Unread,
    details_of,
    message_of,
)
from bagitkeep.lines import Fault, line_of

OLD = "8e2af7a0143c7b8f4de0b3fc90f27354"
NEW = "fd41543285d17e7c29cd953f5cf5b955"
MISMATCH = (
    f'data/README md5 validation failed: expected="{OLD}" found="{NEW}"'
)
MISSING = "data/a exists in manifest but was not found on filesystem"
UNEXPECTED = "data/b exists on filesystem but is not in the manifest"

FIRST = {
    "201 no-payload-folder - - - -": (
        "Expected data directory /b/data does not exist"
    ),
    "202 no-payload-manifest - - - -": "No manifest files found",
    "102 declaration-not-utf8 bagit.txt - - bom": (
        "bagit.txt must not contain a byte-order mark"
    ),
    "305 no-oxum bag-info.txt - - -": (
        "Fast validation requires bag-info.txt to include Payload-Oxum"
    ),
    "302 oxum-malformed bag-info.txt - 2 12": (
        "Malformed Payload-Oxum value: 12"
    ),
    "304 oxum-differs bag-info.txt - 2 3.1:6.4": (
        "Payload-Oxum validation failed. Expected 1 files and 3 bytes but"
        " found 4 files and 6 bytes"
    ),
    "601 payload-file-missing data/a md5 - -": "Bag is incomplete",
    f"701 payload-sum-differs data/README md5 - {OLD}:{NEW}": (
        "Bag validation failed"
    ),
}
"""Faults in the order in which bagit-python meets them, and its messages."""


def fault(text: str) -> Fault:
    line = line_of(f"{text}\n".encode())
    assert isinstance(line, Fault)
    return line


class Details(unittest.TestCase):
    def details(self, *texts: str) -> List[ManifestErrorDetail]:
        return details_of(map(fault, texts))

    def test_checksum_mismatch(self) -> None:
        for code in "701 payload-sum-differs", "702 tag-sum-differs":
            line = f"{code} data/README md5 - {OLD}:{NEW}"
            (detail,) = self.details(line)
            assert isinstance(detail, ChecksumMismatch)
            self.assertEqual(str(detail), MISMATCH)
            self.assertEqual(detail.path, "data/README")
            self.assertEqual(detail.algorithm, "md5")
            self.assertEqual((detail.expected, detail.found), (OLD, NEW))

    def test_missing_and_unexpected(self) -> None:
        missing, tag, unexpected, other = self.details(
            "601 payload-file-missing data/a md5 - -",
            "601 payload-file-missing data/a sha1 - -",
            "602 tag-file-missing a md5 - -",
            "603 payload-file-not-listed data/b md5 - -",
            "603 payload-file-not-listed data/b sha1 - -",
            "603 payload-file-not-listed data/b%20 - - -",
        )
        self.assertIsInstance(missing, FileMissing)
        self.assertEqual((missing.path, str(missing)), ("data/a", MISSING))
        self.assertIsInstance(tag, FileMissing)
        self.assertIsInstance(unexpected, UnexpectedFile)
        self.assertEqual(str(unexpected), UNEXPECTED)
        self.assertEqual(other.path, "data/b ")

    def test_names_that_print_the_same_are_two(self) -> None:
        line = "601 payload-file-missing data/a{} md5 - -"
        details = self.details(line.format("%0A"), line.format("\\n"))
        paths = [it.path for it in details]
        self.assertEqual(paths, ["data/a\n", "data/a\\n"])

    def test_no_name_commands_a_terminal(self) -> None:
        for line in (
            "601 payload-file-missing data/%1B[2J%0A md5 - -",
            "603 payload-file-not-listed data/%1B[2J%0A md5 - -",
            "508 named-again manifest-md5.txt md5 2 data/%1B[2J%0A",
            "701 payload-sum-differs data/%1B[2J%0A md5 - a:b",
            "504 manifest-unsafe-path manifest-md5.txt md5 1 %1B[2J%0A",
        ):
            (detail,) = self.details(line)
            self.assertTrue(str(detail).isprintable(), line)

    def test_no_fault_is_left_out(self) -> None:
        again = "508 named-again manifest-md5.txt md5 2 data/a"
        line = "301 info-line bag-info.txt - {} -"
        conflict, two, three = self.details(
            again, line.format(2), line.format(3)
        )
        assert isinstance(conflict, BagManifestConflict)
        named = conflict.path, conflict.algorithm
        self.assertEqual(named, ("data/a", "md5"))
        assert isinstance(two, BagFault) and isinstance(three, BagFault)
        self.assertEqual((two.path, two.fault.line), ("bag-info.txt", 2))
        self.assertEqual(str(three), line.format(3))


class Messages(unittest.TestCase):
    def test_the_first_that_bagit_python_meets(self) -> None:
        texts = list(FIRST)
        for number, text in enumerate(texts):
            faults = [fault(it) for it in sorted(texts[number:])]
            self.assertEqual(message_of("/b", faults), FIRST[text])
        other = fault("301 info-line bag-info.txt - 2 -")
        self.assertEqual(message_of("/b", [other]), "Bag validation failed")

    def test_a_validation_error(self) -> None:
        details = [FileMissing("data/a"), UnexpectedFile("data/b")]
        error = BagValidationError("Bag is incomplete", details)
        text = f"Bag is incomplete: {MISSING}; {UNEXPECTED}"
        self.assertEqual(str(error), text)
        self.assertEqual(error.message, "Bag is incomplete")
        self.assertEqual(error.details, details)
        self.assertEqual(str(BagValidationError("x")), "x")
        self.assertEqual(BagValidationError("x").details, [])

    def test_kinds(self) -> None:
        for kind in (BagValidationError, ManifestErrorDetail, BagNotChecked):
            self.assertTrue(issubclass(kind, BagError))
        self.assertFalse(issubclass(BagNotChecked, BagValidationError))

    def test_processes_can_give_them_to_each_other(self) -> None:
        mismatch = ChecksumMismatch("data/a", "md5", OLD, NEW)
        line = fault("301 info-line bag-info.txt - 2 -")
        details = [mismatch, BagFault(line)]
        for error in (
            BagValidationError("x", details),
            BagNotChecked("y", Unread("data/a", "device")),
            BagManifestConflict("data/a", "md5"),
            *details,
        ):
            other = pickle.loads(pickle.dumps(error))
            self.assertEqual(type(other), type(error))
            self.assertEqual(str(other), str(error))
            self.assertEqual(set(vars(other)), set(vars(error)))


if __name__ == "__main__":
    unittest.main()
