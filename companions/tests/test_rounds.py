"""What a round takes from its files, and how rows stand to earlier ones."""
import hashlib
import json
import os
import tempfile
import unittest
from dataclasses import replace
from pathlib import Path
from typing import Optional
from unittest import mock

from bagitkeep import page
from bagitkeep.audit import prune_round
from bagitkeep.go_round import without_left
from bagitkeep.messages import Refused
from bagitkeep.program import Asked
from bagitkeep.rounds import Record, Row, begin, load, record_of
from bagitkeep.table import change_of, table_of

TIME = "2026-01-01T00:00:00Z"
VALID, FAULTY = b"/b/a is valid\n", b"/b/a has faults: 1\n"
MISSING = b"601 payload-file-missing data/a md5 - -\n"


def a_record(report: bytes) -> Record:
    digest = hashlib.sha256(report).hexdigest()
    return Record(1, "/b/a", "/b/a", TIME, TIME, 1, report_sha256=digest)


class Records(unittest.TestCase):
    RECORD = Record(1, "a", "b", TIME, TIME, 5, seal="e", files=0, size=0)

    def test_a_record_comes_back(self) -> None:
        self.assertEqual(record_of(self.RECORD.line()), self.RECORD)

    def test_what_is_no_record(self) -> None:
        line = self.RECORD.line()
        fields = json.loads(line)
        for end in range(len(line) - 1):
            self.assertIsNone(record_of(line[:end]))
        for name in fields:
            for value in ([], {}, True, 1.5, "1", 1, None):
                line = json.dumps({**fields, name: value}).encode()
                record = record_of(line)
                if record is not None:
                    kept = getattr(record, name)
                    self.assertEqual(type(kept), type(value), name)
        for time in "2026-19-01T00:00:00Z", "2p26-01-01T00:00:00Z", TIME[:-1]:
            for name in "begun", "ended":
                line = json.dumps({**fields, name: time}).encode()
                self.assertIsNone(record_of(line))
        others = b"", b"\n", b"[]", b"{}", b"1", b"\xff", b"[" * 100000
        for text in others:
            self.assertIsNone(record_of(text))
        self.assertIsNone(record_of(json.dumps({**fields, "x": 1}).encode()))


class Rounds(unittest.TestCase):
    def setUp(self) -> None:
        folder = tempfile.TemporaryDirectory()
        self.addCleanup(folder.cleanup)
        self.round = Path(folder.name) / "round"
        begin(os.fsencode(self.round), [b"/b/a"], Asked(), None)
        for name in "reports", "tries", "records":
            (self.round / name).mkdir()

    def row(self, report: bytes, record: Optional[Record]) -> Row:
        (self.round / "reports" / "000001-a.txt").write_bytes(report)
        line = b"" if record is None else record.line()
        (self.round / "records" / "x.jsonl").write_bytes(b"\n" + line)
        return load(os.fsencode(self.round)).row(1)

    def test_a_report_and_its_record(self) -> None:
        self.assertEqual(self.row(VALID, a_record(VALID)).status, 0)
        row = self.row(MISSING + FAULTY, a_record(MISSING + FAULTY))
        self.assertEqual((row.status, row.faults), (1, 1))

    def test_neither_counts_alone(self) -> None:
        other = replace(a_record(VALID), bag="/b/b")
        for record in None, a_record(FAULTY), other:
            row = self.row(VALID, record)
            self.assertEqual((row.status, row.is_altered), (3, True))

    def test_the_last_check_that_came_to_its_end_counts(self) -> None:
        first, killed = a_record(VALID), replace(a_record(VALID), why="x")
        last = replace(first, real="/b/c", at=2)
        self.assertEqual(self.row(VALID, killed).status, 3)
        a_round = load(os.fsencode(self.round))
        for records in [killed, first, last], [last, first, killed]:
            row = replace(a_round, records={1: records}).row(1)
            self.assertEqual((row.status, row.record), (0, last))

    def test_what_is_no_report_of_the_bag(self) -> None:
        others = (
            b"",
            b"/b/b is valid\n",
            b"/b/a is complete\n",
            b"/b/a made\n",
            VALID[:-1],
            VALID + VALID,
            FAULTY,
            MISSING + VALID,
            MISSING + b"/b/a stopped, faults: 1\n",
            b"/b/a unread - device, faults: 0\n",
        )
        for report in others:
            row = self.row(report, a_record(report))
            self.assertEqual((row.status, row.is_altered), (3, True), report)

    def test_each_bit_of_a_report(self) -> None:
        report = MISSING + FAULTY
        for bit in range(0, 8 * len(report), 7):
            changed = bytearray(report)
            changed[bit // 8] ^= 1 << bit % 8
            row = self.row(bytes(changed), a_record(report))
            self.assertEqual(row.status, 3, changed)

    def test_no_bit_of_a_record_makes_a_bag_good(self) -> None:
        report = MISSING + FAULTY
        line = a_record(report).line()
        self.assertEqual(self.row(report, a_record(report)).status, 1)
        a_round = load(os.fsencode(self.round))
        for bit in range(0, 8 * len(line), 3):
            changed = bytearray(line)
            changed[bit // 8] ^= 1 << bit % 8
            record = record_of(bytes(changed))
            records = {} if record is None else {record.number: [record]}
            row = replace(a_round, records=records).row(1)
            self.assertIn(row.status, (1, 3), changed)

    def test_bags_without_a_report(self) -> None:
        name = os.fsencode(self.round)
        self.assertEqual(load(name).row(1).result, "not begun")
        (self.round / "tries" / "000001-a.00.txt").write_bytes(VALID)
        self.assertEqual(load(name).row(1).result, "begun, not ended")
        self.assertEqual(load(name).row(1).status, 3)

    def test_tries_are_listed_once_for_all_bags(self) -> None:
        (self.round / "tries" / "000001-a.00.txt").touch()
        (self.round / "tries" / "000002-a.00.txt").touch()
        a_round = load(os.fsencode(self.round))
        with mock.patch("os.listdir", side_effect=AssertionError):
            made = a_round.new_try(1)
            there = os.fsencode(self.round / "tries" / "000001-a.00.txt")
            self.assertEqual([there, made], a_round.take_tries(1))
            self.assertEqual([], a_round.take_tries(1))

    def test_a_report_that_was_pruned(self) -> None:
        name, report = os.fsencode(self.round), self.round / "reports"
        self.row(VALID, a_record(VALID))
        for _ in range(2):
            prune_round(name)
            self.assertEqual([], os.listdir(report))
            row = load(name).row(1)
            self.assertEqual(
                (row.status, row.result, row.is_pruned),
                (3, f"read whole at {TIME}; its report was pruned", True),
            )
            site = page.site_of_round(name)
            self.assertEqual("0 of 1 bags have news", site.first_line)
            self.assertEqual(row.result, site.bags[0].how)
            self.assertEqual(TIME, site.bags[0].read)
            self.assertFalse(site.bags[0].is_certified)
        (self.round / "pruned").unlink()
        row = load(name).row(1)
        says = f"checked at {TIME}; its report is not there"
        self.assertEqual((row.result, row.is_pruned), (says, False))
        (self.round / "tries" / "000001-a.00.txt").write_bytes(b"")
        self.assertEqual("not ended", load(name).row(1).result)
        killed = replace(a_record(VALID), why="killed")
        row = replace(load(name), records={1: [killed]}, pruned={1}).row(1)
        self.assertEqual((row.status, row.is_pruned), (3, False))
        row = replace(load(name), records={}, tried={}, pruned={1}).row(1)
        self.assertEqual((row.result, row.is_pruned), ("not begun", False))

    def test_only_reports_without_faults_are_pruned(self) -> None:
        name, report = os.fsencode(self.round), MISSING + FAULTY
        (self.round / "pruned").write_bytes(b"1\n\xff 7")
        (self.round / "pruned.part").write_bytes(b"")
        for text, record in (report, a_record(report)), (VALID, None):
            status = self.row(text, record).status
            prune_round(name)
            row = load(name).row(1)
            self.assertEqual((row.status, row.is_pruned), (status, False))

    def test_rounds_of_another_depth_are_not_compared(self) -> None:
        other = self.round.parent / "other"
        asked = Asked("declaration-only")
        begin(os.fsencode(other), [b"/b/a"], asked, None)
        ours, theirs = load(os.fsencode(self.round)), load(os.fsencode(other))
        for now, since in (ours, theirs), (theirs, ours):
            with self.assertRaises(Refused):
                table_of(now, since, "tsv")


class Lists(unittest.TestCase):
    def setUp(self) -> None:
        folder = tempfile.TemporaryDirectory()
        self.addCleanup(folder.cleanup)
        self.at = os.fsencode(folder.name)
        bag = Path(folder.name) / "bag"
        bag.mkdir()
        (bag / "bagit.txt").write_text("")

    def test_what_is_left_beside_a_bag_of_the_list(self) -> None:
        bag, kept = [
            os.path.join(self.at, it) for it in (b"bag", b"bag.kept.012abc")
        ]
        spelled = os.path.join(self.at, b".", b"bag.kept.012abc", b"")
        other = os.path.join(self.at, b"other.kept.012abc")
        for names, left in (
            ([bag, kept, other], [bag, other]),
            ([spelled, bag], [bag]),
            ([kept, other], [kept, other]),
            ([b"", bag], [b"", bag]),
        ):
            self.assertEqual(without_left(names), left)


class Changes(unittest.TestCase):
    def row(self, status: int, seal: str = "x", files: int = 1) -> Row:
        record = replace(a_record(b""), seal=seal, files=files)
        return Row(status, "", b"/b/a", 1, None, record)

    def test_by_status(self) -> None:
        names = {-1: "better", 0: "same", 1: "worse"}
        for new in 0, 1, 3:
            for old in 0, 1, 3:
                sign = (new > old) - (new < old)
                found = change_of(self.row(new), self.row(old))
                self.assertEqual(found, names[sign], (new, old))

    def test_a_good_bag_that_was_altered(self) -> None:
        good = self.row(0)
        for other in self.row(0, "y"), self.row(0, files=2), self.row(1, "y"):
            self.assertEqual(change_of(good, other), "altered")
        self.assertEqual(change_of(self.row(1), self.row(0, "y")), "worse")
        self.assertEqual(change_of(good, Row(3, "", b"/b/a")), "better")


if __name__ == "__main__":
    unittest.main()
