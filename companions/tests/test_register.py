"""The register: its rows, what is news, and which bags are due."""
import errno
import json
import os
import sqlite3
import tempfile
import unittest
from argparse import Namespace
from contextlib import closing
from typing import Any, Dict, Optional
from unittest import mock

from bagitkeep import audit, keeping, news, register
from bagitkeep.files import read_bytes
from bagitkeep.messages import Refused
from bagitkeep.premis import premis_of
from bagitkeep.rounds import Record
from bagitkeep.rounds import Row as Result
from bagitkeep.seal import seal_of

SEAL = "0" * 128
OTHER = "1" * 128


def record(seal: Optional[str]) -> Record:
    return Record(
        1, "/a", "/a", "2026-01-01T00:00:00Z", "2026-01-01T00:00:01Z", 1,
        seal=seal,
    )


def result(status: int, text: str, seal: Optional[str] = SEAL) -> Result:
    report = None if status == 3 else os.fsencode(os.devnull)
    return Result(status, text, b"/a", 0, report, record(seal))


def bag(number: int, read: Optional[str], kept: int = 1) -> Dict[str, Any]:
    return {"id": number, "read": read, "is_kept": kept, "path": "/none"}


def asked(**values: Any) -> Namespace:
    names = "days share bytes".split()
    return Namespace(**{**dict.fromkeys(names), **values})


class OfRegister(unittest.TestCase):
    """A register in a folder of its own."""

    def setUp(self) -> None:
        room = tempfile.TemporaryDirectory()
        self.addCleanup(room.cleanup)
        self.folder = os.fsencode(room.name) + b"/register"
        register.make(self.folder, {"stores": ["/s"], "every": 90})

    def open(self) -> register.Register:
        opened = register.Register(self.folder)
        self.addCleanup(opened.close)
        return opened

    def test_rows_come_back_as_they_were_put(self) -> None:
        paths = ["/a", '/"b"', "/\udcff", "/é", '"']
        with closing(self.open()) as it, it.changing():
            for path in paths:
                it.add(
                    "bags", path=path, is_kept=1, seal=SEAL, files=1,
                    bytes=2, adopted="x", read=None,
                )
        opened = self.open()
        self.assertEqual(paths, [row["path"] for row in opened.rows("bags")])
        self.assertEqual(3, opened.bag_at(b"/\xff")["id"])
        self.assertEqual(90, opened.setting("every"))

    def test_a_value_that_was_altered_is_an_error(self) -> None:
        with closing(self.open()) as it, it.changing():
            it.note("a", None, text="b")
        path = os.fsdecode(self.folder + b"/register.sqlite")
        with closing(sqlite3.connect(path)) as base, base:
            base.execute("UPDATE events SET kind = 'c' WHERE id = 2")
        opened = self.open()
        with self.assertRaises(Refused) as refused:
            opened.rows("events")
        self.assertEqual(3, refused.exception.status)

    def test_a_change_that_fails_changes_nothing(self) -> None:
        opened = self.open()
        with self.assertRaises(ZeroDivisionError), opened.changing():
            opened.note("a", None)
            raise ZeroDivisionError
        self.assertEqual(1, len(opened.rows("events")))

    def test_a_disk_that_is_full_is_no_damage(self) -> None:
        opened = self.open()
        opened._base.execute("PRAGMA max_page_count = 1")
        with self.assertRaises(Refused) as refused, opened.changing():
            for _ in range(100):
                opened.note("a", None, text="b" * 1000)
        self.assertEqual(3, refused.exception.status)
        text = str(refused.exception)
        self.assertIn("(database or disk is full): make room, and", text)
        self.assertNotIn("register.copy", text)
        self.assertEqual(1, len(opened.rows("events")))

    def test_what_the_database_says(self) -> None:
        opened = self.open()
        for text, is_damage in (
            ("", True),
            ("database disk image is malformed", True),
            ("malformed database schema (bags)", True),
            ("file is not a database", True),
            ("no such column: kind", True),
            ("Could not decode to UTF-8 column 'data'", True),
            ("database or disk is full", False),
            ("disk I/O error", False),
            ("cannot rollback - no transaction is active", False),
            ("attempt to write a readonly database", False),
            ("unable to open database file", False),
            ("database is locked", False),
        ):
            with self.assertRaises(Refused) as refused, opened.reading():
                raise sqlite3.OperationalError(text)
            with self.subTest(text):
                self.assertEqual(3, refused.exception.status)
                says = str(refused.exception)
                self.assertEqual(is_damage, "register.copy" in says)
                self.assertEqual(is_damage, "was altered" in says)

    def test_a_change_that_the_database_has_ended_is_told(self) -> None:
        opened = self.open()
        with self.assertRaises(Refused) as refused, opened.changing():
            opened._base.execute("ROLLBACK")
            raise sqlite3.OperationalError("database or disk is full")
        self.assertIn("disk is full", str(refused.exception))

    def test_nothing_is_done_where_nothing_can_be_locked(self) -> None:
        for number, says in (
            (errno.ENOSYS, "can't be locked: a register is kept on a disk"),
            (errno.ENOLCK, "can't be locked: a register is kept on a disk"),
            (errno.EAGAIN, "another process is at work in "),
        ):
            fails = OSError(number, os.strerror(number))
            for is_shared in False, True:
                with mock.patch("fcntl.lockf", side_effect=fails):
                    with self.assertRaises(Refused) as refused:
                        with register.alone(self.folder, shared=is_shared):
                            self.fail("it goes on")
                self.assertEqual(3, refused.exception.status)
                self.assertIn(says, str(refused.exception))

    def test_another_file_is_no_register(self) -> None:
        with open(self.folder + b"/register.sqlite", "wb") as file:
            file.write(b"no database, but long enough to be looked at" * 100)
        with self.assertRaises(Refused) as refused:
            register.Register(self.folder)
        self.assertIn("register.copy", str(refused.exception))

    def test_a_bit_that_changes_in_a_name(self) -> None:
        whole = read_bytes(self.folder + b"/register.sqlite")
        place = whole.index(b"CREATE TABLE bags")
        for name in b"KEY", b"digest", b"path)", b"MARY":
            changed = bytearray(whole)
            changed[whole.index(name, place)] ^= 128
            with open(self.folder + b"/register.sqlite", "wb") as file:
                file.write(changed)
            with self.assertRaises(Refused) as refused:
                register.Register(self.folder).rows("bags")
            self.assertEqual(3, refused.exception.status)
            self.assertIn("register.copy", str(refused.exception))

    def test_no_row_takes_the_place_of_another(self) -> None:
        opened = self.open()
        row = dict.fromkeys(register.COLUMNS["bags"])
        with opened.changing():
            for path in "/a", "/b":
                opened.add("bags", **{**row, "path": path})
        with self.assertRaises(Refused), opened.changing():
            opened.alter("bags", opened.bag_at(b"/a"), path="/b")
        paths = [it["path"] for it in opened.rows("bags")]
        self.assertEqual(["/a", "/b"], paths)

    def test_a_round_that_is_open_was_cut_off(self) -> None:
        opened = self.open()
        self.assertIsNone(keeping.unended(opened))
        with opened.changing():
            opened.add(
                "rounds", name="000001", begun="x", ended=None, results=None
            )
        found = keeping.unended(opened)
        assert found is not None
        state = news.state_of(opened, found)
        self.assertEqual("news of 0 bags: 1 cut off", state.first_line())

    def test_a_copy_is_a_register(self) -> None:
        opened = self.open()
        opened.copy()
        names = sorted(os.listdir(self.folder))
        self.assertEqual([b"register.copy", b"register.sqlite"], names)

    def test_a_register_that_was_altered_replaces_no_copy(self) -> None:
        copy = self.folder + b"/register.copy"
        with closing(self.open()) as it:
            it.copy()
        before = read_bytes(copy)
        with closing(self.open()) as it, it.changing():
            for table in register.COLUMNS:
                it.add(table, **dict.fromkeys(register.COLUMNS[table], "1"))
        path = os.fsdecode(self.folder + b"/register.sqlite")
        whole = read_bytes(path)
        for table, columns in register.COLUMNS.items():
            for value in "2", b"\xff":
                with open(path, "wb") as file:
                    file.write(whole)
                with closing(sqlite3.connect(path)) as base, base:
                    last = f"(SELECT max(id) FROM {table})"
                    query = f"UPDATE {table} SET {columns[0]} = ?"
                    base.execute(f"{query} WHERE id = {last}", [value])
                with self.subTest(table), closing(self.open()) as it:
                    with self.assertRaises(Refused) as refused:
                        it.copy()
                    self.assertEqual(3, refused.exception.status)
                    self.assertIn(f"of {table})", str(refused.exception))
                self.assertEqual(before, read_bytes(copy))
        with open(path, "wb") as file:
            file.write(whole)
        self.open().copy()
        self.assertNotEqual(before, read_bytes(copy))

    def test_findings_come_and_go(self) -> None:
        opened = self.open()
        with opened.changing():
            news.settle(opened, bag(1, None), {("fault", "x")})
            both = {("fault", "x"), ("altered", "")}
            news.settle(opened, bag(1, None), both)
            news.settle(opened, bag(1, None), {("altered", "")})
        found = [row["kind"] for row in opened.rows("findings")]
        self.assertEqual(["altered"], found)
        kinds = [row["kind"] for row in opened.rows("events")]
        self.assertEqual(["init", "found", "found", "gone"], kinds)

    def test_what_was_found_stands_where_nothing_was_read(self) -> None:
        opened = self.open()
        fault = "fault", "x"
        for found, wanted in (
            ({fault}, {fault}),
            ({("unread", "y")}, {fault, ("unread", "y")}),
            ({("missing", "")}, {fault, ("missing", "")}),
            ({("unread", "z")}, {fault, ("unread", "z")}),
            (set(), set()),
        ):
            with opened.changing():
                news.settle(opened, bag(1, None), found)
            rows = opened.rows("findings")
            self.assertEqual(wanted, {(it["kind"], it["text"]) for it in rows})

    def test_another_bag_at_the_path_of_a_retired_one(self) -> None:
        store = os.path.join(os.path.dirname(self.folder), b"store")
        path, opened = os.path.join(store, b"bag"), self.open()
        os.makedirs(path)
        declared = os.path.join(path, b"bagit.txt")
        values = {"files": 0, "bytes": 0, "read": None}

        def put(text: str) -> str:
            with open(declared, "w") as file:
                file.write(text)
            return seal_of(path)

        with opened.changing():
            setting = opened.rows("settings", "name = 'stores'")[0]
            text = json.dumps([os.fsdecode(store)])
            opened.alter("settings", setting, value=text)
            number = register.take(
                opened, os.fsdecode(path), seal=put("a"), **values
            )
        self.assertEqual([], audit.strangers(opened)[0])
        with opened.changing():
            opened.alter("bags", opened.bag_at(path), is_kept=0)
        for text, wanted in (("a", []), ("b", [path]), ("a", [])):
            put(text)
            self.assertEqual(wanted, audit.strangers(opened)[0])
            with opened.changing():
                news.welcome(opened, audit.strangers(opened)[0])
            self.assertEqual(len(wanted), len(opened.rows("findings")))
        os.unlink(declared)
        os.symlink("/none", declared)
        self.assertEqual([path], audit.strangers(opened)[0])
        with opened.changing():
            news.welcome(opened, [path])
            again = register.take(
                opened, os.fsdecode(path), seal=OTHER, **values
            )
        self.assertEqual(number, again)
        self.assertEqual([], opened.rows("findings"))

    def test_a_bag_that_is_missing_takes_no_share(self) -> None:
        opened = self.open()
        with opened.changing():
            for path in "/none", "/":
                row = dict.fromkeys(register.COLUMNS["bags"])
                opened.add("bags", **{**row, "path": path})
            for begun, results in ("1", {"2": 3}), ("2", {"1": 3, "2": 0}):
                row = {"name": begun, "begun": begun, "ended": begun}
                opened.add("rounds", **row, results=json.dumps(results))
        there = [(it["path"], it["tried"]) for it in audit.bags_there(opened)]
        self.assertEqual([("/", "1")], there)

    def test_a_bag_that_is_missing_comes_back(self) -> None:
        opened = self.open()
        for is_there, wanted in ((True, 0), (False, 1), (False, 1), (True, 0)):
            with opened.changing():
                news.miss(opened, bag(1, None), is_there)
            self.assertEqual(wanted, len(opened.rows("findings")))
        kinds = [row["kind"] for row in opened.rows("events")]
        self.assertEqual(["init", "found", "gone"], kinds)


class OfNews(unittest.TestCase):
    """What is found, and what of it is news."""

    def test_what_is_found(self) -> None:
        for found, wanted in (
            (result(0, "/a is valid"), set()),
            (result(0, "/a is valid", OTHER), {("altered", OTHER)}),
            (result(3, "/a is not there"), {("missing", "")}),
            (result(3, "killed"), {("unread", "killed")}),
            (
                result(0, "/a is valid", None),
                {("unread", "its tag files can't be read")},
            ),
            (Result(3, "not begun", b"/a"), {("unread", "not begun")}),
            (
                result(1, "/a has faults: 1"),
                {("unread", "its report was altered")},
            ),
        ):
            with self.subTest(found.result):
                self.assertEqual(wanted, news.found_of(found, SEAL))

    def test_faults_are_named_unless_there_are_very_many(self) -> None:
        line = "601 payload-file-missing data/a md5 - -"
        text = line.encode() + b"\n"
        self.assertEqual([line], news.lines_of([text, b"x"], 1, "a"))
        one, other = (news.lines_of([], 1001, it) for it in "ab")
        self.assertIn("1001 faults", one[0])
        self.assertNotEqual(one, other)

    def test_a_time_that_is_to_come_is_past(self) -> None:
        self.assertTrue(news.is_past(None, 1))
        self.assertTrue(news.is_past("9999-01-01T00:00:00Z", 1))
        self.assertTrue(news.is_past("2000-01-01T00:00:00Z", 1))
        self.assertFalse(news.is_past(audit.now(), 1))

    def test_what_is_known_until_a_day(self) -> None:
        for known, wanted in (
            (None, True),
            ("{}", False),
            ('{"until": "2026-01-01"}', True),
            ('{"until": "2026-01-02"}', False),
        ):
            self.assertEqual(
                wanted, news.is_news({"known": known}, "2026-01-02")
            )

    def test_the_first_line(self) -> None:
        found = [
            {"bag": 1, "kind": "fault", "text": "x"},
            {"bag": 1, "kind": "fault", "text": "y"},
            {"bag": 2, "kind": "altered", "text": OTHER},
        ]
        bags = {it: bag(it, "2026-01-01T00:00:00Z") for it in (1, 2)}
        for it in bags:
            bags[it]["path"] = f"/{it}"
        state = news.State(found, [], bags)
        self.assertEqual(
            "news of 2 bags: 1 with faults, 1 altered", state.first_line()
        )
        self.assertEqual("altered /2 " + OTHER, state.lines()[3])
        for is_new in True, False:
            found[0].update(is_new=is_new, until="2026-01-01")
            of = [found[0], *({**it, "is_new": False} for it in found[1:])]
            lines = news.State(of, [], bags).lines()
            still = "" if is_new else "still "
            self.assertTrue(lines[0].startswith(f"{still}news of 2 bags: "))
            fault = "fault /1 x (known until 2026-01-01)"
            self.assertEqual(still + fault, lines[1])
            self.assertEqual("still fault /1 y", lines[2])
        self.assertEqual(
            ["no news: 2 bags, each read whole since 2026-01-01T00:00:00Z"],
            news.State([], [], bags).lines(),
        )


class OfAudit(unittest.TestCase):
    """Which bags an audit reads."""

    BAGS = [
        bag(1, "2026-01-03T00:00:00Z"),
        bag(2, "2026-01-01T00:00:00Z"),
        bag(3, None),
        bag(4, "2026-01-02T00:00:00Z", 0),
        bag(5, "9999-01-01T00:00:00Z"),
    ]

    def due(self, **values: Any) -> Any:
        return [row["id"] for row in audit.due(self.BAGS, asked(**values))]

    def test_longest_unread_first(self) -> None:
        self.assertEqual([3, 5, 2, 1], self.due())

    def test_one_that_was_tried_in_vain_waits_for_its_turn(self) -> None:
        tried = {**self.BAGS[2], "tried": "2026-01-02T00:00:00Z"}
        bags = [tried, *self.BAGS[:2]]
        found = [row["id"] for row in audit.due(bags, asked())]
        self.assertEqual([2, 3, 1], found)

    def test_a_share_is_rounded_up(self) -> None:
        self.assertEqual([3, 5], self.due(share=(1, 3)))
        self.assertEqual([3, 5, 2, 1], self.due(share=(3, 3)))

    def test_bytes_are_one_bag_at_least(self) -> None:
        self.assertEqual([3, 5, 2, 1], self.due(bytes=1))

    def test_days(self) -> None:
        self.assertEqual([3, 5, 2, 1], self.due(days=1))


class OfPremis(unittest.TestCase):
    """The document of a bag."""

    def test_events(self) -> None:
        row = {"id": 7, "at": "2026-01-01T00:00:00Z", "kind": "adopted"}
        text = premis_of("/a", bag(1, None), [{**row, "data": "{}"}])
        for part in (
            'xmlns:premis="http://www.loc.gov/premis/v3"',
            "<premis:eventType>ingestion</premis:eventType>",
            "<premis:eventOutcome>pass</premis:eventOutcome>",
            "<premis:eventIdentifierValue>7</premis:eventIdentifierValue>",
        ):
            self.assertIn(part, text)


if __name__ == "__main__":
    unittest.main()
