"""What audits tell on their nights, and what `status` tells between them."""
import errno
import io
import os
import shutil
import sqlite3
import tempfile
import unittest
from argparse import Namespace
from contextlib import closing, contextmanager, redirect_stdout
from typing import Any, Callable, Iterator, List, Optional
from unittest import mock

from bagitkeep import audit, keeping, news, register, renewal, rounds
from bagitkeep.messages import Refused
from bagitkeep.seal import seal_of


class OfNights(unittest.TestCase):
    """Audits that read no bag."""

    def setUp(self) -> None:
        room = tempfile.TemporaryDirectory()
        self.addCleanup(room.cleanup)
        self.folder = os.fsencode(room.name) + b"/register"
        register.make(self.folder, {"stores": [], "every": 90})
        self.opened = register.Register(self.folder)
        self.addCleanup(self.opened.close)
        due = mock.patch.object(audit, "due", lambda bags, asked: [])
        due.start()
        self.addCleanup(due.stop)

    def take(self, path: str, read: Optional[str]) -> None:
        with self.opened.changing():
            values = {"seal": "0", "files": 0, "bytes": 0, "read": read}
            register.take(self.opened, path, **values)

    def said(self, work: Callable[..., int], *words: Any) -> List[str]:
        with redirect_stdout(io.StringIO()) as out:
            work(self.opened, *words)
        return out.getvalue().splitlines()

    def audit(self) -> List[str]:
        return self.said(audit.audit, Namespace(task=None))

    def status(self) -> List[str]:
        """What `status` says, which changes nothing."""
        before = [self.opened.rows(it) for it in register.COLUMNS]
        with closing(register.Register(self.folder, True)) as it:
            with redirect_stdout(io.StringIO()) as out:
                keeping.status(it, Namespace(), [])
        after = [self.opened.rows(it) for it in register.COLUMNS]
        self.assertEqual(before, after)
        return out.getvalue().splitlines()

    def kinds(self) -> List[str]:
        """The kinds of the events of the first bag, but for its adoption."""
        return [it["kind"] for it in self.opened.rows("events", "bag = 1")][1:]

    def test_news_are_new_once(self) -> None:
        self.take("/none", audit.now())
        for still in "", "still ", "still ":
            said = self.audit()
            self.assertEqual(f"{still}news of 1 bag: 1 missing", said[0])
            self.assertEqual(f"{still}missing /none", said[1])
            self.assertEqual(said, self.status())
        self.take("/none2", audit.now())
        said = self.audit()
        self.assertEqual("news of 2 bags: 2 missing", said[0])
        self.assertEqual("missing /none2", said[1])
        self.assertEqual("still missing /none", said[2])

    def test_what_was_not_told_is_new(self) -> None:
        self.take("/none", audit.now())
        full = mock.patch.object(self.opened, "copy", side_effect=Refused("x"))
        with full, self.assertRaises(Refused):
            self.audit()
        self.assertEqual("news of 1 bag: 1 missing", self.audit()[0])
        self.assertEqual("still news of 1 bag: 1 missing", self.audit()[0])

    def test_an_altered_event_is_an_error(self) -> None:
        self.take("/none", audit.now())
        self.audit()
        path = os.fsdecode(self.folder + b"/register.sqlite")
        with closing(sqlite3.connect(path)) as base, base:
            query = "UPDATE events SET kind = 'fount' WHERE kind = 'found'"
            self.assertEqual(1, base.execute(query).rowcount)
        with self.assertRaises(Refused):
            self.said(keeping.status, Namespace(), [])

    def test_a_row_that_was_removed_is_an_error(self) -> None:
        for path in "/none", "/none2":
            self.take(path, audit.now())
        self.audit()
        path = os.fsdecode(self.folder + b"/register.sqlite")
        with open(path, "rb") as file:
            whole = file.read()
        for table, where in (
            ("settings", "name = 'stores'"),
            ("settings", "name = 'every'"),
            ("bags", "id = 2"),
            ("bags", "1"),
            ("events", "id = 2"),
            ("events", "1"),
        ):
            with closing(sqlite3.connect(path)) as base, base:
                base.execute(f"DELETE FROM {table} WHERE {where}")
            text = fr"\(a row of {table} was removed\): put register.copy in"
            with self.assertRaisesRegex(Refused, text):
                register.Register(self.folder)
            with open(path, "wb") as file:
                file.write(whole)
        self.assertEqual("still news of 2 bags: 2 missing", self.audit()[0])

    def test_a_round_whose_list_is_lost_is_given_up(self) -> None:
        for is_removed in True, False:
            row = audit.begin_round(self.opened, [], False)
            folder = audit.folder_of(self.opened, row["name"])
            if is_removed:
                shutil.rmtree(folder)
            else:
                with open(folder + b"/list/options.json", "r+b") as file:
                    text = file.read().replace(b"depth", b"depvh")
                    file.seek(0)
                    file.write(text)
            self.assertEqual("news of 0 bags: 1 cut off", self.audit()[0])
            self.assertEqual("no news: 0 bags", self.audit()[0])

    def test_a_round_takes_a_number_that_none_had(self) -> None:
        folder = os.path.join(self.folder, b"rounds", b"000007", b"reports")
        os.makedirs(folder)
        row = audit.begin_round(self.opened, [], False)
        self.assertEqual("000008", row["name"])
        self.assertTrue(os.path.isdir(folder))

    def test_rounds_that_were_pruned_are_not_read_again(self) -> None:
        with self.opened.changing():
            for name in "12345":
                values = {"begun": "x", "ended": "y", "results": "{}"}
                self.opened.add("rounds", name=name, **values)
        counts = [1, Refused("x"), 0, 1]
        with mock.patch.object(audit, "prune_round", side_effect=counts) as it:
            audit.prune(self.opened)
        self.assertEqual(3, it.call_count)

    def test_what_was_known_is_new_again(self) -> None:
        self.take("/none", audit.now())
        self.audit()
        self.audit()
        who = {"by": "Ada", "why": "x", "until": "2026-01-01"}
        words = Namespace(**who, all=True, line=[])
        self.said(keeping.known, words, [b"/none"])
        for said in self.status(), self.audit(), self.status():
            self.assertEqual("news of 1 bag: 1 missing", said[0])
            line = "missing /none (known until 2026-01-01)"
            self.assertEqual(line, said[1])
            self.assertEqual("1 bags, each read", said[2][:17])
        said = self.audit()
        self.assertEqual("still news of 1 bag: 1 missing", said[0])
        self.assertEqual("still missing /none", said[1])
        self.assertEqual(["found", "known", "lapsed"], self.kinds())
        words.all, words.until = None, "9999-01-01"
        words.line = "missing (known until 2026-01-01)".split()
        self.said(keeping.known, words, [b"/none"])
        self.assertEqual("no news: 1 bags, ", self.audit()[0][:17])

    def test_a_link_that_leads_nowhere_is_missing(self) -> None:
        path = os.path.dirname(self.folder) + b"/bag"
        os.symlink("/none", path)
        self.take(os.fsdecode(path), audit.now())
        for still in "", "still ":
            wanted = f"{still}missing {os.fsdecode(path)}"
            self.assertEqual(wanted, self.audit()[1])
            self.assertEqual([], audit.bags_there(self.opened))

    def test_a_bag_that_is_overdue(self) -> None:
        self.take("/", "2026-01-01T00:00:00Z")
        for said in self.status(), self.status(), self.audit(), self.status():
            self.assertEqual("news of 1 bag: 1 overdue", said[0])
        self.assertEqual("still news of 1 bag: 1 overdue", self.audit()[0])
        self.assertEqual(["found"], self.kinds())
        with self.opened.changing():
            bag = self.opened.bag_at(b"/")
            self.opened.alter("bags", bag, read=audit.now())
        for said in self.status(), self.audit():
            self.assertEqual("no news: 1 bags, ", said[0][:17])
        self.assertEqual(["found", "gone"], self.kinds())

    def test_a_bag_that_was_retired(self) -> None:
        self.take("/", "2026-01-01T00:00:00Z")
        self.audit()
        words = Namespace(by="Ada", why="x")
        self.said(keeping.retire, words, [b"/"])
        self.assertEqual(["found", "gone", "retired"], self.kinds())

    def test_a_retired_bag_is_only_adopted(self) -> None:
        self.take("/", audit.now())
        words = Namespace(by="Ada", why="x")
        self.said(keeping.retire, words, [b"/"])
        for work in keeping.accepted, keeping.moved:
            with self.assertRaises(Refused) as refused:
                work(self.opened, words, [b"/", b"/new"])
            text = "/ is retired: adopt takes it again"
            self.assertEqual(text, str(refused.exception))
        with self.assertRaises(Refused):
            renewal.renew(self.opened, b"/", [])
        self.assertEqual(["retired"], self.kinds())

    def test_a_bag_that_was_moved_is_not_new(self) -> None:
        self.take("/none", audit.now())
        with self.opened.changing():
            news.welcome(self.opened, [b"/new"])
        values = {"seal": "0", "files": 0, "bytes": 0, "read": audit.now()}
        words = Namespace(by="Ada", why="x")
        with mock.patch.object(keeping, "checked"):
            with mock.patch.object(keeping, "good", return_value=values):
                self.said(keeping.moved, words, [b"/none", b"/new"])
        self.assertEqual("no news: 1 bags, ", self.status()[0][:17])

    def test_what_is_accepted_after_an_audit_has_read_it(self) -> None:
        values = {"seal": "1", "files": 0, "bytes": 0, "read": audit.now()}
        words, paths = Namespace(by="Ada", why="x"), [b"/a", b"/b"]
        for path in paths:
            self.take(os.fsdecode(path), audit.now())
        row = audit.begin_round(self.opened, self.opened.rows("bags"), False)
        folder = audit.folder_of(self.opened, row["name"])
        os.mkdir(folder + b"/records")
        read = rounds.Record(1, "/a", "/a", audit.now(), audit.now(), 1)
        with open(folder + b"/records/x.jsonl", "wb") as file:
            file.write(read.line())
        with mock.patch.object(keeping, "checked"):
            with mock.patch.object(keeping, "good", return_value=values):
                for path in paths:
                    self.said(keeping.accepted, words, [path])
        self.assertEqual({1}, audit.accepted_after(self.opened, row))
        self.assertEqual(set(), audit.accepted_after(self.opened, None))
        with mock.patch.object(os.path, "exists", return_value=True):
            audit.take_in(self.opened, row, False, [])
        found = self.opened.rows("findings")
        self.assertEqual([2], [it["bag"] for it in found])

    def test_a_round_is_taken_in_once(self) -> None:
        self.take("/", audit.now())
        row = audit.begin_round(self.opened, self.opened.rows("bags"), False)
        audit.take_in(self.opened, row, False, [])
        bag, found = self.opened.bag_at(b"/"), {("fault", "of a later audit")}
        with self.opened.changing():
            news.settle(self.opened, bag, found)
        before = self.opened.rows("rounds")
        with mock.patch.object(audit, "found_of", return_value=set()):
            audit.take_in(self.opened, row, False, [])
        kinds = [it["kind"] for it in self.opened.rows("findings")]
        self.assertEqual(["fault"], kinds)
        self.assertEqual(before, self.opened.rows("rounds"))

    def test_no_bag_is_accepted_by_the_check_of_another(self) -> None:
        for path in "/a", "/b":
            self.take(path, audit.now())

        def checks_another(a_round: rounds.Round, *rest: Any) -> None:
            shutil.rmtree(a_round.folder)
            rounds.begin(a_round.folder, [b"/b"], keeping.FULL, None)

        words = Namespace(by="Ada", why="x")
        values = {"seal": "1", "files": 0, "bytes": 0, "read": audit.now()}
        with mock.patch.object(keeping, "check", checks_another):
            with mock.patch.object(keeping, "good", return_value=values):
                with self.assertRaises(Refused) as refused:
                    keeping.accepted(self.opened, words, [b"/a"])
        self.assertEqual(3, refused.exception.status)
        self.assertEqual([], self.kinds())

    def test_who_retires_a_bag_keeps_what_was_noted_just_before(self) -> None:
        self.take("/", audit.now())
        changing = self.opened.changing

        @contextmanager
        def after_another() -> Iterator[None]:
            with changing():
                bag = self.opened.bag_at(b"/")
                self.opened.alter("bags", bag, seal="1")
            with changing():
                yield

        words = Namespace(by="Ada", why="x")
        with mock.patch.object(self.opened, "changing", after_another):
            self.said(keeping.retire, words, [b"/"])
        bag = self.opened.bag_at(b"/")
        self.assertEqual(("1", 0), (bag["seal"], bag["is_kept"]))

    def test_what_only_status_has_told_can_be_known(self) -> None:
        self.take("/", "2026-01-01T00:00:00Z")
        self.assertEqual("news of 1 bag: 1 overdue", self.status()[0])
        words = Namespace(by="Ada", why="x", until=None, all=True, line=[])
        said = self.said(keeping.known, words, [b"/"])
        self.assertEqual(["/: 1 findings are known"], said)
        for said in self.status(), self.audit():
            self.assertEqual("no news: 1 bags, ", said[0][:17])

    def test_status_where_nothing_can_be_written(self) -> None:
        with self.opened.changing():
            values = {"begun": "x", "ended": None, "results": None}
            self.opened.add("rounds", name="1", **values)
        for number in errno.EROFS, errno.EACCES:
            fails = OSError(number, os.strerror(number))
            with mock.patch.object(keeping, "alone", side_effect=fails):
                said = self.status()
            self.assertEqual("news of 0 bags: 1 cut off", said[0])

    def test_a_tar_that_was_retired_is_read_once(self) -> None:
        store = os.path.dirname(self.folder)
        path = os.path.join(store, b"bag.tar")

        def put(text: bytes) -> str:
            with open(path, "wb") as file:
                file.write(text)
            os.utime(path, ns=(1, 1))
            return seal_of(path)

        with self.opened.changing():
            self.opened.set("stores", [os.fsdecode(store)])
            values = {"files": 1, "bytes": 2, "read": audit.now()}
            seal = put(b"one")
            register.take(self.opened, os.fsdecode(path), seal=seal, **values)
            bag = self.opened.bag_at(path)
            self.opened.alter("bags", bag, is_kept=0)
        new = f"new {os.fsdecode(path)}"
        for text, line in ((b"", ""), (b"two", new), (b"one", "")):
            if text:
                put(text)
            for count in 1, 0, 0:
                with mock.patch.object(audit, "seal_of", wraps=seal_of) as it:
                    said = self.audit()
                self.assertEqual(count, it.call_count)
                self.assertEqual(bool(line), said[1:2] != [])
                if line:
                    self.assertEqual(line, said[1].replace("still ", ""))
        os.unlink(path)
        self.audit()
        self.assertEqual({}, self.opened.setting("seen"))

    def test_a_bag_in_two_stores_is_one(self) -> None:
        store = os.path.dirname(self.folder)
        os.mkdir(store + b"/bag")
        with open(store + b"/bag/bagit.txt", "wb"):
            pass
        with self.opened.changing():
            self.opened.set("stores", [os.fsdecode(store)] * 2)
        self.assertEqual([store + b"/bag"], audit.strangers(self.opened)[0])

    def test_news_of_no_bag_go_too(self) -> None:
        for there in [b"/new"], []:
            with self.opened.changing():
                news.welcome(self.opened, there)
        kinds = [it["kind"] for it in self.opened.rows("events")]
        self.assertEqual(["init", "found", "gone"], kinds)


if __name__ == "__main__":
    unittest.main()
