"""Receipts of a register, and the bags that came with them."""
import json
import os
import tempfile
import unittest
from contextlib import closing
from pathlib import Path
from typing import Any, Dict, List

from bagitkeep import received, register
from bagitkeep.messages import Refused
from bagitkeep.receipts import page_of, publish

SEAL = "0" * 128
PAGE = b"<p>valid"


class OfRegister(unittest.TestCase):
    def setUp(self) -> None:
        room = tempfile.TemporaryDirectory()
        self.addCleanup(room.cleanup)
        self.room = Path(os.path.realpath(room.name))
        (self.room / "store").mkdir()
        (self.room / "link").symlink_to("store")
        self.folder = str(self.room / "register")
        stores = [str(self.room / "link")]
        settings = {"stores": stores, "every": 90}
        register.make(os.fsencode(self.folder), settings)

    def receipt(self, number: str, name: str = "", seal: str = SEAL) -> bytes:
        receipt: Dict[str, Any] = {
            "number": number,
            "received": "2026-01-01T00:00:00Z",
            "decision": "accepted" if name else "refused",
            "folder": str(self.room / "store" / name) if name else None,
            "bag": {"seal": seal, "files": 1, "bytes": 2, "version": "1.0"},
        }
        return json.dumps(receipt).encode()

    def enter(self, number: str, name: str = "", seal: str = SEAL) -> None:
        content = self.receipt(number, name, seal)
        path = Path(os.fsdecode(
            received.path_in(os.fsencode(self.folder), number)
        ))
        path.parent.mkdir(exist_ok=True)
        path.write_bytes(content)
        path.with_suffix(".html").write_bytes(PAGE)
        received.enter(self.folder, content, PAGE)

    def rows(self, table: str, where: str = "1") -> List[register.Row]:
        with closing(register.Register(os.fsencode(self.folder))) as opened:
            return opened.rows(table, where)

    def test_a_bag_is_taken_by_the_name_of_its_store(self) -> None:
        self.enter("1", "a")
        (bag,) = self.rows("bags")
        self.assertEqual(bag["path"], str(self.room / "link" / "a"))
        self.assertEqual(
            (bag["seal"], bag["files"], bag["bytes"], bag["read"]),
            (SEAL, 1, 2, "2026-01-01T00:00:00Z"),
        )

    def test_a_receipt_is_noted_once(self) -> None:
        for _ in range(2):
            self.enter("1", "a")
            self.enter("2")
        kinds = [it["kind"] for it in self.rows("events")]
        self.assertEqual(
            kinds, ["init", "adopted", "received", "received"]
        )

    def test_another_bag_is_not_replaced(self) -> None:
        self.enter("1", "a")
        with self.assertRaisesRegex(Refused, "in the register already"):
            self.enter("2", "a", "1" * 128)
        self.assertEqual([it["seal"] for it in self.rows("bags")], [SEAL])
        self.enter("3", "a")

    def test_one_that_is_altered_is_found(self) -> None:
        self.enter("1", "a")
        path = Path(self.folder, "receipts", "1.json")
        whole = path.read_bytes()
        with closing(register.Register(os.fsencode(self.folder))) as opened:
            for content, wanted in ((whole, 0), (whole + b" ", 1), (whole, 0)):
                path.write_bytes(content)
                with opened.changing():
                    received.look(opened)
                found = opened.rows("findings")
                self.assertEqual(len(found), wanted)
                (noted,) = received.noted_in(opened)
                self.assertEqual(noted.says is None, bool(wanted))
            page = path.with_suffix(".html")
            page.write_bytes(PAGE.replace(b"valid", b"superb"))
            with opened.changing():
                received.look(opened)
            (row,) = opened.rows("findings")
            self.assertEqual(row["text"], str(page))
            (noted,) = received.noted_in(opened)
            self.assertIsNotNone(noted.says)

    def test_a_killed_process_has_published_a_part(self) -> None:
        receipt = json.loads(self.receipt("1", "a"))
        receipt["arrived"] = {"name": "a.tar"}
        path = Path(self.folder, "receipts", "1.json")
        page, wanted = path.with_suffix(".html"), page_of(receipt)
        path.parent.mkdir()
        for _ in range(2):
            publish(receipt, str(path), self.folder)
            self.assertEqual(json.loads(path.read_text()), receipt)
            self.assertEqual(page.read_text(), wanted)
        self.assertEqual(len(self.rows("events", "kind = 'received'")), 1)

    def test_what_was_altered_meanwhile_is_seen(self) -> None:
        receipt = json.loads(self.receipt("1", "a"))
        receipt["arrived"] = {"name": "a.tar"}
        path = Path(self.folder, "receipts", "1.json")
        path.parent.mkdir()
        altered = page_of(receipt).replace("valid", "superb")
        path.with_suffix(".html").write_text(altered)
        with self.assertRaisesRegex(Refused, "1.html is there already, with"):
            publish(receipt, str(path), self.folder)
        self.assertEqual(self.rows("bags"), [])


if __name__ == "__main__":
    unittest.main()
