"""What pages show, and that no name on them acts."""
import io
import os
import tempfile
import unittest
from argparse import Namespace
from contextlib import redirect_stdout
from importlib.util import find_spec
from pathlib import Path
from unittest import mock

from bagitkeep import keeping, page, register
from bagitkeep.lines import FAULTS
from bagitkeep.messages import Refused, now
from bagitkeep.news import find
from bagitkeep.program import Asked
from bagitkeep.rounds import Record, Row

LINE = "701 payload-sum-differs data/a/<b sha256 - x:y"
RECORD = Record(1, "/a", "/a", "x", "2026-01-01T00:00:00Z", 1, seal="0")
HOSTILE = '<script>alert("1")</script>&\'/'


class Views(unittest.TestCase):
    """What is taken from reports and from FAULTS.md."""

    def test_faults_by_folder(self) -> None:
        lines = [
            "701 payload-sum-differs data/b/z md5 - x:y",
            "no line of bagit",
            "701 payload-sum-differs data/a/z sha256 - x:y",
            "101 no-declaration bagit.txt - - -",
        ]
        found = page.by_folder(lines)
        self.assertEqual(
            ["data/a", "data/b", "the bag"], [it[0] for it in found]
        )
        _, means, todo = FAULTS[701]
        says = "701 payload-sum-differs sha256"
        view = {"file": "z", "says": says, "means": means, "todo": todo}
        self.assertEqual([view], found[0][1])
        self.assertEqual("101 no-declaration", found[2][1][0]["says"])

    def test_only_a_full_check_is_certified(self) -> None:
        for depth, wanted in (("full", True), ("fast", False)):
            row = Row(0, "/a is valid", b"/a", 0, None, RECORD)
            a_round = mock.Mock(asked=Asked(depth), rows=lambda: [row])
            with mock.patch.object(page.rounds, "load", lambda _: a_round):
                bag = page.site_of_round(b"/r").bags[0]
            self.assertEqual(wanted, bag.is_certified)
            self.assertEqual(wanted, bag.read is not None)

    def test_events(self) -> None:
        why = {"by": "Ada", "why": "<x>"}
        line = "701 payload-sum-differs data/a sha256 - x:y"
        counts = {"seal": "0", "files": 1, "bytes": 2}
        for data, wanted in (
            (counts, "files: 1, bytes: 2"),
            ({**counts, **why}, "files: 1, bytes: 2; Ada: <x>"),
            (
                {"of": "fault", "text": line, **why, "until": "2026-01-01"},
                "fault payload-sum-differs, data/a, sha256; Ada: <x>, until"
                " 2026-01-01",
            ),
            ({"of": "missing", "text": ""}, "missing"),
            ({"old": "/a b", "new": "/c", **why}, "/a%20b to /c; Ada: <x>"),
            ({"number": "1", "decision": "refused"}, "receipt 1: refused"),
        ):
            self.assertEqual(wanted, page.said_of_event(data))

    def test_ages(self) -> None:
        today = page.now()
        bags = [{"read": it} for it in (today, None, "2000-01-01T00:00:00Z")]
        ages = {it["days"]: it["bags"] for it in page.ages_of(bags)}
        self.assertEqual(1, ages["0 to 6"])
        self.assertEqual(2, ages[page.LAST_AGE])


class OfRegister(unittest.TestCase):
    """What the pages of a register say."""

    def test_the_news_are_those_of_status(self) -> None:
        opened = self.made()
        with opened.changing():
            for path, read in ("/a", "2000-01-01T00:00:00Z"), ("/b", now()):
                values = {"seal": "0", "files": 1, "bytes": 2, "read": read}
                register.take(opened, path, **values)
        self.says(opened, "news of 1 bag: 1 overdue", 1)
        with opened.changing():
            values = {"ended": None, "results": None}
            opened.add("rounds", name="000001", begun=now(), **values)
        self.says(opened, "news of 1 bag: 1 overdue, 1 cut off", 2)
        for error, line, news in (
            (Refused("x"), "news of 1 bag: 1 overdue", 1),
            (PermissionError(), "news of 1 bag: 1 overdue, 1 cut off", 2),
        ):
            with mock.patch.object(keeping, "alone", side_effect=error):
                self.says(opened, line, news)
        with opened.changing():
            bag = opened.bag_at(b"/a")
            opened.alter("bags", bag, read=now())
        self.says(opened, "news of 0 bags: 1 cut off", 1)

    def test_known_findings(self) -> None:
        opened = self.made()
        with opened.changing():
            values = {"seal": "0", "files": 1, "bytes": 2, "read": now()}
            register.take(opened, "/a", **values)
            bag = opened.bag_at(b"/a")
            for kind, text in ("fault", LINE), ("missing", ""):
                find(opened, bag, kind, text)
        said = {"by": "Ada", "why": HOSTILE, "until": "9999-01-01"}
        words = Namespace(**said, all=None, line=["fault", LINE])
        with redirect_stdout(io.StringIO()):
            keeping.known(opened, words, [b"/a"])
        site = page.site_of_register(opened)
        self.assertEqual(["missing"], [it["what"] for it in site.news])
        (known,) = site.known
        self.assertEqual(said, {it: known[it] for it in said})
        for name, wanted in (
            ("what", "fault"), ("bag", "/a"), ("page", "bag-1.html"),
            ("says", "payload-sum-differs, data/a/<b, sha256"),
        ):
            self.assertEqual(wanted, known[name])

    def made(self) -> register.Register:
        room = tempfile.TemporaryDirectory()
        self.addCleanup(room.cleanup)
        folder = os.fsencode(room.name) + b"/register"
        register.make(folder, {"stores": ["/s"], "every": 90})
        opened = register.Register(folder)
        self.addCleanup(opened.close)
        return opened

    def says(self, opened: register.Register, line: str, news: int) -> None:
        """The pages do, also before the register is reminded, and they change
        nothing there."""
        before = [opened.rows(it) for it in register.COLUMNS]
        for _ in range(2):
            site = page.site_of_register(opened)
            self.assertEqual(line, site.first_line)
            self.assertEqual(news, len(site.news))
            is_overdue = "overdue" in line
            self.assertEqual(not is_overdue, site.bags[0].is_certified)
            self.assertTrue(site.bags[1].is_certified)
            after = [opened.rows(it) for it in register.COLUMNS]
            self.assertEqual(before, after)
            out = io.StringIO()
            with redirect_stdout(out):
                keeping.status(opened, Namespace(), [])
            self.assertEqual(line, out.getvalue().splitlines()[0])
            before = [opened.rows(it) for it in register.COLUMNS]


@unittest.skipUnless(find_spec("jinja2"), "there is no Jinja2")
class Written(unittest.TestCase):
    """Pages in a folder."""

    def setUp(self) -> None:
        room = tempfile.TemporaryDirectory()
        self.addCleanup(room.cleanup)
        self.room = Path(room.name)
        bag = page.BagView(HOSTILE, HOSTILE, [HOSTILE], HOSTILE)
        bag.events = [{"at": HOSTILE, "kind": HOSTILE, "says": HOSTILE}]
        bag.faults = page.by_folder([LINE])
        self.site = page.Site(HOSTILE, [bag])
        names = "what bag says todo since page".split()
        self.site.news = [dict.fromkeys(names, HOSTILE)]
        names += ["by", "why", "until"]
        self.site.known = [dict.fromkeys(names, HOSTILE)]

    def write(self) -> Path:
        page.replace(self.site, os.fsencode(self.room / "pages"))
        return self.room / "pages"

    def test_no_name_acts(self) -> None:
        folder = self.write()
        files = sorted(folder.glob("*.html"))
        self.assertEqual(3, len(files))
        for file in files:
            text = file.read_text("utf-8")
            self.assertNotIn("<script", text)
            self.assertIn("&lt;script&gt;", text)
            self.assertNotIn("http:", text.replace("http-equiv", ""))

    def test_what_pages_say_of_known_findings_and_readings(self) -> None:
        text = (self.write() / "index.html").read_text("utf-8")
        self.assertIn("<h2>Known findings</h2>", text)
        text = (self.room / "pages/bag-1.html").read_text("utf-8")
        self.assertIn("<p>Last read whole at &lt;script&gt;", text)
        self.site.known, self.site.bags[0].read = [], None
        text = (self.write() / "index.html").read_text("utf-8")
        self.assertNotIn("Known findings", text)
        text = (self.room / "pages/bag-1.html").read_text("utf-8")
        self.assertNotIn("read whole", text)

    def test_pages_are_replaced_and_nothing_else_is(self) -> None:
        folder = self.write()
        (folder / "bag-9.html").write_text("old")
        self.assertFalse((self.write() / "bag-9.html").exists())
        self.assertEqual(["pages"], os.listdir(self.room))
        (self.room / "other").mkdir()
        with self.assertRaises(Refused):
            page.replace(self.site, os.fsencode(self.room / "other"))
        self.assertEqual([], os.listdir(self.room / "other"))


if __name__ == "__main__":
    unittest.main()
