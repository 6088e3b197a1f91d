"""What is asked of a deposit, of its receipt and of hosts, and the names that
nothing else gets."""
import argparse
import io
import json
import os
import tempfile
import unittest
from contextlib import ExitStack
from pathlib import Path
from typing import Any, Dict, List, Optional, Tuple

from bagitkeep.fetch import hosts_of, length_of, refuse_hosts
from bagitkeep.members import Content, Member, Unfit
from bagitkeep.messages import Refused
from bagitkeep.errors import BagError
from bagitkeep.files import name_by_look, place
from bagitkeep.places import place_text, work_at, work_path
from bagitkeep.receipts import page_of, refused_by_windows, text_of
from bagitkeep.receive import Case, arrange, digest_of, read_words
from bagitkeep.serialization import why_not_so


def arranged(*paths: str, name: Optional[str] = None) -> Tuple[str, str]:
    asked = argparse.Namespace(name=name)
    with tempfile.TemporaryFile() as file:
        case = Case(asked, "/x", "/s", None, ExitStack(), "1", "", file)
        members = [Member(it.rstrip("/"), it.endswith("/")) for it in paths]
        return arrange(case, Content(members, lambda _: io.BytesIO()))


class Folders(unittest.TestCase):
    def test_one_at_the_top(self) -> None:
        self.assertEqual(arranged("b/", "b/a"), ("b", "b"))
        self.assertEqual(arranged("b/a"), ("b", "b"))
        self.assertEqual(arranged("b/a", name="c"), ("c", "b"))
        found = arranged("b/a", "__MACOSX/b/._a", ".DS_Store", "Thumbs.db")
        self.assertEqual(found, ("b", "b"))

    def test_none_or_several(self) -> None:
        for says, *paths in (
            (r"top \(files and folders there: 2 \(a, b\)\)", "a", "b/c"),
            ("2 .*: ask for one", "a/b", "c/d"),
            ("1 .*: ask for one", "a"),
            ("it has no files", "__MACOSX/a"),
            ("ask for one", "a/bagit.txt", "Thumbs.db/a", "b"),
            ("ask for one", "bagit.txt/a", "b"),
            ("--as gives its name", "bagit.txt", "data/a"),
        ):
            with self.assertRaisesRegex(Unfit, says):
                arranged(*paths)
            self.assertEqual(arranged(*paths, name="n"), ("n", ""))


class Words(unittest.TestCase):
    def test_digests_of_senders(self) -> None:
        digest = "9" * 64
        self.assertEqual(digest_of(f"sha256:{digest}"), ("sha256", digest))
        found = digest_of(f"SHA-256:{'AB' * 32}")
        self.assertEqual(found, ("sha256", "ab" * 32))
        for word in digest, "sha256:9", f"sha512:{digest}", f"x:{digest}", "":
            with self.assertRaises(argparse.ArgumentTypeError):
                digest_of(word)

    def test_what_goes_together(self) -> None:
        words = "d", "s", "--fetch", "--allow", "a", "--allow", "b"
        self.assertEqual(read_words(words).allow, ["a", "b"])
        alone, hidden = ["d", "s", "--allow", "a"], ["d", "s", "--as", "."]
        for wrong in ["d"], alone, hidden:
            with self.assertRaises(Refused):
                read_words(wrong)


class Profiles(unittest.TestCase):
    def test_archive_files(self) -> None:
        zips: Dict[str, Any] = {"Accept-Serialization": ["application/zip"]}
        both = {"Accept-Serialization": ["application/x-tar", "zip"]}
        self.assertIsNone(why_not_so({}, "tar"))
        self.assertIsNone(why_not_so({"Serialization": "required"}, "tar"))
        self.assertIsNone(why_not_so(zips, "zip"))
        self.assertIsNone(why_not_so(both, "tar"))
        for profile in {"Serialization": "forbidden"}, zips:
            self.assertIsNotNone(why_not_so(profile, "tar"))
        self.assertIsNotNone(why_not_so(both, "tar.gz"))


class Hosts(unittest.TestCase):
    def test_of_urls(self) -> None:
        for url, hosts in (
            ("http://a.example/x", ("a.example", "a.example:80")),
            ("HTTPS://A.example", ("a.example", "a.example:443")),
            ("http://a:080/{1,2}[a]?q#f", ("a:80", "a")),
            ("http://[::1]:8/", ("[::1]:8", "[::1]")),
        ):
            self.assertEqual(hosts_of(url), hosts)
        for url in (
            "file:///etc/passwd",
            "ftp://a/",
            "http://b@a/",
            "http://a\\@b/",
            "http://a b/",
            "http://a:x/",
            "http:///x",
            "http://a/\u00e9",
            "a/b",
            "-o x",
            "http://a/\nb",
        ):
            self.assertEqual(hosts_of(url), (), url)

    def test_others_are_refused(self) -> None:
        refuse_hosts(["http://a/x", "https://b/"], {"a", "b"})
        with self.assertRaisesRegex(Refused, "hosts: b, c"):
            refuse_hosts(["http://c/", "http://b/", "http://a/"], {"a"})

    def test_ports(self) -> None:
        refuse_hosts(["http://a:8/x", "https://a/"], {"a:8", "a:443"})
        for url in "http://a:8/", "https://a/", "http://b/":
            with self.assertRaises(Refused):
                refuse_hosts([url], {"a:80", "b:8"})

    def test_lengths(self) -> None:
        self.assertEqual(length_of("007"), 7)
        for text in "-", "9" * 5000:
            self.assertIsNone(length_of(text))


class Receipts(unittest.TestCase):
    def test_names_in_windows(self) -> None:
        for path in "a/CON", "nul.txt", "a:b", "x?", "a\\b", "a.", "a ", "\t":
            self.assertTrue(refused_by_windows(path), path)
        for path in "con/a", "console", "a b", ".a", "com0", "é":
            self.assertFalse(refused_by_windows(path), path)

    def test_remarks(self) -> None:
        self.assertEqual(text_of(("x", [])), "x")
        paths: List[str] = ["a b", "c", "d", "e"]
        self.assertEqual(text_of(("x", paths)), "x: 4 (a%20b, c, d, ..)")

    def test_a_page_obeys_no_name(self) -> None:
        odd = "<b>\x1b"
        receipt: Dict[str, Any] = {
            "number": "1",
            "received": "2026-01-01",
            "decision": odd,
            "folder": None,
            "why": odd,
            "arrived": {"name": odd},
            "x": [odd, {}],
        }
        for found in {}, {"folder": odd, "bag": {"files": 1, "bytes": 2}}:
            page = page_of(json.loads(json.dumps({**receipt, **found})))
            self.assertIn("&lt;b&gt;\\x1b", page)
            self.assertNotIn("<b>", page)
            is_good = "is a valid bag (RFC 8493; files: 1, bytes: 2)" in page
            self.assertEqual(is_good, bool(found))


class Places(unittest.TestCase):
    def setUp(self) -> None:
        folder = tempfile.TemporaryDirectory()
        self.addCleanup(folder.cleanup)
        self.folder = Path(folder.name)

    def test_nothing_is_replaced(self) -> None:
        for gives in place, name_by_look:
            for kind in Path.mkdir, Path.touch:
                old, new = self.folder / "old", self.folder / "new"
                kind(old)
                gives(str(old), str(new))
                self.assertFalse(old.exists())
                kind(old)
                with self.assertRaises(FileExistsError):
                    gives(str(old), str(new))
                self.assertTrue(old.exists())
                for path in old, new:
                    path.rmdir() if path.is_dir() else path.unlink()

    def test_a_text_is_written_once(self) -> None:
        path = str(self.folder / "text")
        for _ in range(2):
            place_text(b"x", path)
            self.assertEqual(os.listdir(self.folder), ["text"])
        with self.assertRaisesRegex(Refused, "with other bytes"):
            place_text(b"y", path)
        self.assertEqual(Path(path).read_bytes(), b"x")

    def test_one_works_at_a_time(self) -> None:
        path = work_path(str(self.folder), "sending", "a")
        self.assertEqual(path, work_path(str(self.folder), "sending", "a"))
        self.assertNotEqual(path, work_path(str(self.folder), "sending", "b"))
        os.mkdir(path)
        Path(path, "left").touch()
        with work_at(path) as work:
            self.assertEqual(os.listdir(path), ["left"])
            work.clear()
            self.assertEqual(os.listdir(path), [])
            with self.assertRaisesRegex(BagError, "another process"):
                with work_at(path):
                    pass
            Path(work.at("new")).touch()
        self.assertFalse(os.path.exists(path))
        with work_at(path) as work:
            work.keep = True
        self.assertTrue(os.path.exists(path))


if __name__ == "__main__":
    unittest.main()
