"""Pure parts of what changes bags: manifests, paths, copies, elements."""
import io
import os
import stat
import tempfile
import unittest
from typing import Dict, List, Optional
from unittest.mock import patch

from bagitkeep.beside import Beside, bag_beside, folder_of, path_in_bag
from bagitkeep.errors import BagError
from bagitkeep.make import algorithms_in, elements_given
from bagitkeep.mending import (
    Entry, changed, fits, line_of, mended, untold,
)
from bagitkeep.messages import Refused
from bagitkeep.repack import OXUM, change_of, is_at
from bagitkeep.files import opened
from bagitkeep.trees import copied, dress, link_tree, prune

A = "0cc175b9c0f1b6a831c399e269772661"
"""The MD5 of `a` (RFC 1321, A.5)."""
EMPTY = "d41d8cd98f00b204e9800998ecf8427e"
"""The MD5 of nothing (RFC 1321, A.5)."""


class InAFolder(unittest.TestCase):
    def setUp(self) -> None:
        folder = tempfile.TemporaryDirectory()
        self.addCleanup(folder.cleanup)
        self.folder = folder.name

    def at(self, path: str, content: Optional[bytes] = None) -> str:
        whole = os.path.join(self.folder, path)
        if content is not None:
            os.makedirs(os.path.dirname(whole), exist_ok=True)
            with open(whole, "wb") as file:
                file.write(content)
        return whole


class Manifests(unittest.TestCase):
    def changed(self, text: str, old: bool = False, **becomes: str) -> str:
        """A manifest where the digest of a path, without `data/`, becomes
        another, or its line goes."""

        def change(path: str, digest: str) -> Optional[Entry]:
            new = becomes.get(path[5:], digest)
            return (path, new) if new else None

        return changed(text.encode(), old, change).decode()

    def test_other_bytes_stay(self) -> None:
        for line in (
            f"{A} *./data/%25x\r\n",
            f"{A.upper()}\tdata/y",
            f"\ufeff{A}  data/z\r{EMPTY}  data/x\n\n",
            "no line\n",
            "",
        ):
            self.assertEqual(self.changed(line), line)

    def test_a_digest_is_changed_in_its_line(self) -> None:
        text = f"\ufeff{A} *./data/x\r\n{A}  data/y\n"
        self.assertEqual(
            self.changed(text, x=EMPTY),
            f"\ufeff{EMPTY} *./data/x\r\n{A}  data/y\n",
        )

    def test_a_line_goes(self) -> None:
        text = f"\ufeff{A}  data/x\n{A}  data/y"
        self.assertEqual(self.changed(text, x=""), f"\ufeff{A}  data/y")

    def test_a_path_is_spelled_by_the_version(self) -> None:
        def change(path: str, digest: str) -> Entry:
            return "data/50%\n", digest

        text = f"{A}  data/x\r\n".encode()
        for old, name in (False, b"50%25%0A"), (True, b"50%%0A"):
            wanted = A.encode() + b"  data/" + name + b"\r\n"
            self.assertEqual(changed(text, old, change), wanted)

    def test_lines_are_added(self) -> None:
        added = [("data/%", A), ("data/b", EMPTY)]
        for text in f"{A}  data/x", f"{A}  data/x\n":
            self.assertEqual(
                changed(text.encode(), False, lambda *it: it, added).decode(),
                f"{A}  data/x\n{A}  data/%25\n{EMPTY}  data/b\n",
            )

    def test_what_no_line_can_name(self) -> None:
        for path, old in ("*x", False), (" x", False), ("data/%0A", True):
            with self.assertRaises(BagError):
                line_of(path, A, old)
        self.assertEqual(line_of("data/%0A", A, False), f"{A}  data/%250A\n")


class TagManifests(InAFolder):
    def test_only_right_digests_are_renewed(self) -> None:
        self.at("bagit.txt", b"BagIt-Version: 1.0\n")
        self.at("x", b"a")
        bag = self.folder
        for line, wanted in (
            (f"{A}  x\n", f"{EMPTY}  x\n"),
            (f"{EMPTY}  x\n", f"{EMPTY}  x\n"),
            (f"{'0' * 32}  x\n", f"{'0' * 32}  x\n"),
            ("", f"{EMPTY}  x\n"),
        ):
            self.at("tagmanifest-md5.txt", line.encode())
            changes = mended(bag, {"x": b""})
            left = changes.get("tagmanifest-md5.txt", line.encode())
            self.assertEqual(left, wanted.encode())

    def test_a_line_goes_with_its_file(self) -> None:
        self.at("bagit.txt", b"BagIt-Version: 0.97\n")
        self.at("x", b"a")
        other = f"{A}  y\n".encode()
        for digest, left in (A, b""), (EMPTY, f"{EMPTY}  x\n".encode()):
            content = f"{digest}  x\n".encode() + other
            self.at("tagmanifest-md5.txt", content)
            changes = mended(self.folder, {"x": None})
            self.assertIsNone(changes["x"])
            new = changes.get("tagmanifest-md5.txt", content)
            self.assertEqual(new, left + other)


class Fits(InAFolder):
    """Which tag manifest may take the place of a bag's."""

    def test_all_that_was_named_is_named_and_is_so(self) -> None:
        self.at("bag/a", b"a")
        self.at("bag/b", b"")
        a, b, good = f"{A}  a\n", f"{EMPTY}  b\n", f"{A}  a\n{EMPTY}  b\n"
        for was, becomes, is_fit in (
            (f"{EMPTY}  a\n{b}", good, False),
            (f"{EMPTY[:20]}{A[20:]}  a\n{b}", good, False),
            (f"{EMPTY[:14]}{A[14:]}  a\n{b}", good, True),
            (f"{A}  c\n{b}", good, True),
            (f"x{A}  a\n{b}", good, True),
            ("", good, True),
            (good, good, True),
            (good, a, False),
            (f"{EMPTY}  a\n{b}", b, False),
            (f"{EMPTY}  c\n{b}", good, False),
            (f"{A}  c\n{good}", good, False),
            (b, f"{EMPTY}  a\n{b}", False),
            (b, f"{A}  c\n{b}", False),
            (b, "", False),
        ):
            texts = was.encode(), becomes.encode()
            found = fits(self.at("bag"), "md5", *texts, False)
            self.assertEqual(found, is_fit, (was, becomes))


class Untold(InAFolder):
    """What a bag tells of damage, and not with other manifests."""

    def untold(
        self, old: Dict[str, str], new: Dict[str, str], version: str = "1.0"
    ) -> List[Entry]:
        """The same of a bag with the files that were written into `old`, and
        of one that is given the texts of tag files."""
        with tempfile.TemporaryDirectory() as folder:
            self.folder = folder
            declaration = f"BagIt-Version: {version}\n"
            declaration += "Tag-File-Character-Encoding: UTF-8\n"
            for name, texts in ("old", old), ("new", new):
                self.at(f"{name}/bagit.txt", declaration.encode())
                for path, text in texts.items():
                    content = text.encode("utf-8", "surrogateescape")
                    self.at(f"{name}/{path}", content)
            return list(untold(self.at("old"), self.at("new")))

    def of(
        self, was: str, becomes: Optional[str] = None, version: str = "1.0"
    ) -> List[str]:
        """The paths of a bag with the file data/x, which has `a`, and an MD5
        manifest that becomes another, or goes."""
        name = "manifest-md5.txt"
        old = {"data/x": "a", name: was}
        new = {} if becomes is None else {name: becomes}
        return [path for path, _ in self.untold(old, new, version)]

    def test_a_manifest_goes(self) -> None:
        self.assertEqual(self.of(f"{A}  data/x\n"), [])
        self.assertEqual(self.of(f"{EMPTY}  data/x\n"), ["data/x"])
        self.assertEqual(self.of(f"{A}  data/y\n"), ["data/y"])
        self.assertEqual(self.of(f"{A}  data/x/y\n"), ["data/x/y"])
        self.assertEqual(self.of(f"{A}  data/x\n{EMPTY}  data\n"), [])

    def test_a_folder_is_no_file(self) -> None:
        old = {"data/x/y": "a", "manifest-md5.txt": f"{A}  data/x\n"}
        self.assertEqual(self.untold(old, {}), [("data/x", "md5")])

    def test_each_manifest_by_itself(self) -> None:
        both = {
            "manifest-md5.txt": f"{EMPTY}  data/x\n",
            "manifest-sha1.txt": f"{'0' * 40}  data/x\n",
            "tagmanifest-md5.txt": f"{EMPTY}  notes\n{A}  other\n",
        }
        old = {"data/x": "a", "notes": "a", "other": "a", **both}
        wanted = {path: [("data/x", path[9:-4])] for path in list(both)[:2]}
        wanted["tagmanifest-md5.txt"] = [("notes", "md5")]
        self.assertEqual(self.untold(old, both), [])
        for gone, found in wanted.items():
            new = {path: text for path, text in both.items() if path != gone}
            self.assertEqual(self.untold(old, new), found)

    def test_a_digest_is_another(self) -> None:
        was = f"{EMPTY}  data/x\n"
        self.assertEqual(self.of(was, f"{A}  data/x\n"), ["data/x"])
        self.assertEqual(self.of(was, ""), ["data/x"])
        self.assertEqual(self.of(f"{A}  data/x\n", was), [])

    def test_other_spellings_of_a_digest(self) -> None:
        for was in f"{EMPTY.upper()}  data/x", f"\ufeff{EMPTY} *./data/x\r":
            self.assertEqual(self.of(was), ["data/x"])
            self.assertEqual(self.of(was, f"{EMPTY}  data/x\n"), [])
        self.assertEqual(self.of(f"{A.upper()}  data/x\n"), [])

    def test_a_path_is_another(self) -> None:
        was = f"{EMPTY}  data/old\n"
        self.assertEqual(self.of(was, f"{EMPTY}  data/new\n"), [])
        self.assertEqual(self.of(was, f"{A}  data/new\n"), ["data/old"])
        two = f"{was}{EMPTY}  data/older\n"
        self.assertEqual(
            self.of(two, f"{EMPTY}  data/new\n"), ["data/older"]
        )
        self.assertEqual(self.of(f"{A}  data/x\n", ""), [])
        swapped = f"{EMPTY}  data/x\n{A}  data/y\n", f"{A}  data/x\n"
        self.assertEqual(
            self.of(swapped[0], f"{swapped[1]}{EMPTY}  data/y\n"),
            ["data/x", "data/y"],
        )

    def test_a_path_is_named_twice(self) -> None:
        twice = f"{EMPTY}  data/x\n{A}  data/x\n"
        self.assertEqual(self.of(twice, f"{A}  data/x\n"), [])
        self.assertEqual(self.of(twice, f"{EMPTY}  data/x\n"), [])
        self.assertEqual(self.of(twice), [])
        neither = f"{EMPTY}  data/x\n{'0' * 32}  data/x\n"
        self.assertEqual(self.of(neither), ["data/x"])
        self.assertEqual(self.of(neither, f"{A}  data/x\n"), ["data/x"])

    def test_lines_with_faults_tell_nothing(self) -> None:
        for was in f"{A[1:]}  data/y", f"{A}  y", f"{A}  data/../y", "x", "":
            self.assertEqual(self.of(f"{was}\n"), [])

    def test_a_manifest_that_is_no_utf_8(self) -> None:
        was = "".join(
            f"{it}  data/caf\udce9{it}\n" for it in (A, EMPTY)
        )
        self.assertEqual(self.of(was, was.replace("\udce9", "\u00e9")), [])
        self.assertEqual(
            self.of(was, f"{A}  data/caf\u00e9\n"),
            [f"data/caf\\xe9{EMPTY}"],
        )

    def test_a_bag_of_0_97(self) -> None:
        was = f"{EMPTY}  data/50%25%0a\n"
        self.assertEqual(self.of(was, version="0.97"), ["data/50%25\n"])
        self.assertEqual(self.of(was), ["data/50%\n"])
        old = {"data/50%25\n": "a", "manifest-md5.txt": was}
        self.assertEqual(len(self.untold(old, {}, "0.97")), 1)
        good = f"{A}  data/50%25%0a\n"
        old["manifest-md5.txt"] = good
        self.assertEqual(self.untold(old, {}, "0.97"), [])

    def test_the_same_bytes_by_another_version(self) -> None:
        was = {"manifest-md5.txt": f"{A}  data/%\n"}
        for version, found in ("0.97", []), ("1.0", [("data/%", "md5")]):
            text = f"BagIt-Version: {version}\n"
            text += "Tag-File-Character-Encoding: UTF-8\n"
            new = {**was, "bagit.txt": text}
            self.assertEqual(self.untold(was, new, "0.97"), found)


class Paths(unittest.TestCase):
    def test_none_leads_out(self) -> None:
        for word in "", "/", "/x", "..", "x/..", "./x", "x//y", "../x/":
            with self.assertRaises(Refused):
                path_in_bag(word)
        self.assertEqual(path_in_bag("data/-x\n/"), "data/-x\n")

    def test_names_are_utf_8(self) -> None:
        with patch("sys.getfilesystemencoding", return_value="iso8859-1"):
            with self.assertRaisesRegex(Refused, "UTF-8"):
                folder_of("/")
        self.assertEqual(folder_of("/"), "/")

    def test_below(self) -> None:
        self.assertTrue(is_at("data/a/b", "data/a"))
        self.assertTrue(is_at("data/a", "data/a"))
        self.assertFalse(is_at("data/ab", "data/a"))

    def test_what_becomes_of_paths(self) -> None:
        remove = change_of(["remove", "data/a", "data/b/"], None).place_of
        rename = change_of(["rename", "data/a", "data/c/d"], None).place_of
        for path, left, renamed in (
            ("data/a", None, "data/c/d"),
            ("data/a/x", None, "data/c/d/x"),
            ("data/b/x", None, "data/b/x"),
            ("data/ab", "data/ab", "data/ab"),
        ):
            self.assertEqual((remove(path), rename(path)), (left, renamed))

    def test_what_is_refused(self) -> None:
        words: List[List[str]] = [
            [],
            ["remove"],
            ["remove", "a"],
            ["remove", "data"],
            ["remove", "../x"],
            ["rename", "data/a"],
            ["rename", "data/a", "/data/b"],
            ["add"],
            ["add", "/nowhere"],
            ["other", "data/a"],
        ]
        for each in words:
            with self.assertRaises(Refused):
                change_of(each, None)
        with self.assertRaises(Refused):
            change_of(["remove", "data/a"], "data/b")

    def test_oxum(self) -> None:
        text = b"A: b\r\nPAYLOAD-Oxum : 1.2 \r\nX: 1.2\nPayload-Oxumx: 1.2\n"
        self.assertEqual(
            OXUM.sub(rb"\g<1>30.4", text), text.replace(b"1.2 \r", b"30.4", 1)
        )


class Elements(InAFolder):
    def test_those_of_a_file_come_first(self) -> None:
        file = self.at("labels.json", b'{"List": ["a", 2], "A": "x=y"}')
        self.assertEqual(
            elements_given(file, ["List=a", "B=c=d"]),
            [("List", "a"), ("List", "2"), ("A", "x=y"), ("B", "c=d")],
        )

    def test_what_is_refused(self) -> None:
        for word in "A", "=x", "Payload-Oxum=1.1", "A: x=b", "A=x\n":
            with self.assertRaises((Refused, BagError)):
                elements_given("", [word])
        for content in b"[]", b"{", b'{"A": {}}', b"\xff":
            file = self.at("labels.json", content)
            with self.assertRaises((Refused, BagError)):
                elements_given(file, [])

    def test_algorithms(self) -> None:
        self.assertEqual(algorithms_in("md5,sha512,md5"), ["md5", "sha512"])
        for text in "", "md5,", "MD5", "sha3":
            with self.assertRaises(BagError):
                algorithms_in(text)


class Files(InAFolder):
    def test_a_copy_and_its_digests(self) -> None:
        new = self.at("new")
        self.assertEqual(copied(io.BytesIO(b"a"), new, ["md5"]), {"md5": A})
        with opened(new) as stream:
            self.assertEqual(stream.read(), b"a")
        with self.assertRaises(FileExistsError):
            copied(io.BytesIO(b""), new)

    def test_only_files_are_opened(self) -> None:
        os.mkfifo(self.at("pipe"))
        os.symlink("pipe", self.at("link"))
        for path in "pipe", "link", ".":
            with self.assertRaises(OSError):
                opened(self.at(path))

    def test_dress(self) -> None:
        old, new = self.at("old", b""), self.at("new", b"")
        os.chmod(old, 0o640)
        dress(new, old)
        self.assertEqual(stat.S_IMODE(os.stat(new).st_mode), 0o640)

    def test_a_tree_of_links(self) -> None:
        file = self.at("d/in/x", b"a")
        os.makedirs(self.at("d/empty"))
        os.chmod(self.at("d/in"), 0o700)
        os.mkdir(self.at("to"))
        places = {"in": "in", "in/x": "y/%/x", "empty": "empty"}
        link_tree(self.at("d"), self.at("to"), places.get)
        self.assertTrue(os.path.samefile(file, self.at("to/y/%/x")))
        self.assertEqual(set(os.listdir(self.at("to"))), {"empty", "in", "y"})
        self.assertEqual(os.stat(self.at("to/in")).st_mode & 0o777, 0o700)
        with self.assertRaises(BagError):
            link_tree(self.at("d"), self.at("to"), places.get)
        os.symlink("x", self.at("d/in/link"))
        with self.assertRaises(BagError):
            link_tree(self.at("d"), self.at("to"), lambda it: f"z/{it}")


class Kept(InAFolder):
    def test_folders_without_files_go(self) -> None:
        self.at("kept/a/b", b"")
        os.makedirs(self.at("kept/c/d"))
        prune(self.folder)
        self.assertEqual(os.listdir(self.at("kept")), ["a"])
        os.unlink(self.at("kept/a/b"))
        prune(self.at("kept"))
        prune(self.at("kept"))
        self.assertEqual(os.listdir(self.folder), [])


class Notes(InAFolder):
    def test_what_is_noted_is_found(self) -> None:
        place = Beside(self.at("bag"), "edit")
        self.assertEqual(place.left(), {})
        place.note(words=["x"])
        place.note(words=["y"], kept="z")
        wanted = {"command": "edit", "words": ["y"], "kept": "z"}
        self.assertEqual(place.left(), wanted)
        with self.assertRaises(BagError):
            Beside(self.at("bag"), "make").left()
        place.clear()
        self.assertEqual(os.listdir(self.folder), [])

    def test_another_folder_is_left_alone(self) -> None:
        self.at("bag.new/mine", b"")
        with self.assertRaises(BagError):
            Beside(self.at("bag"), "edit").left()


class Left(InAFolder):
    """What a command leaves beside a bag."""

    def beside(self, name: str) -> str:
        """The bag beside which a folder of this name is left, if any."""
        found = bag_beside(os.fsencode(self.at(name)))
        return os.path.basename(os.fsdecode(found)) if found else ""

    def test_by_names(self) -> None:
        self.at("bag/bagit.txt", b"")
        self.at("bag.kept.012abc/bagit.txt", b"")
        self.at("folder/x", b"")
        for name, bag in (
            ("bag.kept.012abc", "bag"),
            ("bag.kept.ffffff", "bag"),
            ("bag.kept.012abc.kept.ffffff", "bag.kept.012abc"),
            ("bag.kept.012ab", ""),
            ("bag.kept.012abcd", ""),
            ("bag.kept.012ABC", ""),
            ("bag.kept.", ""),
            ("bag.kept", ""),
            ("bag.old", ""),
            ("bag", ""),
            ("bagxkept.012abc", ""),
            ("other.kept.012abc", ""),
            ("folder.kept.012abc", ""),
        ):
            self.assertEqual(self.beside(name), bag, name)

    def test_links(self) -> None:
        self.at("bag/bagit.txt", b"")
        os.symlink("bag", self.at("link"))
        os.symlink("bag", self.at("bag.kept.012abc"))
        for name in "link.kept.012abc", "bag.kept.012abc":
            self.assertEqual(self.beside(name), "")

    def test_a_folder_of_a_command(self) -> None:
        self.at("bag/bagit.txt", b"")
        place = Beside(self.at("bag"), "edit")
        self.assertEqual(self.beside("bag.new"), "")
        os.mkdir(place.path)
        self.assertEqual(self.beside("bag.new"), "")
        place.note(words=[])
        self.assertEqual(self.beside("bag.new"), "bag")
        self.at("bag.new/bag/bagit.txt", b"")
        self.at("bag.new/text/0-x", b"")
        self.assertEqual(self.beside("bag.new"), "bag")
        self.at("bag.new/bagit.txt", b"")
        self.assertEqual(self.beside("bag.new"), "")
