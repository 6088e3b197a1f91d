"""Copies of a bag: how far they can be read, and what is found in them."""
import hashlib
import io
import os
import tarfile
import tempfile
import unittest
from contextlib import ExitStack
from pathlib import Path
from typing import Dict, List
from unittest.mock import patch

from bagitkeep import copies
from bagitkeep.archives import wrong_end
from bagitkeep.copies import Copy, copies_at, differences
from bagitkeep.seal import sums_of

ABC = {"md5": "900150983cd24fb0d6963f7d28e17f72"}  # RFC 1321, A.5


def tar_of(files: Dict[str, bytes]) -> bytes:
    out = io.BytesIO()
    with tarfile.open(fileobj=out, mode="w") as tar:
        for name, content in files.items():
            info = tarfile.TarInfo(f"bag/{name}")
            info.size = len(content)
            tar.addfile(info, io.BytesIO(content))
    return out.getvalue()


class InAFolder(unittest.TestCase):
    def setUp(self) -> None:
        folder = tempfile.TemporaryDirectory()
        self.addCleanup(folder.cleanup)
        self.folder = Path(folder.name)
        stack = ExitStack()
        self.addCleanup(stack.close)
        self.said: List[str] = []
        stack.enter_context(
            patch.object(copies, "say", lambda it: self.said.append(str(it)))
        )
        self.stack = stack

    def at(self, name: str, content: bytes) -> str:
        path = self.folder / name
        path.parent.mkdir(parents=True, exist_ok=True)
        path.write_bytes(content)
        return str(path)

    def copies(self, *names: str) -> List[Copy]:
        paths = [str(self.folder / it) for it in names]
        return copies_at(paths, self.stack)


class Ends(unittest.TestCase):
    def end(self, content: bytes, at: int) -> str:
        return wrong_end(io.BytesIO(content), at) or ""

    def test_of_a_tar(self) -> None:
        tar = tar_of({"a": b"abc"})
        self.assertEqual(self.end(tar, 1024), "")
        self.assertEqual(self.end(tar[:1536], 1024), "")
        self.assertIn("cut off", self.end(tar[:1024], 1024))
        self.assertIn("cut off", self.end(tar[:1500], 1024))
        self.assertIn("byte 1024", self.end(tar[:1024] + b"x" * 512, 1024))
        self.assertIn("after its end", self.end(tar + b"x", 1024))


class Copies(InAFolder):
    def test_each_that_cannot_be_used_is_named(self) -> None:
        self.at("bag/bagit.txt", b"")
        self.at("lost/data/a", b"")
        self.at("folder/a", b"")
        self.at("a.tar", tar_of({"bagit.txt": b""}))
        self.at("b.tar", tar_of({"a": b""}))
        self.at("a.pdf", b"%PDF")
        os.mkfifo(self.folder / "pipe")
        found = self.copies(
            "bag", "folder", "pipe", "lost", "no", "b.tar", "a.pdf", "a.tar"
        )
        used = [os.path.basename(it.path) for it in found]
        self.assertEqual(used, ["bag", "lost", "a.tar"])
        names = [it.split(" isn't used: ")[0] for it in self.said]
        said = list(map(os.path.basename, names))
        self.assertEqual(said, ["folder", "pipe", "no", "b.tar", "a.pdf"])
        self.assertIn("in a folder at its top", self.said[3])
        self.assertNotIn("in a folder at its top", self.said[0])

    def test_how_far_a_tar_is_read(self) -> None:
        whole = tar_of({"bagit.txt": b"", "data/a": b"a", "data/b": b"b"})
        damaged = bytearray(whole)
        damaged[512 + 3] ^= 1
        zeros = whole[:512] + bytes(512) + whole[1024:]
        cut = whole[:512]
        for content, paths, is_whole in (
            (whole, ["bagit.txt", "data/a", "data/b"], True),
            (bytes(damaged), ["bagit.txt"], False),
            (zeros, ["bagit.txt"], False),
            (cut, ["bagit.txt"], False),
        ):
            self.at("a.tar", content)
            (copy,) = self.copies("a.tar")
            self.assertEqual(list(copy.members), paths)
            self.assertEqual(copy.why is None, is_whole)
            self.assertEqual(bool(self.said), not is_whole)
            self.said.clear()

    def test_what_a_copy_has(self) -> None:
        self.at("bag/bagit.txt", b"")
        self.at("bag/a", b"abc")
        self.at("bag/b", b"b")
        (self.folder / "bag/link").symlink_to("a")
        (self.folder / "bag/in").mkdir()
        tar = {"bagit.txt": b"", "a": b"abc", "b": b"b"}
        self.at("bag.tar", tar_of(tar))
        new = str(self.folder / "new")
        for copy in self.copies("bag", "bag.tar"):
            self.assertTrue(copy.has("a", ABC, new))
            self.assertEqual(Path(new).read_bytes(), b"abc")
            os.unlink(new)
            for path in "b", "c", "a/d", "link", "in":
                self.assertFalse(copy.has(path, ABC, new))
                self.assertFalse(os.path.lexists(new))
            self.assertEqual(copy.others, {"b": ["md5"]})
            self.assertEqual(copy.unread, set())

    def test_each_file_of_a_tar_at_a_path(self) -> None:
        self.at("bag/data/x", b"a")
        with tarfile.open(self.folder / "bag.tar", "w") as tar:
            tar.add(self.folder / "bag", "./bag")
            tar.add(self.at("empty", b""), "other/data/x")
        empty, a = [{"md5": hashlib.md5(it).hexdigest()} for it in (b"", b"a")]
        both = {**a, "sha1": hashlib.sha1(b"a").hexdigest()}
        new = str(self.folder / "new")
        (copy,) = self.copies("bag.tar")
        for sums in empty, a, both:
            self.assertTrue(copy.has("data/x", sums, new))
            os.unlink(new)
        self.assertFalse(copy.has("data/x", {"md5": "0" * 32}, new))

    def test_tag_files_that_differ(self) -> None:
        self.at("bag/bagit.txt", b"")
        self.at("bag/in/a", b"abc")
        self.at("bag/in/b", b"b")
        self.at("bag/data/c", b"c")
        self.at("a.tar", tar_of({"bagit.txt": b"", "in/a": b"a", "c": b""}))
        self.at("cut.tar", tar_of({"bagit.txt": b""})[:512])
        found = sums_of(str(self.folder / "bag"))
        sums = {os.fsdecode(path): sum for path, sum in found.items()}
        copies = self.copies("bag", "a.tar", "cut.tar")
        said = [list(differences(sums, it)) for it in copies]
        tar = f"{self.folder}/a.tar has"
        wanted = [
            f"{tar} c, and the bag hasn't",
            f"{tar} another in/a",
            f"{tar} no in/b",
        ]
        self.assertEqual(said, [[], wanted, []])

    def test_what_is_not_read(self) -> None:
        self.at("bag/bagit.txt", b"")
        (copy,) = self.copies("bag")
        error = OSError(5, "Input/output error")
        with patch.object(copies, "opened", side_effect=error):
            self.assertFalse(copy.has("a", ABC, str(self.folder / "new")))
        self.assertEqual((copy.unread, copy.others), ({"a"}, {}))
        self.assertIn("a isn't read", self.said[0])
        error = OSError(28, "No space left on device")
        with patch.object(copies, "copied", side_effect=error):
            with self.assertRaises(OSError):
                copy.has("bagit.txt", ABC, str(self.folder / "new"))


if __name__ == "__main__":
    unittest.main()
