"""What of an archive file is taken, and what is refused by its name."""
import gzip
import io
import tarfile
import tempfile
import unittest
import zipfile
from contextlib import ExitStack
from pathlib import Path
from typing import Dict, List, Optional

from bagitkeep.archives import (
    bare,
    decompress,
    form_of,
    may_be_tar,
    tar_content,
    zip_content,
    zip_name,
)
from bagitkeep.files import digests_of
from bagitkeep.members import (
    MANY,
    Content,
    Limits,
    Member,
    Unfit,
    refuse_path,
    refuse_twice,
    unpack,
)


def tar_of(*members: tarfile.TarInfo) -> bytes:
    out = io.BytesIO()
    with tarfile.open(fileobj=out, mode="w") as tar:
        for it in members:
            tar.addfile(it, io.BytesIO(bytes(it.size)))
    return out.getvalue()


def listed(content: bytes, limits: Optional[Limits] = None) -> List[Member]:
    room = limits or Limits(MANY, MANY)
    return tar_content(io.BytesIO(content), room).members


def files(*paths: str) -> List[Member]:
    return [Member(it.rstrip("/"), it.endswith("/")) for it in paths]


class Paths(unittest.TestCase):
    def test_they_lead_into_the_folder(self) -> None:
        for path in "a", "a/b", "a b", "..a", "a\\b", "é":
            refuse_path(path)
        long = "/".join(["d"] * 300)
        bad = "", "/a", "a//b", "a/", "./a", "a/../b", "..", "\0", "\udce9"
        for path in *bad, long, "n" * 5000, "é" * 128 + "/a":
            with self.assertRaises(Unfit):
                refuse_path(path)

    def test_one_dot_in_front_and_a_slash_at_the_end(self) -> None:
        self.assertEqual(bare("./a/", True), "a")
        self.assertEqual(bare("./", True), "")
        self.assertEqual(bare(".", True), "")
        self.assertEqual(bare("././a", False), "./a")
        self.assertEqual(bare("a/", False), "a/")
        self.assertEqual(bare("a//", True), "a/")

    def test_each_is_there_once(self) -> None:
        refuse_twice(files("a", "b/", "b/c", "b/", "c/d", "c/"))
        for paths in (
            ("a", "a"),
            ("a", "a/"),
            ("a/", "a"),
            ("a", "a/b"),
            ("a/b", "a"),
            ("a", "A"),
            ("a/b", "A/c"),
            ("stra\xdfe", "STRASSE"),
            ("\xe9", "e\u0301"),
        ):
            with self.assertRaises(Unfit):
                refuse_twice(files(*paths))


class Tars(unittest.TestCase):
    def setUp(self) -> None:
        self.info = tarfile.TarInfo("bag/a")
        self.info.size = 700

    def test_members(self) -> None:
        (found,) = listed(tar_of(self.info))
        self.assertEqual((found.path, found.size), ("bag/a", 700))

    def test_types(self) -> None:
        for kind in b"1", b"2", b"3", b"4", b"6", b"7", b"S", b"V", b"D":
            other = tarfile.TarInfo("bag/b")
            other.type = kind
            with self.assertRaises((Unfit, tarfile.TarError)):
                listed(tar_of(self.info, other))

    def test_limits(self) -> None:
        content = tar_of(self.info, tarfile.TarInfo("bag/b"))
        for limits in Limits(1, 700), Limits(2, 699):
            with self.assertRaises(Unfit):
                listed(content, limits)
        left = Limits(2, 700)
        listed(content, left)
        self.assertEqual((left.files, left.bytes), (0, 0))


class Zips(unittest.TestCase):
    def name(self, raw: bytes, names: str = "", flags: int = 0) -> str:
        marked = flags & 0x800
        info = zipfile.ZipInfo(raw.decode("utf-8" if marked else "cp437"))
        info.flag_bits = flags
        return zip_name(info, names or None)

    def test_names(self) -> None:
        self.assertEqual(self.name("\xfc".encode()), "\xfc")
        self.assertEqual(self.name("\xfc".encode(), flags=0x800), "\xfc")
        self.assertEqual(self.name("\xfc".encode(), "cp850", 0x800), "\xfc")
        self.assertEqual(self.name(b"\x81", "cp850"), "\xfc")
        self.assertEqual(self.name(b"a\\b", "cp850"), "a/b")
        self.assertEqual(self.name(b"a\\b"), "a\\b")
        with self.assertRaisesRegex(Unfit, "--names"):
            self.name(b"\x81")

    def test_one_begins_with_its_first_member(self) -> None:
        out = io.BytesIO()
        with zipfile.ZipFile(out, "w") as packed:
            empty = io.BytesIO()
            zipfile.ZipFile(empty, "w").close()
            packed.writestr("bag/a", b"a")
        for whole, count in (out.getvalue(), 1), (empty.getvalue(), 0):
            def found(content: bytes) -> Content:
                limits = Limits(MANY, MANY)
                file = io.BytesIO(content)
                return zip_content(file, len(content), None, limits)

            self.assertEqual(len(found(whole).members), count)
            for before in whole, out.getvalue(), b"x":
                with self.assertRaisesRegex(Unfit, "before the archive"):
                    found(before + whole)
            with self.assertRaisesRegex(Unfit, "cut off"):
                found(whole[:-5])


class Compressed(unittest.TestCase):
    def test_it_has_to_fit_twice(self) -> None:
        with tempfile.TemporaryDirectory() as folder:
            path = Path(folder, "a.gz")
            path.write_bytes(gzip.compress(bytes(1000)))
            with path.open("rb") as file:
                for number, room in enumerate((2000, 1998)):
                    to = f"{folder}/{number}"
                    with ExitStack() as stack:
                        if room < 2000:
                            stack.enter_context(
                                self.assertRaisesRegex(Unfit, "more bytes")
                            )
                        decompress("tar.gz", file, 100, to, room)


class Others(unittest.TestCase):
    def test_forms(self) -> None:
        for content, form in (
            (b"PK\3\4..", "zip"),
            (b"PK\5\6..", "zip"),
            (b"\x1f\x8b", "tar.gz"),
            (b"BZh9", "tar.bz2"),
            (b"\xfd7zXZ\0", "tar.xz"),
            (b"\x28\xb5\x2f\xfd", "tar.zst"),
            (b"bag/", "tar"),
            (b"", "tar"),
        ):
            self.assertEqual(form_of(io.BytesIO(content)), form)

    def test_what_may_be_a_tar(self) -> None:
        whole = tar_of(tarfile.TarInfo("bag/a"))
        old = bytearray(whole)
        old[257:265] = bytes(8)
        old[148:156] = b"%06o\0 " % (sum(old[:512]) - sum(old[148:156]) + 256)
        for content in whole, whole[:300], b"x" + whole[1:], bytes(old):
            self.assertTrue(may_be_tar(io.BytesIO(content)))
        for content in b"", b"%PDF-1.7", b"x" * 600, b"x" + bytes(old[1:]):
            file = io.BytesIO(content)
            self.assertFalse(may_be_tar(file))
            self.assertEqual(file.tell(), 0)

    def test_digests(self) -> None:
        found = digests_of(io.BytesIO(b"abc"), ["md5", "sha1"])
        self.assertEqual(
            found,
            {  # RFC 1321, A.5; FIPS 180-1, Appendix A
                "md5": "900150983cd24fb0d6963f7d28e17f72",
                "sha1": "a9993e364706816aba3e25717850c26c9cd0d89d",
            },
        )

    def test_what_is_unpacked_is_what_was_listed(self) -> None:
        members = [Member("d/a", False, 3), Member("e", True)]

        def unpacked(text: bytes) -> Dict[str, bytes]:
            with tempfile.TemporaryDirectory() as folder:
                unpack(Content(members, lambda _: io.BytesIO(text)), folder)
                files = [it for it in Path(folder).rglob("*") if it.is_file()]
                return {it.name: it.read_bytes() for it in files}

        self.assertEqual(unpacked(b"abc"), {"a": b"abc"})
        for text in b"", b"ab", b"abcd":
            with self.assertRaises(Unfit):
                unpacked(text)


if __name__ == "__main__":
    unittest.main()
