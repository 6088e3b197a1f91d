"""The seal of a bag, beside what `sha512sum` says."""
import hashlib
import os
import subprocess
import tarfile
import tempfile
import unittest
from pathlib import Path

from bagitkeep.seal import payload_of, seal_of

BY_SHA512SUM = r"""cd "$1"
find . -path ./data -type d -prune -o -type f -printf '%P\0' | sort -z |
    xargs -0r sha512sum -z -- | sha512sum | cut -d ' ' -f 1"""


class Seals(unittest.TestCase):
    def setUp(self) -> None:
        folder = tempfile.TemporaryDirectory()
        self.addCleanup(folder.cleanup)
        self.bag = Path(folder.name) / "bag"
        (self.bag / "data" / "inner").mkdir(parents=True)
        (self.bag / "tags" / "data").mkdir(parents=True)
        for name in "bagit.txt", "manifest-md5.txt", "data/a", "tags/data/b":
            (self.bag / name).write_text(name)

    def by_sha512sum(self) -> str:
        words = ["sh", "-c", BY_SHA512SUM, "sh", os.fsencode(self.bag)]
        env = {**os.environ, "LC_ALL": "C"}
        out = subprocess.run(words, capture_output=True, check=True, env=env)
        return out.stdout.decode().strip()

    def test_it_is_that_of_sha512sum(self) -> None:
        self.assertEqual(seal_of(self.bag), self.by_sha512sum())
        odd = b"new\nline", b"caf\xe9", b"-x", b" ", b"tags/z", b"a\\b"
        for name in odd:
            with open(os.path.join(os.fsencode(self.bag), name), "wb") as file:
                file.write(name)
            self.assertEqual(seal_of(self.bag), self.by_sha512sum())

    def test_the_payload_is_not_in_it(self) -> None:
        seal = seal_of(self.bag)
        (self.bag / "data" / "a").write_text("other")
        (self.bag / "data" / "inner" / "c").write_text("new")
        self.assertEqual(seal_of(self.bag), seal)

    def test_any_tag_file_alters_it(self) -> None:
        seals = {seal_of(self.bag)}
        (self.bag / "bagit.txt").write_text("other")
        seals.add(seal_of(self.bag))
        (self.bag / "tags" / "new").write_text("")
        seals.add(seal_of(self.bag))
        (self.bag / "tags" / "new").rename(self.bag / "new")
        seals.add(seal_of(self.bag))
        (self.bag / "manifest-md5.txt").unlink()
        seals.add(seal_of(self.bag))
        self.assertEqual(len(seals), 5)

    def test_what_is_no_file_has_none(self) -> None:
        os.mkfifo(self.bag / "pipe")
        with self.assertRaises(OSError):
            seal_of(self.bag)
        (self.bag / "pipe").unlink()
        (self.bag / "link").symlink_to("bagit.txt")
        with self.assertRaises(OSError):
            seal_of(self.bag)

    def test_deep_folders(self) -> None:
        self.addCleanup(subprocess.run, ["rm", "-rf", self.bag / "x"])
        place = os.open(self.bag, os.O_RDONLY)
        for _ in range(1100):
            os.mkdir("x", dir_fd=place)
            inner = os.open("x", os.O_RDONLY, dir_fd=place)
            os.close(place)
            place = inner
        os.close(place)
        self.assertRegex(seal_of(self.bag), "^[0-9a-f]{128}$")

    def test_that_of_a_tar_is_of_the_whole_file(self) -> None:
        path, seals = self.bag.parent / "x.tar", set()
        with tarfile.open(path, "w") as tar:
            tar.add(self.bag, "bag")
        for content in path.read_bytes(), path.read_bytes() + b"\0":
            path.write_bytes(content)
            seals.add(seal_of(path))
            self.assertIn(hashlib.sha512(content).hexdigest(), seals)
            self.assertEqual(payload_of(path), (1, len(content)))
        self.assertEqual(len(seals), 2)


if __name__ == "__main__":
    unittest.main()
