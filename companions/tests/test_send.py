"""Tests of what `bagit-keep send` packs."""
import os
import shutil
import subprocess
import tarfile
import tempfile
import unittest
from typing import Dict, List

from bagitkeep.send import pack

NAMES = ["plain", "e\u0301", "e\u0301" * 70, "l" * 200, "\u212b"]
"""Names that are long, or not composed."""

READERS: List[List[str]] = [
    ["bsdtar", "-xf"],
    ["tar", "-xf"],
    ["busybox", "tar", "-xf"],
]


def packed(folder: str) -> str:
    """A bag in this folder, packed."""
    payload = os.path.join(folder, "bag", "data")
    os.makedirs(payload)
    for name in NAMES:
        with open(os.path.join(payload, name), "x", encoding="utf-8"):
            pass
    archive = os.path.join(folder, "bag.tar")
    pack(os.path.join(folder, "bag"), archive)
    return archive


class Packed(unittest.TestCase):
    def test_is_unpacked_byte_by_byte(self) -> None:
        for command in READERS:
            if shutil.which(command[0]):
                with tempfile.TemporaryDirectory() as folder:
                    self.unpack(command, folder)

    def test_has_no_names_that_readers_compose(self) -> None:
        with tempfile.TemporaryDirectory() as folder:
            with tarfile.open(packed(folder)) as tar:
                members = list(tar)
        self.assertEqual(len(members), len(NAMES) + 2)
        self.assertEqual([it for it in members if it.pax_headers], [])

    def unpack(self, command: List[str], folder: str) -> None:
        """What this program unpacks has the names that were packed."""
        archive = packed(folder)
        payload = os.path.join(folder, "bag", "data")
        shutil.rmtree(payload)
        words: Dict[str, str] = {**os.environ, "LC_ALL": "C.UTF-8"}
        subprocess.run([*command, archive], cwd=folder, env=words, check=True)
        found = os.listdir(os.fsencode(payload))
        wanted = [name.encode() for name in NAMES]
        self.assertEqual(sorted(found), sorted(wanted), command)


if __name__ == "__main__":
    unittest.main()
