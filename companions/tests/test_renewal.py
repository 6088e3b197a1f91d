"""What has to be the same of a bag that is renewed."""
import hashlib
import tempfile
import unittest
from pathlib import Path
from typing import List
from unittest import mock

from bagitkeep import renewal
from bagitkeep.errors import BagError
from bagitkeep.messages import Refused

OLD = "BagIt-Version: 0.97\nTag-File-Character-Encoding: UTF-8\n"
NEW = OLD.replace("0.97", "1.0")
INFO = "Contact-Name: Ann\nX: y\nPayload-Oxum: 1.1\n"
SUM = hashlib.md5(b"a", usedforsecurity=False).hexdigest()
LINE = f"{SUM}  data/a\n"


class Standings(unittest.TestCase):
    def setUp(self) -> None:
        folder = tempfile.TemporaryDirectory()
        self.addCleanup(folder.cleanup)
        self.bag = Path(folder.name)
        (self.bag / "data").mkdir()
        self.put("bagit.txt", NEW)
        self.put("bag-info.txt", INFO)
        self.put("notes.txt", "notes")
        self.put("manifest-md5.txt", LINE)
        self.put("tagmanifest-md5.txt", "lines\n")

    def put(self, name: str, text: str) -> None:
        (self.bag / name).write_text(text)

    def why_not(self, words: List[str], **files: str) -> str:
        """Why a renewal by these words doesn't make these files."""
        before = renewal.standing(str(self.bag), words)
        for name, text in files.items():
            self.put(name.replace("_", "-") + ".txt", text)
        after = renewal.standing(str(self.bag), words)
        return after.why_not(before)

    def test_labels(self) -> None:
        words = ["--set", "A=b=c", "--append=D=e", "--unset=\xc9", "--unset"]
        labels = renewal.labels_in(words)
        self.assertLessEqual({b"a", b"d", "\xc9".encode()}, labels)
        self.assertIn(b"payload-oxum", labels)
        self.assertNotIn(b"e", labels)

    def test_what_is_asked_may_change(self) -> None:
        info = INFO.replace(": y", ": z")
        for words in ["--set", "x=z"], ["--set=X=z"], ["--append=X=z"]:
            self.assertEqual(self.why_not(words, bag_info=info), "")
            self.put("bag-info.txt", INFO)
        self.assertEqual(self.why_not([], tagmanifest_md5="x"), "")
        self.assertEqual(self.why_not([], manifest_sha1="lines\n"), "")
        line = LINE.upper().replace("DATA/A", "./data/a")
        words = ["--to-1.0"]
        self.assertEqual(self.why_not(words, bagit=OLD, manifest_md5=line), "")

    def test_all_else_stays(self) -> None:
        info, other = INFO.replace("Ann", "Eve"), LINE.replace("a\n", "b\n")
        for files, says in (
            ({"bag_info": info}, "other elements"),
            ({"notes": "other"}, "notes.txt was"),
            ({"new": ""}, "new.txt was"),
            ({"bagit": OLD}, "bagit.txt was"),
            ({"manifest_md5": other}, "manifest-md5.txt was"),
        ):
            self.setUp()
            self.assertIn(says, self.why_not(["--set=X=z"], **files))
        self.setUp()
        self.assertIn(
            "manifest-md5", self.why_not(["--to-1.0"], manifest_md5=other)
        )

    def test_manifests_come_or_go(self) -> None:
        before = renewal.standing(str(self.bag), [])
        self.put("manifest-sha1.txt", "lines\n")
        both = renewal.standing(str(self.bag), [])
        (self.bag / "manifest-md5.txt").unlink()
        after = renewal.standing(str(self.bag), [])
        self.assertEqual((both.why_not(before), after.why_not(both)), ("", ""))
        self.assertIn("others went", after.why_not(before))
        with self.assertRaisesRegex(Refused, "--add comes first"):
            renewal.run(["r", "b", "--", "--add=sha1", "--drop", "md5"])

    def test_a_file_that_is_read_twice_is_the_same(self) -> None:
        with mock.patch.object(renewal, "content_of", lambda _: b"other"):
            with self.assertRaisesRegex(BagError, "altered meanwhile"):
                renewal.standing(str(self.bag), [])


if __name__ == "__main__":
    unittest.main()
