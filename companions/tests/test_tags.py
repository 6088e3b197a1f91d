"""Tag files, beside the rows of the case files and the RFC's example."""
import re
import sys
import unittest
from pathlib import Path
from typing import Callable, Dict, Iterator, List, Tuple

from bagitkeep.tags import (
    MANIFEST_NAME,
    elements_of,
    entries_of,
    fetches_of,
    lines_of,
    unescaped,
)

ROOT = Path(__file__).parents[2]
sys.path.append(str(ROOT / "tests"))
import report as cases  # noqa: E402

FILES = "bag-info manifests fetch paths version-0.97 written worked".split()

EXAMPLE = b"""\
Source-Organization: FOO University
Organization-Address: 1 Main St., Cupertino, California, 11111
External-Description: Uncompressed greyscale TIFF images from the
     FOO papers collection.
Payload-Oxum: 279164409832.1198
"""


def rows() -> Iterator[Tuple[str, bytes, str]]:
    """Each row of the case files: its reader, and its two sides."""
    for name in FILES:
        path = ROOT / "crates" / "test_cases" / "data" / f"{name}.cases"
        texts: Dict[str, str] = {}
        reader = ""
        for head, below in cases.entries_of(path):
            kind, _, rest = head.partition(" ")
            if kind == "text":
                name, is_here, value = rest.partition(" = ")
                lines = "".join(cases.wanted_lines(below, texts))
                texts[name] = (
                    cases.expanded(value, texts) if is_here else lines
                )
            elif kind == "read":
                reader = rest
            elif kind == "-":
                left, right = re.split("(?:^| )=>(?: |$)", rest, maxsplit=1)
                sides = (
                    cases.expanded(side.strip(" "), texts).encode("latin-1")
                    for side in (left, right)
                )
                yield reader, next(sides), next(sides).decode("utf-8")


def rows_of(*readers: str) -> List[Tuple[str, bytes, str]]:
    """The rows of some readers."""
    return [row for row in rows() if row[0].split(" ")[0] in readers]


class Tags(unittest.TestCase):
    def compare(
        self,
        readers: Tuple[str, ...],
        form: str,
        read: Callable[[List[str], bytes], object],
        least: int,
    ) -> None:
        """What each row says in this form is what is read of it."""
        found = rows_of(*readers)
        self.assertGreater(len(found), least)
        for reader, left, right in found:
            words = reader.split(" ")
            if right == "204 0 |":
                with self.assertRaises(ValueError):
                    read(words, left)
            else:
                wanted = re.findall(form, right, re.DOTALL)
                self.assertEqual(read(words, left), wanted, (reader, left))

    def test_elements_of_case_files(self) -> None:
        def read(words: List[str], content: bytes) -> object:
            return elements_of(content, "0.97" in words)

        self.compare(("info",), r"\d+<([^<>]*)><([^<>]*)>\|", read, 50)

    def test_entries_of_case_files(self) -> None:
        def read(words: List[str], content: bytes) -> object:
            is_tag, is_old = words[0] == "tagmanifest", "0.97" in words
            found = entries_of(content, words[1], is_tag, is_old)
            return [(digest, path) for path, digest in found.items()]

        form = r"\d+ ([0-9a-f]{32,}) ([^|]+)\|"
        self.compare(("manifest", "tagmanifest"), form, read, 30)

    def test_fetches_of_case_files(self) -> None:
        def read(words: List[str], content: bytes) -> object:
            return list(fetches_of(content, "0.97" in words))

        form = r"(?:^|(?<=\|))\d+ ([^ |]+) (-|\d+) (data/[^|]+)\|"
        self.compare(("fetch",), form, read, 60)

    def test_lines_of_case_files(self) -> None:
        def read(words: List[str], content: bytes) -> object:
            return lines_of(content)

        self.compare(("lines",), r"\d+<([^<>]*)>\|", read, 5)

    def test_spellings_of_case_files(self) -> None:
        found = rows_of("unescape")
        self.assertGreater(len(found), 20)
        for reader, left, right in found:
            path = unescaped(left.decode("utf-8"), reader.endswith("0.97"))
            refused = "a % that begins no escape"
            self.assertEqual(refused if path is None else path, right)

    def test_names_of_case_files(self) -> None:
        found = rows_of("manifest-name")
        self.assertGreater(len(found), 15)
        for _, left, right in found:
            match = MANIFEST_NAME.fullmatch(left.decode("utf-8"))
            kind = match and f"{match[1] and 'tag' or 'payload'} {match[2]}"
            is_manifest = right.startswith(("payload ", "tag "))
            wanted = right.replace("? ", "") if is_manifest else None
            self.assertEqual(kind, wanted)

    def test_example_of_the_rfc(self) -> None:
        wanted = [
            ("Source-Organization", "FOO University"),
            (
                "Organization-Address",
                "1 Main St., Cupertino, California, 11111",
            ),
            (
                "External-Description",
                "Uncompressed greyscale TIFF images from the\n"
                "FOO papers collection.",
            ),
            ("Payload-Oxum", "279164409832.1198"),
        ]
        for content in EXAMPLE, EXAMPLE.replace(b"\n", b"\r\n"):
            self.assertEqual(elements_of(content), wanted)

    def test_a_long_value_takes_no_longer(self) -> None:
        found = elements_of(b"a: b\n" + b" c\n" * 100_000)
        self.assertEqual(found, [("a", "b" + "\nc" * 100_000)])


if __name__ == "__main__":
    unittest.main()
