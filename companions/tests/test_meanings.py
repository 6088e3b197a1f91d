"""The faults' words that the package has are those of docs/FAULTS.md.

usage: python3 -m tests.test_meanings --write

writes them anew, out of the page.
"""
import json
import re
import sys
import unittest
from pathlib import Path
from typing import Dict, List

from bagitkeep.lines import FAULTS, TEXTS

PAGE = Path(__file__).parents[2] / "docs" / "FAULTS.md"
CELLS = re.compile(r"(?<!\\)\|")
MARKS = re.compile(r"\[([^]]*)\]\([^)]*\)|`([^`]*)`|\*\*([^*]*)\*\*")


def plain(text: str) -> str:
    """A text of a page without its marks."""
    text = MARKS.sub(lambda it: it[1] or it[2] or it[3] or "", text)
    return text.replace("\\|", "|").strip()


def rows_in(page: str) -> Dict[str, List[str]]:
    """The word and the last two cells of each row of a code."""
    found = {}
    for line in page.splitlines():
        cells = [it.strip() for it in CELLS.split(line.strip())[1:-1]]
        if len(cells) >= 4 and cells[0].isdigit() and cells[1][0] == "`":
            found[cells[0]] = [plain(it) for it in (cells[1], *cells[-2:])]
    return found


class Meanings(unittest.TestCase):
    def test_they_are_those_of_the_page(self) -> None:
        if not PAGE.is_file():
            self.skipTest("the page isn't here")
        rows = rows_in(PAGE.read_text("utf-8"))
        self.assertEqual({int(it): row for it, row in rows.items()}, FAULTS)

    def test_each_code_has_its_meaning(self) -> None:
        for row in FAULTS.values():
            self.assertTrue(len(row) == 3 and all(row))

    def test_rows_of_a_page(self) -> None:
        rows = "| 101 | `no-declaration` | a [b](x) `c\\|d` | **e** |\n"
        others = "| Code | Word | a | b |\n| 101 | other | a | b |\n101\n"
        found = {"101": ["no-declaration", "a b c|d", "e"]}
        self.assertEqual(rows_in(others + rows + others), found)


if __name__ == "__main__":
    if sys.argv[1:] == ["--write"]:
        text = json.dumps(rows_in(PAGE.read_text("utf-8")), indent=1)
        (Path(TEXTS) / "faults.json").write_text(text + "\n", "utf-8")
    else:
        unittest.main()
