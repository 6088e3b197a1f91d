"""Tag files, read to be shown (RFC 8493, 2.1.1, 2.1.3, 2.2.1 and 2.2.2).

No verdict rests on what is read here. They are read by the rules of
docs/FAULTS.md and docs/STANDARD.md; a line in which `bagit` finds a fault is
passed over. `is_old` says that the bag is of version 0.97. Of bytes that
aren't UTF-8 each function raises a ValueError.
"""
import re
from typing import Dict, Iterator, List, Optional, Tuple

BLANKS = " \t"
HEX_DIGITS = {
    "md5": 32,
    "sha1": 40,
    "sha224": 56,
    "sha256": 64,
    "sha384": 96,
    "sha512": 128,
}
"""How many hex digits a digest has, by each algorithm that `bagit` has."""

MANIFEST_NAME = re.compile(r"(tag)?manifest-([a-z0-9]+)\.txt")

LINE_END = re.compile("\r\n|\n|\r")
ENTRY = re.compile("([0-9A-Fa-f]+)[ \t]+([^ \t].*)", re.DOTALL)
ESCAPE = re.compile("%(0[Aa]|0[Dd]|25)?")
OLD_ESCAPE = re.compile("%(0[Aa]|0[Dd])")
ESCAPED = {"0a": "\n", "0d": "\r", "25": "%"}

Element = Tuple[str, str]


def lines_of(content: bytes) -> List[str]:
    """The lines of a tag file, without a byte order mark in front."""
    lines = LINE_END.split(content.decode("utf-8").removeprefix("\ufeff"))
    return lines if lines[-1] else lines[:-1]


def elements_of(content: bytes, is_old: bool = False) -> List[Element]:
    """The elements of bag-info.txt, each a label and its value.

    The lines of a value that goes on have a line feed between them.
    """
    elements: List[Tuple[str, List[str]]] = []
    is_begun = False
    for line in lines_of(content):
        text = line.strip(BLANKS)
        if text and line[0] not in BLANKS:
            element = element_of(line, is_old)
            is_begun = element is not None
            if element is not None:
                elements.append((element[0], [element[1]]))
        elif text and is_begun:
            elements[-1][1].append(text)
    return [(label, "\n".join(values)) for label, values in elements]


def element_of(line: str, is_old: bool) -> Optional[Element]:
    """The element that a line begins, if it begins one."""
    label, colon, value = line.partition(":")
    bare = label.rstrip(BLANKS)
    is_written = is_old or (bare == label and value[:1] in BLANKS)
    if not colon or not bare or not is_written:
        return None
    return bare, value.strip(BLANKS)


def given_by(
    content: bytes, algorithm: str, is_tag: bool, is_old: bool = False
) -> Iterator[Tuple[str, str]]:
    """The paths of a manifest's lines, with the digests, in lower case."""
    for line in lines_of(content):
        found = ENTRY.fullmatch(line)
        if found and len(found[1]) == HEX_DIGITS[algorithm]:
            path = path_of(found[2].removeprefix("*"), is_old)
            if path is not None and may_name(is_tag, path):
                yield path, found[1].lower()


def entries_of(
    content: bytes, algorithm: str, is_tag: bool, is_old: bool = False
) -> Dict[str, str]:
    """The digests that a manifest gives, by their paths; of a path that comes
    again, the first."""
    entries: Dict[str, str] = {}
    for path, digest in given_by(content, algorithm, is_tag, is_old):
        entries.setdefault(path, digest)
    return entries


def path_of(spelling: str, is_old: bool) -> Optional[str]:
    """The path that a manifest spells, if it is one within a bag."""
    path = unescaped(spelling.removeprefix("./"), is_old)
    if path is None or {"", ".", ".."} & set(path.split("/")):
        return None
    return path


def unescaped(spelling: str, is_old: bool) -> Optional[str]:
    """What percent signs spell; None if one begins no escape."""
    if is_old:
        return OLD_ESCAPE.sub(lambda it: ESCAPED[it[1].lower()], spelling)
    if any(it[1] is None for it in ESCAPE.finditer(spelling)):
        return None
    return ESCAPE.sub(lambda it: ESCAPED[it[1].lower()], spelling)


def may_name(is_tag: bool, path: str) -> bool:
    """Whether a manifest of this kind may name a path."""
    if path.startswith("data/"):
        return not is_tag
    manifest = MANIFEST_NAME.fullmatch(path)
    return is_tag and not (manifest and manifest[1])


def fetches_of(
    content: bytes, is_old: bool = False
) -> Iterator[Tuple[str, str, str]]:
    """The URL, the length and the path of each file to fetch."""
    for line in lines_of(content):
        parts = re.split("[ \t]+", line, maxsplit=2)
        if len(parts) == 3 and parts[0] and is_length(parts[1]):
            path = path_of(parts[2], is_old)
            if path is not None and path.startswith("data/"):
                yield parts[0], parts[1], path


def is_length(text: str) -> bool:
    """Whether fetch.txt may have this length of a file."""
    return re.fullmatch("-|[0-9]+", text) is not None
