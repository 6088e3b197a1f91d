"""The lines that `bagit` writes to its standard output.

`line_of` takes exactly the lines that it writes, and `str` gives each back.
Texts in them (a bag's name, a path, a detail) are encoded: each byte that
isn't printable ASCII, a space and a `%` as `%` and two hex digits; the empty
text as `-`, and the text `-` as `%2D`.
"""
import json
import re
from contextlib import suppress
from dataclasses import dataclass, field
from os.path import dirname, join
from typing import Any, Dict, Iterable, Iterator, List, Optional, Union
from urllib.parse import quote, unquote_to_bytes

TEXTS = join(dirname(__file__), "templates")


def template(name: str) -> str:
    """A text that lies in the package."""
    with open(join(TEXTS, name), encoding="utf-8") as file:
        return file.read()


FAULTS: Dict[int, List[str]] = {
    int(code): row
    for code, row in json.loads(template("faults.json")).items()
}
"""The word of each code, what it means, and what to do, as docs/FAULTS.md has
them; a test compares the two."""

VERDICTS = {
    "full": "is valid",
    "completeness-only": "is complete",
    "fast": "agrees with its oxum",
    "declaration-only": "has a good declaration",
}
"""What a check of each depth says of a bag without faults."""

STATUSES = {
    **dict.fromkeys([*VERDICTS.values(), "made"], 0),
    **dict.fromkeys(["has faults", "stopped", "rest done", "done"], 1),
    **dict.fromkeys(["unread", "not made"], 3),
}
"""The status that `bagit` ends with, by how its last line ends."""

ANY_BYTES = "utf-8", "surrogateescape"
MOST_LINES = (1 << 64) - 1
MOST_PARTS = 65536
PRINTABLE = "".join(map(chr, range(0x21, 0x7F))).replace("%", "")

TEXT = (
    r"(?:%2D|(?=[!-~])[!-$&-~]*"
    r"(?:%(?:[01][0-9A-F]|2[05]|7F|[89A-F][0-9A-F])[!-$&-~]*)*)"
)
CAUSE = (
    "(?P<cause>device|special|name|not-found|too-many|changed|none-open"
    "|memory|exists|cut-off|damaged|twice|no-base)"
)
NUMBER = "[1-9][0-9]{0,39}"
COUNT = f"(?:0|{NUMBER})"
NUMBERS = {"faults", "part", "parts", "files", "bytes"}
STOP = f"(?P<path>{TEXT}) {CAUSE}"

FAULT = re.compile(
    rf"(?P<code>[1-8][0-9]{{2}}) (?P<word>[a-z0-9-]+) (?P<path>{TEXT})"
    r" (?P<algorithm>-|md5|sha(?:1|224|256|384|512))"
    rf" (?P<line>-|{NUMBER}) (?P<detail>{TEXT})"
)
UNCHECKED = re.compile(f"unchecked (?P<key>{TEXT})")
CLOSINGS = [
    f"(?P<bag>{TEXT}) {form}"
    for form in (
        f"(?P<ended>{'|'.join(VERDICTS.values())}|made)",
        f"(?P<ended>has faults): (?P<faults>{NUMBER})",
        f"(?P<ended>stopped), faults: (?P<faults>{NUMBER})",
        f"(?P<ended>rest done), faults: (?P<faults>{COUNT})",
        f"(?P<ended>unread) {STOP}, faults: (?P<faults>{COUNT})",
        f"part (?P<part>{NUMBER}) of (?P<parts>{NUMBER})"
        f" (?P<ended>done|rest done), files: (?P<files>{COUNT})"
        f", bytes: (?P<bytes>{COUNT})(?P<clashes>, clashes)?"
        "(?:, profile: (?P<profile>[0-9a-f]{64}))?"
        f", faults: (?P<faults>{COUNT})",
        r"(?P<ended>not made): (?P<reason>no algorithm|\.bagit-new is there"
        "|bad value|out of memory)",
        f"(?P<ended>not made): (?P<reason>read) {STOP}",
        f"(?P<ended>not made): (?P<reason>step {NUMBER}) {CAUSE}",
    )
]
"""The forms of closing lines, which are compiled where they are needed."""


class NotALine(ValueError):
    """`bagit` doesn't write this line, or not at this place."""


def encoded(text: Union[str, bytes]) -> str:
    """A text as reports have it, which can't command a terminal."""
    if text in ("", b""):
        return "-"
    if text in ("-", b"-"):
        return "%2D"
    raw = text.encode(*ANY_BYTES) if isinstance(text, str) else text
    return quote(raw, safe=PRINTABLE)


def decoded(field: str) -> str:
    """The text of a field; a ValueError where it isn't UTF-8."""
    if "%" not in field:
        return "" if field == "-" else field
    return unquote_to_bytes(field).decode("utf-8")


@dataclass(frozen=True)
class Fault:
    """A fault of a bag; a path or detail that isn't given is empty."""

    code: int
    path: str
    algorithm: Optional[str]
    line: Optional[int]
    detail: str

    @property
    def word(self) -> str:
        """The word of the code, such as `payload-file-missing`."""
        return FAULTS[self.code][0]

    def __str__(self) -> str:
        path, detail = encoded(self.path), encoded(self.detail)
        where = f"{path} {self.algorithm or '-'} {self.line or '-'}"
        return f"{self.code} {self.word} {where} {detail}"


@dataclass(frozen=True)
class Unchecked:
    """A key of a profile that `bagit` doesn't check."""

    key: str

    def __str__(self) -> str:
        return f"unchecked {encoded(self.key)}"


@dataclass(frozen=True)
class Closing:
    """The last line about a bag: how its check, or its making, ended.

    `ended` is a key of STATUSES. What a line of its kind doesn't have is
    None. `path` and `cause` are of what couldn't be read; `part` to `profile`
    of a part, the last two where it was asked for them, the profile by its
    SHA-256; `reason` of a bag that wasn't made. `text` is the line itself.
    """

    bag: str
    ended: str
    faults: Optional[int] = None
    path: Optional[str] = None
    cause: Optional[str] = None
    part: Optional[int] = None
    parts: Optional[int] = None
    files: Optional[int] = None
    bytes: Optional[int] = None
    clashes: bool = False
    profile: Optional[str] = None
    reason: Optional[str] = None
    text: str = field(default="", compare=False)

    @property
    def status(self) -> int:
        """The status that `bagit` ends with where this is its last line."""
        return STATUSES[self.ended]

    def __str__(self) -> str:
        return self.text


Line = Union[Fault, Unchecked, Closing]


def line_of(text: bytes) -> Line:
    """What a line says, which is given with its end; or NotALine."""
    with suppress(UnicodeDecodeError):
        line, end = text[:-1].decode("ascii"), text[-1:]
        if end != b"\n":
            raise NotALine("it is cut off")
        if found := FAULT.fullmatch(line):
            return fault_of(found)
        if found := UNCHECKED.fullmatch(line):
            return Unchecked(decoded(found["key"]))
        for form in CLOSINGS:
            if found := re.fullmatch(form, line):
                return closing_of(found)
    raise NotALine("bagit writes no such line")


def fault_of(found: "re.Match[str]") -> Fault:
    """The fault that a line says."""
    code, word, path, algorithm, number, detail = found.groups()
    line = None if number == "-" else int(number)
    known = FAULTS.get(int(code), [""])[0]
    if known != word or (line or 0) > MOST_LINES:
        raise NotALine("bagit writes no such fault")
    name = None if algorithm == "-" else algorithm
    return Fault(int(code), decoded(path), name, line, decoded(detail))


def closing_of(found: "re.Match[str]") -> Closing:
    """What a closing line says."""
    fields: Dict[str, Any] = {
        name: int(text) if name in NUMBERS else decoded(text)
        for name, text in found.groupdict().items()
        if text is not None
    }
    fields["clashes"] = "clashes" in fields
    closing = Closing(**fields, text=found[0])
    if not (closing.part or 1) <= (closing.parts or 1) <= MOST_PARTS:
        raise NotALine("there is no such part")
    return closing


def faults_in(lines: Iterable[bytes]) -> Iterator[Fault]:
    """The faults of a report, each from its line."""
    for text in lines:
        with suppress(NotALine):
            if isinstance(line := line_of(text), Fault):
                yield line


@dataclass(frozen=True)
class Report:
    """What the report of one bag says: how many faults, and how it ends.

    `closing` is None where the report was cut off, or isn't one; `wrong` then
    says why, if there is anything.
    """

    faults: int
    closing: Optional[Closing]
    wrong: str = ""


def report_of(lines: Iterable[bytes]) -> Report:
    """Reads the report of one bag: keys, then faults, then a closing line.

    The closing line has to count the faults, and to be the last.
    """
    faults = number = 0
    closing = None
    try:
        for number, text in enumerate(lines, 1):
            line = line_of(text)
            if closing is not None:
                raise NotALine("it comes after the closing line")
            if isinstance(line, Fault):
                faults += 1
            elif isinstance(line, Closing):
                closing = line
            elif faults:
                raise NotALine("it comes after a fault")
    except NotALine as error:
        return Report(faults, None, f"line {number}: {error}")
    if closing is not None and (closing.faults or 0) != faults:
        wrong = f"{closing.faults or 0} faults are counted, not {faults}"
        return Report(faults, None, wrong)
    return Report(faults, closing)
