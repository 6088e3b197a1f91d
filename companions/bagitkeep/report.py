"""Reports of `bagit` as data: JSON, CSV, a summary, or the paths of faults."""
import argparse
import csv
import json
import os
import re
import sys
import tempfile
from collections import Counter
from functools import partial
from itertools import chain, islice, tee
from typing import (
    IO, Any, Callable, Dict, FrozenSet, Iterable, Iterator, List, Optional,
    Sequence, Tuple,
)

from . import rounds, usage
from .lines import (
    FAULTS, Closing, Fault, Line, NotALine, Unchecked, line_of,
)
from .messages import Refused, explained, printable, say

COLUMNS = (
    "bag code word path algorithm line detail ended faults cause part files"
    " bytes clashes profile"
).split()
MOST_IN_MEMORY = 1 << 22
MOST_SHOWN = 200

Record = Dict[str, Any]


def record_of(line: Line) -> Record:
    """What a line says, by columns; what it doesn't have is left out. A fault
    has a bag, which its line doesn't say."""
    if isinstance(line, Fault):
        first = {"bag": None, "code": line.code, "word": line.word}
        return {**first, **vars(line)}
    if isinstance(line, Unchecked):
        return {"word": "unchecked", "detail": line.key}
    fields = {
        **vars(line),
        "part": line.part and f"{line.part} of {line.parts}",
        "detail": line.reason,
        "clashes": line.clashes or None,
    }
    return {it: fields[it] for it in COLUMNS if fields.get(it) is not None}


def is_of_file(path: str) -> bool:
    """Whether a file of a bag may have this path (RFC 8493, 5.1)."""
    return "\0" not in path and not {"", ".", ".."} & set(path.split("/"))


def with_next(lines: Iterable[bytes]) -> Iterator[Tuple[bytes, bytes]]:
    """Each line, and the one below it, or nothing."""
    these, following = tee(lines)
    next(following, None)
    return zip(these, chain(following, [b""]))


def read_line(text: bytes, below: bytes) -> Line:
    """What a line says. `unchecked made` may be of a key of a profile, or say
    that a bag of the name `unchecked` was made: then there is nothing below,
    or what nothing but a making writes."""
    if text == b"unchecked made\n":
        if below[-6:] in (b"", b" made\n") or b" not made: " in below:
            return Closing("unchecked", "made")
    return line_of(text)


class Reading:
    """Reports that are read. The line that closes a report names its bag, so
    what lines say is kept until it is written: in `kept`, a file. `blocks`
    are the bags, with how many lines; None where no line closes these."""

    def __init__(self, kept: IO[bytes], codes: FrozenSet[int]) -> None:
        self.kept, self.codes = kept, codes
        self.blocks: List[Tuple[Optional[str], int]] = []
        self.bag: Optional[str] = None
        self.status = 0
        self.is_refused = self.is_unread = False

    def refuse(self, text: str) -> None:
        say(text)
        self.is_refused = True

    def fail(self, text: str) -> None:
        say(text)
        self.status = 3

    def read(self, name: str, bag: Optional[str] = None) -> None:
        """Reads a file of reports; the bag has this name, if one is given."""
        try:
            is_file = name != "-"
            with open(name if is_file else 0, "rb", closefd=is_file) as file:
                where = name if is_file else "standard input"
                self.read_lines(where, file, bag)
        except OSError as error:
            where = f"can't be read, or kept in {tempfile.gettempdir()}"
            self.fail(f"{name} {where}: {error.strerror}")
            self.is_unread = True

    def read_lines(
        self, name: str, file: IO[bytes], bag: Optional[str]
    ) -> None:
        lines = faults = number = 0
        is_cut = False
        for number, (text, below) in enumerate(with_next(file), 1):
            place = f"{name}: line {number}"
            try:
                line = read_line(text, below)
            except NotALine:
                if is_cut := not text.endswith(b"\n"):
                    self.fail(f"{place} is cut off: {shown(text)}")
                else:
                    what = shown(text[:-1])
                    self.refuse(f"{place} is no line of a report: {what}")
                continue
            self.keep(record_of(line))
            lines += 1
            if isinstance(line, Fault):
                faults += 1
                if line.code in self.codes and not is_of_file(line.path):
                    what = f"no file has its path: {shown(line.path)}"
                    self.fail(f"{place} is passed over, since {what}")
            elif isinstance(line, Closing):
                self.close(place, line, faults, bag)
                self.blocks.append((self.bag, lines))
                lines = faults = 0
        if lines or is_cut or number == 0:
            self.fail(
                f"{name} isn't finished: after {faults} faults there is no"
                " closing line"
            )
            self.blocks.append((None, lines))

    def keep(self, record: Record) -> None:
        self.kept.write(json.dumps(record).encode() + b"\n")

    def close(
        self, place: str, line: Closing, faults: int, bag: Optional[str]
    ) -> None:
        counted, name = line.faults or 0, line.bag if bag is None else bag
        if counted != faults and not self.is_refused:
            self.refuse(
                f"{place} closes a report of {counted} faults, and {faults}"
                " are above it"
            )
        if self.codes and self.bag not in (None, name):
            self.refuse(
                f"{place} is of the bag {name}, and --files takes one bag,"
                f" here {self.bag}"
            )
        self.bag = name
        self.status = max(self.status, line.status)

    def lack(self, bag: str, why: str) -> None:
        """Takes that a bag of a round has no result."""
        self.status = 3
        self.keep({"bag": bag, "ended": "no result", "detail": why})
        self.blocks.append((bag, 1))

    def records(self) -> Iterator[Record]:
        """What the lines say. Each fault also has its bag, or None where its
        report isn't finished."""
        self.kept.seek(0)
        for bag, lines in self.blocks:
            for text in islice(self.kept, lines):
                record = json.loads(text)
                yield {**record, "bag": bag} if "bag" in record else record


def shown(text: object) -> str:
    """A line or a path for people, not longer than they read."""
    quoted = repr(text).lstrip("b")
    return quoted if len(quoted) < MOST_SHOWN else quoted[:MOST_SHOWN] + ".."


def write_json(reading: Reading, out: IO[str]) -> None:
    """An object for each line."""
    for record in reading.records():
        out.write(json.dumps(record) + "\n")


def cell(value: object) -> str:
    """The text of a cell. Where a spreadsheet would take it for a formula it
    gets a `'` in front; so does one that looks as if it had got that."""
    text = "" if value is None else str(value)
    if value is True:
        text = "true"
    return f"'{text}" if re.match(r"'*[=+\-@\t\r]", text) else text


def write_cells(reading: Reading, out: IO[str], dialect: str) -> None:
    """A row for each line, below the names of the columns. A terminal obeys
    what is in a name; a file or a program gets each name as it is."""
    is_terminal = out.isatty()
    writer = csv.writer(out, dialect)
    writer.writerow(COLUMNS)
    for record in reading.records():
        cells = [cell(record.get(column)) for column in COLUMNS]
        writer.writerow(map(printable, cells) if is_terminal else cells)


def first_folder(path: str) -> str:
    """The folder of the bag that a file is in, or of its payload."""
    parts = path.split("/")
    folders = parts[:-1][: 2 if parts[0] == "data" else 1]
    text = "".join(f"{folder}/" for folder in folders)
    return text or ("./" if path else "-")


def write_counts(
    title: str, counts: Iterable[Tuple[str, int]], out: IO[str]
) -> None:
    out.write(f"{title}:\n")
    for text, count in counts:
        out.write(f"{count:9} {printable(text)}\n")


def write_summary(reading: Reading, out: IO[str]) -> None:
    """How many reports end in which way, and how many files have a fault.

    The faults of one code come in the order of their paths, so a file that
    has several is counted once.
    """
    ended, codes, folders = Counter[str](), Counter[str](), Counter[str]()
    last: Dict[int, str] = {}
    if unfinished := sum(bag is None for bag, _ in reading.blocks):
        ended["isn't finished"] = unfinished
    for record in reading.records():
        code = record.get("code")
        if "ended" in record:
            ended[record["ended"]] += 1
            last.clear()
        elif code is not None and last.get(code) != record["path"]:
            last[code] = record["path"]
            fault = f"{code} {record['word']}"
            codes[fault] += 1
            bag = record["bag"] or "(no closing line)"
            folders[f"{bag}: {first_folder(record['path'])} {fault}"] += 1
    write_counts("reports by how they end", ended.most_common(), out)
    write_counts("files by fault", sorted(codes.items()), out)
    title = "files by bag, first folder and fault"
    write_counts(title, folders.most_common(), out)


def write_paths(reading: Reading, out: IO[str]) -> None:
    """The paths that faults name: those of one file by several algorithms
    follow each other. None may look like an option."""
    last = None
    for record in reading.records():
        path = record.get("path")
        is_asked = record.get("code") in reading.codes and path != last
        if path is not None and is_asked and is_of_file(path):
            out.write(f"{'./' if path.startswith('-') else ''}{path}\0")
            last = path


FORMS: Dict[str, Callable[[Reading, IO[str]], None]] = {
    "json": write_json,
    "csv": partial(write_cells, dialect="excel"),
    "tsv": partial(write_cells, dialect="excel-tab"),
    "summary": write_summary,
    "files": write_paths,
}


def codes_of(text: str) -> FrozenSet[int]:
    """The codes that are given with commas between."""
    words = text.split(",")
    codes = frozenset(code for code in FAULTS if str(code) in words)
    if len(codes) != len(words):
        raise argparse.ArgumentTypeError(
            f"not codes with commas between, each once: {text}"
        )
    return codes


def read_words(words: Sequence[str]) -> argparse.Namespace:
    asked = usage.read("report", words, 0, usage.MANY, files=codes_of)
    forms = [it for it in FORMS if getattr(asked, it)]
    if len(forms) > 1:
        raise Refused(f"--{forms[0]} doesn't go with --{forms[1]}")
    if asked.round is not None and (asked.operands or asked.files):
        raise Refused("--round takes no report, and doesn't go with --files")
    asked.form = "".join(forms) or "json"
    return asked


def read_round(reading: Reading, folder: str) -> None:
    """Reads the reports of a round, in the order of its bags."""
    for row in rounds.load(os.fsencode(folder)).rows():
        bag = os.fsdecode(row.bag)
        if row.report is None:
            reading.lack(bag, row.result)
        else:
            reading.read(os.fsdecode(row.report), bag)


def run(words: Sequence[str]) -> int:
    """Does what the command `report` is asked for, and says its status."""
    asked = read_words(words)
    if sys.stdout is None:
        raise Refused("standard output is closed", 3)
    try:
        with open(
            1, "w", encoding="utf-8", errors="surrogateescape", newline="",
            closefd=False,
        ) as out, tempfile.SpooledTemporaryFile(MOST_IN_MEMORY) as kept:
            reading = Reading(kept, asked.files or frozenset())
            if asked.round is not None:
                read_round(reading, asked.round)
            for name in asked.operands or ([] if asked.round else ["-"]):
                reading.read(name)
            if not reading.is_refused and not reading.is_unread:
                FORMS[asked.form](reading, out)
    except OSError as error:
        raise Refused(f"it can't be written: {explained(error)}", 3) from error
    return 2 if reading.is_refused else reading.status
