"""Rounds: what is on the disk of a check of many bags.

A round is a folder:

    list/directories   the directories, each ended by a NUL byte; the first
                       has the number 1
    list/options.json  how they are checked
    list/profile.json  the profile, if there is one
    lock               its byte N is locked by who checks the bag N
    reports/000001-NAME.txt     the report of a check that came to its end
    tries/000001-NAME.HEX.txt   of one that didn't, or hasn't yet
    records/HEX.jsonl  of one process, a line for each check that has ended
    pruned             the numbers of the bags without faults of which an audit
                       has removed the reports

In NAME other bytes than letters, digits, `.`, `_` and `-` are written as `_`.
`list` is written whole under another name, and then renamed.

How a bag is, its faults and its status are read from its report, never from
a record. A record has the SHA-256 of the report, without which the report
counts for nothing.
"""
import hashlib
import json
import os
import re
from contextlib import suppress
from dataclasses import dataclass, field, fields
from os.path import join
from typing import IO, Dict, Iterator, List, Optional, Set, Tuple, get_args

from .files import (
    naming, random_name, read_bytes, sha256_of, sync_folder, text_of, whole,
    write_synced,
)
from .lines import VERDICTS, Report, encoded, report_of
from .messages import Refused, is_time
from .program import Asked, Ended, Verdict, named, verdict_of

FORMAT = 2
OPTIONS = {"format", "bags", "depth", "clashes", "profile"}
ALTERED = "its record or report was altered: remove it"


@dataclass(frozen=True)
class Record:
    """What is known of a check that has ended, beside its report.

    `report` is the name of its report in the round; `why` says why it has no
    result; `real` is the folder that was checked, with no links in its path;
    `at` is the end in nanoseconds, by which the last of several is found.
    """

    number: int
    bag: str
    real: str
    begun: str
    ended: str
    at: int
    why: Optional[str] = None
    version: Optional[str] = None
    bagit_sha256: Optional[str] = None
    report: Optional[str] = None
    report_sha256: Optional[str] = None
    seal: Optional[str] = None
    files: Optional[int] = None
    size: Optional[int] = None

    def line(self) -> bytes:
        """The record as a line of JSON."""
        return json.dumps(vars(self)).encode() + b"\n"


def record_of(line: bytes) -> Optional[Record]:
    """The record of a line; None where it isn't one, or was cut off."""
    with suppress(ValueError, TypeError, RecursionError):
        record = Record(**json.loads(line))
        for it in fields(Record):
            kinds = get_args(it.type) or (it.type,)
            if type(getattr(record, it.name)) not in kinds:
                return None
        if is_time(record.begun) and is_time(record.ended):
            return record
    return None


@dataclass(frozen=True)
class Row:
    """How a bag is, by the last check of it in a round.

    The status is 3 where there is no result. `report` is the file that says
    so, if there is one.
    """

    status: int
    result: str
    bag: bytes
    faults: Optional[int] = None
    report: Optional[bytes] = None
    record: Optional[Record] = None
    is_altered: bool = False
    is_pruned: bool = False


@dataclass(frozen=True)
class Round:
    """A round that has its list."""

    folder: bytes
    directories: List[bytes]
    asked: Asked
    options: Dict[str, object]
    records: Dict[int, List[Record]]
    tried: Dict[bytes, List[bytes]]
    pruned: Set[int] = field(default_factory=set)

    def name_of(self, number: int) -> bytes:
        """What the files of the bag of a number are called."""
        base = os.path.basename(self.directories[number - 1])
        name = re.sub(rb"[^A-Za-z0-9._-]", b"_", base)
        return b"%06d-%s" % (number, name[:100])

    def report_path(self, number: int) -> bytes:
        return join(self.folder, b"reports", self.name_of(number) + b".txt")

    def new_try(self, number: int) -> bytes:
        """A name for the report of a check that hasn't come to its end."""
        name = self.name_of(number)
        file = b"%s.%s.txt" % (name, random_name())
        self.tried.setdefault(name, []).append(file)
        return join(self.folder, b"tries", file)

    def take_tries(self, number: int) -> List[bytes]:
        """The reports of those that hadn't, as far as this process knows, and
        from now on doesn't, since they are removed."""
        found = self.tried.pop(self.name_of(number), [])
        return [join(self.folder, b"tries", it) for it in found]

    def row(self, number: int) -> Row:
        """How the bag of a number is."""
        path, bag = self.report_path(number), self.directories[number - 1]
        records = self.records.get(number, [])
        try:
            digest, report = read_report(path)
        except FileNotFoundError:
            return self.unfinished(number, bag, records)
        closing = report.closing
        status = None if closing is None else closing.status
        verdict = self.judge(status, report, bag)
        ours = [
            it
            for it in records
            if (it.report_sha256, it.bag, it.why)
            == (digest, text_of(bag), None)
        ]
        if ours and verdict.status != 3:
            last = max(ours, key=lambda it: it.at)
            result, faults = verdict.result, verdict.faults
            return Row(verdict.status, result, bag, faults, path, last)
        return Row(3, f"{ALTERED} ({encoded(path)})", bag, is_altered=True)

    def judge(
        self, status: Optional[int], report: Report, bag: bytes
    ) -> Verdict:
        return verdict_of(Ended(status), report, named(bag)[0], self.asked)

    def unfinished(
        self, number: int, bag: bytes, records: List[Record]
    ) -> Row:
        """The row of a bag without a result."""
        if not records:
            is_begun = self.name_of(number) in self.tried
            return Row(3, "begun, not ended" if is_begun else "not begun", bag)
        last = max(records, key=lambda record: record.at)
        if number in self.pruned and last.why is None:
            text = f"read whole at {last.ended}; its report was pruned"
            return Row(3, text, bag, record=last, is_pruned=True)
        path = join(self.folder, os.fsencode(last.report or "."))
        with suppress(OSError):
            digest, report = read_report(path)
            if digest == last.report_sha256:
                why, count = last.why, report.faults
                if report.closing is None or why:
                    return Row(3, why or ALTERED, bag, count, record=last)
                unread = self.judge(3, report, bag)
                return Row(3, unread.result, bag, count, path, last)
        text = "not ended"
        if self.name_of(number) not in self.tried:
            text = f"checked at {last.ended}; its report is not there"
        return Row(3, last.why or text, bag, record=last)

    def rows(self) -> List[Row]:
        """The rows of all bags, in their order."""
        return [self.row(it + 1) for it in range(len(self.directories))]


def read_report(path: bytes) -> Tuple[str, Report]:
    """The SHA-256 of a report's file, and what it says."""
    digest = hashlib.sha256()

    def lines(file: IO[bytes]) -> Iterator[bytes]:
        for line in file:
            digest.update(line)
            yield line

    with naming(path), open(path, "rb") as file:
        rest = lines(file)
        report = report_of(rest)
        for _ in rest:
            pass
    return digest.hexdigest(), report


def read_records(folder: bytes) -> Dict[int, List[Record]]:
    """The records of a round, by the numbers of their bags."""
    records: Dict[int, List[Record]] = {}
    place = join(folder, b"records")
    for name in sorted(names_in(place)):
        with open(join(place, name), "rb") as file:
            for record in filter(None, map(record_of, file)):
                records.setdefault(record.number, []).append(record)
    return records


def names_in(folder: bytes) -> List[bytes]:
    with suppress(FileNotFoundError):
        return os.listdir(folder)
    return []


def load(folder: bytes) -> Round:
    """The round in a folder."""
    try:
        listed = read_bytes(join(folder, b"list/directories"))
        found = json.loads(read_bytes(join(folder, b"list/options.json")))
    except (FileNotFoundError, NotADirectoryError) as error:
        text = f"{encoded(folder)} is no round: it has no list"
        raise Refused(text) from error
    except ValueError:
        found = None
    if not isinstance(found, dict) or found.get("format") != FORMAT:
        raise Refused(f"{encoded(folder)} is a round of another program", 3)
    directories = listed.split(b"\0")[:-1]
    is_same = found.keys() == OPTIONS and found["bags"] == len(directories)
    if not is_same or found["depth"] not in list(VERDICTS):
        raise Refused(f"the list of {encoded(folder)} was altered", 3)
    profile = join(folder, b"list/profile.json")
    rules = profile if found["profile"] else None
    asked = Asked(found["depth"], bool(found["clashes"]), rules)
    if asked.profile and sha256_of(profile) != found["profile"]:
        raise Refused(f"{encoded(profile)} was altered", 3)
    tried: Dict[bytes, List[bytes]] = {}
    for file in names_in(join(folder, b"tries")):
        tried.setdefault(file.rsplit(b".", 2)[0], []).append(file)
    records, pruned = read_records(folder), read_pruned(folder)
    return Round(folder, directories, asked, found, records, tried, pruned)


def read_pruned(folder: bytes) -> Set[int]:
    """The bags whose reports were removed, by their numbers."""
    with suppress(FileNotFoundError):
        lines = read_bytes(join(folder, b"pruned")).split()
        return {int(it) for it in lines if it.isdigit()}
    return set()


def begin(
    folder: bytes,
    directories: List[bytes],
    asked: Asked,
    profile: Optional[bytes],
) -> Round:
    """The round in a folder, which is made unless it is there: then it has to
    have begun with these directories, these options and this profile."""
    digest = None if profile is None else hashlib.sha256(profile).hexdigest()
    options = {
        "format": FORMAT,
        "bags": len(directories),
        "depth": asked.depth,
        "clashes": asked.clashes,
        "profile": digest,
    }
    files = {
        b"directories": b"".join(name + b"\0" for name in directories),
        b"options.json": json.dumps(options).encode() + b"\n",
    }
    if profile is not None:
        files[b"profile.json"] = profile
    make(folder, files)
    a_round, where = load(folder), encoded(folder)
    ours, theirs = set(directories), set(a_round.directories)
    for names, what in (
        (theirs - ours, "has, and is not asked for"),
        (ours - theirs, "lacks"),
    ):
        if names:
            raise Refused(
                f"{where} is a round of other directories: it {what}:"
                f" {encoded(min(names))}"
            )
    if options != a_round.options:
        text = "is a round with other options, or another profile"
        raise Refused(f"{where} {text}")
    return a_round


def make(folder: bytes, files: Dict[bytes, bytes]) -> None:
    """Makes the round's folder and its list of these files, unless they are
    there."""
    made = False
    with suppress(FileExistsError):
        os.mkdir(folder)
        made = True
    if not os.path.isdir(folder):
        raise Refused(f"{encoded(folder)} is there, and is no folder")
    names = os.listdir(folder)
    if b"list" in names:
        return
    if [name for name in names if not name.startswith(b"list.")]:
        raise Refused(
            f"{encoded(folder)} is there, and is no round: a round makes a"
            " folder of its own"
        )
    try:
        with whole(join(folder, b"list")) as draft:
            for name, content in files.items():
                write_synced(join(draft, name), content)
        sync_folder(os.path.dirname(folder))
    except OSError:
        with suppress(OSError):
            if made:
                os.rmdir(folder)
        raise
