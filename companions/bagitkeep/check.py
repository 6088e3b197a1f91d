"""`bagit-keep check`: a bag is checked in parts, which `bagit` joins."""
import argparse
import fcntl
import hashlib
import json
import os
import re
import time
from contextlib import contextmanager, suppress
from dataclasses import dataclass, replace
from itertools import groupby
from typing import Iterator, List, Optional, Sequence, Tuple

from . import usage
from .checks import obstacle, told_of
from .files import (
    EXCLUSIVE, has_lock, identity, is_within, locked, place, read_bytes,
    refuse_claim, sha256_of, whole, write_synced,
)
from .fingerprint import altered, fingerprint
from .lines import MOST_PARTS, Closing, Unchecked, encoded, line_of, report_of
from .messages import Refused, explained, now, say, shown
from .program import (
    LONGEST_WAIT, Asked, Program, Stopped, Verdict, named, needed,
    read_profile, verdict_of,
)
from .progress import Far, shown_while

PART_BYTES = 4 << 30
LISTING, OPENING, READING = 15e-6, 20e-6, 1e-9
"""Seconds for a file that is listed, for one that is opened, for a byte."""

COARSE, FINE = 2.0, 0.05
"""Seconds after which what is altered has another time."""

TRIES, WAIT = 20, 60
PASSING = ("device", "memory")
"""Causes that may be gone when something is tried again."""

OURS = re.compile(
    r"asked|joined|lock|listing|profile\.json|report|(all|[0-9]+)\.locked"
    r"|[0-9]+\.part|[0-9a-z]+\.[0-9a-f]{16}\.(try|past)"
)


def read_words(words: Sequence[str]) -> argparse.Namespace:
    asked = usage.read(
        "check", words, 2, 2, jobs=usage.JOBS, task=usage.share_of,
        parts=usage.number(1, MOST_PARTS), tries=usage.COUNT,
        wait=usage.number(0, LONGEST_WAIT),
    )
    shared = asked.jobs is not None or asked.parts is not None
    if (asked.task is not None) + bool(asked.join) + shared > 1:
        raise Refused("of --jobs and --parts, --task and --join it takes one")
    if asked.task is not None and asked.task[1] > MOST_PARTS:
        raise Refused(f"--task: there are {MOST_PARTS} parts at most")
    return asked


@dataclass(frozen=True)
class Head:
    """What all parts check, and of which state of the bag."""

    bag: str
    real: str
    parts: int
    clashes: bool
    profile: Optional[str]
    bagit: str
    begun: str
    fingerprint: str = ""
    bytes: int = 0


@dataclass(frozen=True)
class Parts:
    """A folder REPORT.parts that has its head, which is in `asked`. K.part is
    the report of part K, once that is done; K.HEX.try one that isn't."""

    folder: str
    head: Head

    def at(self, name: str) -> str:
        return os.path.join(self.folder, name)

    def new(self, name: str, end: str = "try") -> str:
        return self.at(f"{name}.{os.urandom(8).hex()}.{end}")

    def missing(self) -> List[int]:
        names = set(os.listdir(self.folder))
        numbers = range(1, self.head.parts + 1)
        return [it for it in numbers if f"{it}.part" not in names]

    def asked(self, number: int) -> Asked:
        """What is asked of a part. Keys of a profile are said but once."""
        head, part = self.head, (number, self.head.parts)
        profile = head.profile and os.path.abspath(self.at("profile.json"))
        return Asked("full", head.clashes, profile, part, quiet=number > 1)

    def clear(self) -> None:
        """Removes the folder; what isn't of a check stays."""
        for name in filter(OURS.fullmatch, os.listdir(self.folder)):
            with suppress(FileNotFoundError):
                os.unlink(self.at(name))
        with suppress(OSError):
            os.rmdir(self.folder)


def parts_for(files: int, size: int) -> int:
    """Of some 4 GiB, and so few that all listings take at most a twentieth of
    the time that the check takes."""
    seconds = files * OPENING + size * READING
    most = int(seconds / (20 * LISTING * max(1, files)))
    return max(1, min(-(-size // PART_BYTES), most, MOST_PARTS))


def opened(
    read: argparse.Namespace, bagit: str, profile: Optional[bytes]
) -> Parts:
    """The folder of parts, which is made where there is none. That of another
    bag, other options, or another `bagit` is refused."""
    bag, report = read.operands
    folder = f"{report}.parts"
    given = read.task[1] if read.task else read.parts or 0
    digest = None if profile is None else hashlib.sha256(profile).hexdigest()
    real, clashes = os.path.realpath(bag), bool(read.clashes)
    ours = Head(bag, real, given, clashes, digest, sha256_of(bagit), now())
    if not os.path.lexists(folder):
        if read.join:
            text = f"{shown(folder)} isn't there: no part was checked"
            raise Refused(text, 3)
        begin(folder, ours, profile)
    head = head_in(folder)
    for name, what in (
        ("bag", "another bag"),
        ("real", "another bag"),
        ("clashes", "other options"),
        ("profile", "another profile"),
        ("bagit", "another bagit"),
        ("parts", f"{head.parts} parts, and not {given}"),
    ):
        is_asked = name != "parts" or given
        if is_asked and getattr(head, name) != getattr(ours, name):
            raise Refused(
                f"{shown(folder)} is of a check of {what}; remove it to begin"
                " anew"
            )
    return Parts(folder, head)


def begin(folder: str, head: Head, profile: Optional[bytes]) -> None:
    """Makes the folder. Whatever is altered once it has its name has another
    time than in its listing."""
    with whole(os.fsencode(folder)) as draft:
        parts = Parts(os.fsdecode(draft), head)
        with open(parts.at("listing"), "x", encoding="ascii") as file:
            found = fingerprint(head.bag, file)
            file.flush()
            os.fsync(file)
        head = replace(
            head,
            parts=head.parts or parts_for(found.files, found.size),
            fingerprint=found.digest,
            bytes=found.size,
        )
        if profile is not None:
            write_synced(parts.at("profile.json"), profile)
        text = json.dumps(vars(head)).encode() + b"\n"
        write_synced(parts.at("asked"), text)
        time.sleep(COARSE if found.is_coarse else FINE)


def head_in(folder: str, name: str = "asked") -> Head:
    """The head of a folder; refused where it has none."""
    with suppress(OSError, ValueError, TypeError, RecursionError):
        head = Head(**json.loads(read_bytes(os.path.join(folder, name))))
        if 1 <= head.parts <= MOST_PARTS:
            return head
    raise Refused(f"{shown(folder)} is there, and isn't of a check in parts")


def clear_left(folder: str, report: str) -> None:
    """Removes what a check has left that was killed when its report had got
    its name; where it was killed before, its parts are taken back."""
    with suppress(Refused):
        parts = Parts(folder, head_in(folder, "joined"))
        mark = identity(parts.at("report"))
        if mark is not None and mark != identity(report):
            os.rename(parts.at("joined"), parts.at("asked"))
        else:
            parts.clear()


@contextmanager
def alone(parts: Parts, number: Optional[int]) -> Iterator[None]:
    """Refuses a second process at a part, or at all of them."""
    busy = f"another process is at work in {shown(parts.folder)}"
    claim = parts.at(f"{number or 'all'}.locked")
    place = (0, 0) if number is None else (1, number)
    with open(parts.at("lock"), "ab") as file:
        is_locked = has_lock(fcntl.lockf, file, EXCLUSIVE, *place)
        with locked(is_locked, claim, busy):
            for name in os.listdir(parts.folder) if is_locked is None else ():
                # one at a part stands against one at all, which locks say
                if name.endswith(".locked") and (
                    (name == "all.locked") != (number is None)
                ):
                    refuse_claim(parts.at(name), busy)
            yield


@dataclass(frozen=True)
class Work:
    """Parts that are checked: how often each is tried, with which rest after a
    failure, and whether files that can't be read are passed by."""

    parts: Parts
    program: Program
    tries: int
    wait: int
    go_past: bool

    def turns(self) -> Iterator[int]:
        """The turns in which something is tried, with how many are left."""
        for left in reversed(range(self.tries)):
            yield left
            if left and self.program.stopped.wait(self.wait):
                raise Stopped

    def check(self, number: int) -> None:
        """Checks a part. What isn't read is a message."""
        asked: Optional[Asked] = self.parts.asked(number)
        while asked is not None:
            verdict, file = self.persist(number, asked)
            if verdict.status != 3:
                self.look()
                if asked.after is None:
                    self.keep(number, file)
                else:
                    self.say(number, verdict, file)
            asked = self.past(asked, verdict.closing)

    def past(self, asked: Asked, at: Optional[Closing]) -> Optional[Asked]:
        """What comes after the file that can't be read, if it is asked for."""
        path = at.path if at is not None and at.cause == "device" else None
        if not self.go_past or not path or not path.startswith("data/"):
            return None
        after = f"701 payload-sum-differs {encoded(path)}%00 - - -"
        return replace(asked, after=after, quiet=True)

    def keep(self, number: int, file: str) -> None:
        """Gives the report of a part its name. Tries that were killed go with
        the folder: it isn't listed for each part."""
        with suppress(FileExistsError):
            place(file, self.parts.at(f"{number}.part"))

    def persist(self, number: int, asked: Asked) -> Tuple[Verdict, str]:
        """Tries a part until it is done, or can't be; gives the last try."""
        end, last = "try" if asked.after is None else "past", ""
        for _ in self.turns():
            file = self.parts.new(str(number), end)
            with open(file, "x+b") as out:
                verdict = self.program.check(self.parts.head.bag, asked, out)
                os.fsync(out)
            if last:
                os.unlink(last)
            last, at = file, verdict.closing
            if verdict.status != 3:
                break
            self.say(number, verdict, file)
            if at is not None and at.cause not in PASSING:
                break
        return verdict, last

    def say(self, number: int, verdict: Verdict, file: str) -> None:
        """Says how a part is, which isn't done, or not by itself."""
        bag = os.fsencode(self.parts.head.bag)
        text = told_of(bag, verdict, os.fsencode(file))
        say(f"part {number} of {self.parts.head.parts}: {text}")

    def look(self) -> None:
        """Refuses a bag that isn't as it was when the check began. Where it
        can't be listed, this is tried again, too."""
        parts, bag = self.parts, self.parts.head.bag
        for left in self.turns():
            try:
                if fingerprint(bag).digest == parts.head.fingerprint:
                    return
                raise Refused(
                    f"{altered(bag, parts.at('listing'))} was altered since"
                    f" the check began; remove {shown(parts.folder)} to begin"
                    " anew",
                    3,
                )
            except OSError as error:
                if not left:
                    raise
                say(explained(error))

    def join(self, report: str) -> int:
        """Has the parts joined, and gives what `bagit` has written of them
        the name of the report."""
        parts, of = self.parts, self.parts.head.parts
        if missing := parts.missing():
            text = f"of {of} parts these aren't done: {ranges_of(missing)}"
            raise Refused(text, 3)
        self.look()
        names = [f"{number}.part" for number in range(1, of + 1)]
        words = ["--validate", "--join", "--", *names]
        name, file = named(parts.head.bag)[0], parts.new("report")
        with open(file, "x+b") as out:
            ended = self.program.run(words, out, parts.folder)
            out.seek(0)
            verdict = verdict_of(ended, report_of(out), name, Asked())
            os.fsync(out)
        if verdict.status == 3:
            os.unlink(file)
            text = f"{shown(parts.folder)} isn't joined: {verdict.result}"
            raise Refused(text, 3)
        os.rename(file, parts.at("report"))
        os.rename(parts.at("asked"), parts.at("joined"))
        place(os.path.abspath(parts.at("report")), os.path.abspath(report))
        parts.clear()
        print(verdict.result)
        return verdict.status


def ranges_of(numbers: List[int]) -> str:
    """Numbers as a job array takes them, such as 2,5-7."""
    runs = groupby(enumerate(numbers), lambda it: it[1] - it[0])
    ranges = [[number for _, number in run] for _, run in runs]
    ends = [dict.fromkeys((it[0], it[-1])) for it in ranges]
    return ",".join("-".join(map(str, it)) for it in ends)


def say_unchecked(path: str) -> None:
    """Says the keys of a profile that weren't checked, by part 1."""
    with open(path, "rb") as file:
        for line in map(line_of, file):
            if not isinstance(line, Unchecked):
                return
            say(line)


def task(parts: Parts, number: int) -> int:
    """Writes the closing line of a part, and says its status."""
    path = parts.at(f"{number}.part")
    if not os.path.lexists(path):
        return 3
    with open(path, "rb") as file:
        report = report_of(file)
    if report.closing is None:
        text = f"{shown(path)} isn't the report of a part: {report.wrong}"
        raise Refused(text, 3)
    if number == 1:
        say_unchecked(path)
    print(report.closing)
    return min(1, report.faults)


def refuse_places(bag: str, report: str) -> None:
    """Refuses what is no bag, and a report that is there, or in the bag."""
    if why := obstacle(os.fsencode(bag)):
        raise Refused(f"{shown(bag)} {why}", 3)
    if not os.path.basename(report):
        raise Refused(f"the report isn't a file: {shown(report)}")
    if is_within(os.path.dirname(report) or ".", bag):
        where = shown(report)
        raise Refused(f"the report would be a file of the bag: {where}")
    clear_left(f"{report}.parts", report)
    if os.path.lexists(report):
        raise Refused(f"{shown(report)} is there; give another name")


def run(words: Sequence[str]) -> int:
    """Does what the command `check` is asked for, and says its status."""
    read = read_words(words)
    refuse_places(*read.operands)
    bagit = needed()
    parts = opened(read, bagit, read_profile(read.profile))
    number = read.task and read.task[0]
    tries, wait = read.tries or TRIES, WAIT if read.wait is None else read.wait
    head = parts.head
    with alone(parts, number), Program(bagit) as program:
        work = Work(parts, program, tries, wait, bool(read.go_past))
        left = [] if read.join else parts.missing()
        if number is not None:
            left = [it for it in left if it == number]
        elif left and len(left) < head.parts:
            say(
                f"goes on with the check that began at {head.begun}:"
                f" {head.parts - len(left)} of {head.parts} parts are done"
            )
            work.look()
        if left:
            size = head.bytes // head.parts
            far = Far(program, "parts", left, "part {}".format, lambda _: size)
            with shown_while(far, read.progress):
                program.each(work.check, left, read.jobs or 1)
        if number is not None:
            return task(parts, number)
        if not parts.missing():
            say_unchecked(parts.at("1.part"))
        return work.join(read.operands[1])
