"""The folder BAG.new beside a bag, in which is made what is to come into it.

Who is killed leaves that folder, and the same command knows by it how far it
came. Nothing takes the place of what is in a bag before `bagit` has checked
it there in full; and what was there is kept, as BAG.kept.XXXXXX.
"""
import json
import os
import re
import secrets
import shutil
import sys
from contextlib import suppress
from dataclasses import replace
from os.path import dirname, isdir, isfile, islink, join, lexists
from typing import Any, Callable, Dict, List, Optional, Sequence

from .bagit import content_of, reading
from .errors import BagError
from .files import sync_folder, write_synced
from .messages import Refused, say, shown
from .program import Asked
from .runs import BagReport, alone, check

RECORD = "bagit-keep.json"
DRAFT = "bagit-keep.json.part"
WORK = "bag"
TEXT = "text"

Build = Callable[[str], None]
"""Is given the folder of a new bag."""


def kept_of(bag: str) -> str:
    """A name beside a bag for what is kept of it, which nothing has."""
    return f"{bag}.kept.{secrets.token_hex(3)}"


LEFT = re.compile(rb"(.+)\.(?:kept\.[0-9a-f]{6}|(new))", re.DOTALL)
"""The path of what is beside a bag, by the bag's."""


def bag_beside(path: bytes) -> Optional[bytes]:
    """The bag beside which a command has left the folder at this path: what
    it kept of the bag, or the folder in which it was at work. None where no
    bag has this name, or another has made the folder."""
    found = LEFT.fullmatch(path)
    if found is None or islink(path) or islink(found[1]):
        return None
    if not isfile(join(found[1], b"bagit.txt")):
        return None
    return None if found[2] and not is_work(path) else found[1]


def is_work(path: bytes) -> bool:
    """Whether a folder has what a command notes in its own, and what it makes
    there, and nothing else."""
    try:
        names = {os.fsdecode(it) for it in os.listdir(path)}
    except OSError:
        return False
    notes = {RECORD, DRAFT}
    return bool(names & notes) and names <= notes | {WORK, TEXT}


def say_passed(paths: List[bytes]) -> None:
    """Says that these folders are passed over."""
    if paths:
        more = f", and {len(paths) - 1} more" if paths[1:] else ""
        say(f"passed over, as left beside a bag: {shown(min(paths))}{more}")


class Faulty(Exception):
    """The bag at a path hasn't passed a full check; the report of this."""

    def __init__(self, report: BagReport, bag: str) -> None:
        super().__init__(report.result)
        self.report, self.bag = report, bag


def checked(bag: str) -> BagReport:
    """The report of a full check of a bag without faults; else it is raised
    as Faulty."""
    report = check(bag, Asked())
    if report.status != 0:
        raise Faulty(report, bag)
    return report


class Beside:
    """The folder beside a bag, of one command. What it was asked, and how far
    it is, is noted there."""

    def __init__(self, bag: str, command: str) -> None:
        self.bag, self.command = bag, command
        self.path = f"{bag}.new"
        self.work = join(self.path, WORK)
        self.text = join(self.path, TEXT)

    def left(self) -> Dict[str, Any]:
        """What a killed command has noted, if one has."""
        try:
            names = set(os.listdir(self.path))
        except FileNotFoundError:
            return {}
        if names and not names & {RECORD, DRAFT}:
            raise BagError(
                f"{shown(self.path)} is there, and isn't left of bagit-keep"
            )
        if RECORD not in names:
            return {}
        path = join(self.path, RECORD)
        with reading(path):
            record: Dict[str, Any] = json.loads(content_of(path))
        if record["command"] != self.command:
            raise BagError(
                f"{shown(self.path)} is left of {record['command']}: give"
                " that command again"
            )
        return record

    def note(self, **record: Any) -> None:
        """Notes what is to be known after a kill. It is on the disk then."""
        draft = join(self.path, DRAFT)
        os.makedirs(self.path, exist_ok=True)
        with suppress(FileNotFoundError):
            os.unlink(draft)
        content = json.dumps({"command": self.command, **record})
        write_synced(draft, content.encode())
        os.rename(draft, join(self.path, RECORD))
        sync_folder(self.path)
        sync_folder(dirname(self.path))

    def clear(self) -> None:
        """Removes the folder, and what was noted last."""
        for name in WORK, TEXT:
            path = join(self.path, name)
            if lexists(path):
                shutil.rmtree(path, onerror=by_force)
        for name in DRAFT, RECORD:
            with suppress(FileNotFoundError):
                os.unlink(join(self.path, name))
        with suppress(FileNotFoundError):
            os.rmdir(self.path)
            sync_folder(dirname(self.path))

    def is_done(self, words: Sequence[str]) -> bool:
        """Whether a command with these words, which was killed at its end,
        has put the new bag in the place of the old; the last of it is done."""
        record = self.left()
        if "kept" not in record or lexists(self.work) and lexists(self.bag):
            return False
        if lexists(self.work):
            os.rename(self.work, self.bag)
        self.sync_both()
        self.clear()
        say(f"the old bag is {shown(record['kept'])}")
        return bool(record["words"] == list(words))

    def replace(
        self, words: Sequence[str], build: Build, look: Build
    ) -> BagReport:
        """Puts what is built in the place of the bag, if a full check of it
        ends with 0, and `look` refuses nothing. This is its report."""
        self.clear()
        self.note(words=list(words))
        try:
            os.mkdir(self.work)
            build(self.work)
            report = checked(self.work)
            look(self.work)
            with alone(self.work, self.bag):
                self.put(words)
        except OSError as error:
            raise self.named_in_bag(error) from error
        finally:
            if lexists(self.bag):
                self.clear()
        name, closing = shown(self.work), report.result
        if closing.startswith(f"{name} "):
            closing = shown(self.bag) + closing[len(name):]
        return replace(report, result=closing)

    def named_in_bag(self, error: OSError) -> OSError:
        """An error of a file of the new bag, which is removed, as one of that
        file in the bag."""
        path = error.filename
        if isinstance(path, str) and path.startswith(join(self.work, "")):
            path = join(self.bag, path[len(self.work) + 1:])
        return OSError(error.errno, error.strerror, path)

    def put(self, words: Sequence[str]) -> None:
        """Gives the old bag and the new one their names."""
        kept, mode = kept_of(self.bag), os.stat(self.work).st_mode & 0o7777
        self.note(words=list(words), kept=kept)
        os.chmod(self.work, mode | 0o700)  # else it isn't renamed
        os.rename(self.bag, kept)
        sync_folder(dirname(self.bag))
        os.rename(self.work, self.bag)
        os.chmod(self.bag, mode)
        self.sync_both()
        self.clear()
        say(f"the old bag is {shown(kept)}")

    def sync_both(self) -> None:
        """Syncs the two folders between which the new bag was moved."""
        sync_folder(self.path)
        sync_folder(dirname(self.bag))


def by_force(function: Callable[[str], Any], path: str, error: Any) -> None:
    """Removes what is in a folder that has been made read-only."""
    os.chmod(dirname(path), 0o700)
    function(path)


def path_in_bag(word: str) -> str:
    """A path in a bag, as manifests have it."""
    path = word.rstrip("/")
    if {"", ".", ".."} & set(path.split("/")):
        raise Refused(f"{shown(word)} isn't a path in a bag")
    return path


def folder_of(word: str) -> str:
    """The whole path of a bag, or of one that is just being replaced."""
    if sys.getfilesystemencoding() != "utf-8":
        raise Refused("names in bags are UTF-8: set LC_ALL=C.UTF-8", 3)
    bag = os.path.realpath(word)
    if not word or not isdir(bag) and not isdir(Beside(bag, "").work):
        raise Refused(f"{shown(word)} isn't a folder")
    return bag


def refuse_mount(bag: str) -> None:
    """Refuses a bag into which nothing beside it can be renamed."""
    if os.path.ismount(bag):
        raise BagError(f"{shown(bag)} is where a disk is mounted")


def replaced(
    bag: str,
    command: str,
    words: Sequence[str],
    build: Build,
    look: Build = lambda work: None,
) -> int:
    """Replaces a bag by what is built in a folder, unless `look` refuses what
    was built. The status is that of the last check, whose report is
    written."""
    place = Beside(bag, command)
    refuse_mount(bag)
    with alone(bag if lexists(bag) else place.work, bag):
        try:
            if place.is_done(words):
                return show(check(bag, Asked()))
            return show(place.replace(words, build, look))
        except Faulty as faulty:
            status = show(faulty.report)
            if faulty.bag == place.work:
                say(
                    f"{shown(bag)} is as it was: the report is of the changed"
                    " bag, which was removed"
                )
            return status


def show(report: BagReport) -> int:
    """Writes a report as `bagit` did, and says its status."""
    if report.unread is not None and report.message:
        say(report.message)
    lines = [*map(str, report.faults), report.result]
    sys.stdout.write("".join(f"{line}\n" for line in lines))
    return report.status
