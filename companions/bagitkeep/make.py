"""`bagit-keep make`: folders are made bags, by one look at all of them first.

What a folder has is noted beside it before anything is moved. After a kill
the files are moved back by this, and the making begins again; a making that
came to its last files goes on.
"""
import json
import os
import re
from os.path import isdir, join, lexists
from typing import Any, Dict, List, Sequence

from .bagit import content_of, reading, words_of_making
from .beside import Beside, folder_of, kept_of, show
from .elements import elements_in, refuse_unwritable
from .errors import BagError
from .files import sync_folder
from .lines import encoded
from .messages import Refused, explained, say, shown
from .program import Asked, find
from .runs import alone, check, find_renew, make, renew
from .seal import tag_files
from .tags import MANIFEST_NAME, Element
from .usage import MANY, read

MOVED = ".bagit-new"
TAG_FILE = re.compile(r"bagit\.txt|bag-info\.txt|" + MANIFEST_NAME.pattern)


def is_bag(folder: str) -> bool:
    """Whether a folder is a bag, or what is left of one."""
    if lexists(join(folder, "bagit.txt")):
        return True
    names = os.listdir(folder) if isdir(join(folder, "data")) else []
    return any(map(MANIFEST_NAME.fullmatch, names))


def look(folder: str) -> None:
    """Refuses a bag, and what lies in one."""
    if lexists(join(folder, MOVED)):
        raise Refused(f"{shown(folder)} has a {MOVED}, of an earlier making")
    above = folder
    while not is_bag(above):
        if above == os.path.dirname(above):
            return
        above = os.path.dirname(above)
    where = "is" if above == folder else "lies in"
    raise Refused(f"{shown(folder)} {where} a bag: --bag-in-bag allows it")


def numbers_of(folder: str) -> Dict[str, int]:
    """What a folder has at its top, by inode numbers."""
    with os.scandir(folder) as entries:
        return {entry.name: entry.inode() for entry in entries}


class Making:
    """The making of one bag, with these algorithms and elements."""

    def __init__(
        self, folder: str, algorithms: List[str], elements: List[Element]
    ) -> None:
        self.folder, self.algorithms = folder, algorithms
        self.elements = elements
        self.place = Beside(folder, "make")
        self.record: Dict[str, Any] = {}

    def is_begun(self) -> bool:
        """Whether a making of this very folder was killed."""
        self.record = self.place.left()
        return self.record.get("folder") == os.stat(self.folder).st_ino

    def own(self) -> List[str]:
        """What the making has brought to the folder's top."""
        old = self.record["names"]
        return [
            name
            for name, number in numbers_of(self.folder).items()
            if old.get(name) != number
            if name in (MOVED, "data") or TAG_FILE.fullmatch(name)
        ]

    def tag_files(self, is_empty: bool) -> List[str]:
        """The tag files among it that are empty, or those that aren't."""
        return [
            name
            for name in self.own()
            if name not in (MOVED, "data")
            if (os.path.getsize(join(self.folder, name)) == 0) == is_empty
        ]

    def is_made(self) -> bool:
        """Whether it came to a tag manifest, which only a making that moved
        and described all files has."""
        names = self.tag_files(is_empty=False)
        return any(name.startswith("tagmanifest-") for name in names)

    def go_back(self) -> None:
        """Moves all files to where they were. Tag files of the making are
        kept beside the folder."""
        own, moved = self.own(), join(self.folder, MOVED)
        if "data" in own and MOVED not in own:
            os.rename(join(self.folder, "data"), moved)
            sync_folder(self.folder)
        self.set_aside([it for it in own if it not in (MOVED, "data")])
        if lexists(moved):
            for name in os.listdir(moved):
                if lexists(join(self.folder, name)):
                    raise BagError(f"{shown(name)} is there, and in {MOVED}")
                os.rename(join(moved, name), join(self.folder, name))
            sync_folder(self.folder)
            os.rmdir(moved)
            sync_folder(self.folder)

    def set_aside(self, names: List[str]) -> None:
        """Moves tag files of the making out of the folder."""
        if not names:
            return
        kept = kept_of(self.folder)
        os.mkdir(kept)
        for name in names:
            os.rename(join(self.folder, name), join(kept, name))
        sync_folder(kept)
        say(f"tag files of a making that was cut off are in {shown(kept)}")

    def make(self, may_be_bag: bool) -> int:
        """Makes the bag, or goes on; and says the status."""
        with alone(self.folder) as lock:
            goes_on = self.is_begun()
            if not goes_on:
                self.begin(may_be_bag)
            elif self.record["made"] or self.is_made():
                self.set_aside(self.tag_files(is_empty=True))
            else:
                self.go_back()
                goes_on = False
            if not goes_on:
                self.call(lock)
            return self.end(not self.late() and self.write(goes_on, lock))

    def begin(self, may_be_bag: bool) -> None:
        """Notes what the folder has, before anything is moved."""
        if not may_be_bag:
            look(self.folder)
        self.place.clear()
        self.record = {
            "folder": os.stat(self.folder).st_ino,
            "names": numbers_of(self.folder),
            "made": False,
        }
        self.place.note(**self.record)

    def call(self, lock: int) -> None:
        """Has `bagit` make the bag. If it can't, all is as it was."""
        try:
            make(self.folder, words_of_making(self.algorithms), lock)
        except BagError:
            if not self.is_made():
                self.go_back()
                self.place.clear()
            raise
        self.record["made"] = True
        self.place.note(**self.record)

    def write(self, goes_on: bool, lock: int) -> bool:
        """Has `bagit-renew` write the elements, and what a killed making left
        out. What came meanwhile it would have in its tag manifests."""
        words = [f"--append={label}={text}" for label, text in self.elements]
        if goes_on:
            words.append(f"--add={','.join(self.algorithms)}")
        try:
            if words:
                renew(self.folder, words, lock)
        except BagError as error:
            say(error)
            return False
        return True

    def end(self, is_written: bool) -> int:
        """Checks the bag, and names what came while it was made."""
        report = check(self.folder, Asked())
        late = self.late()
        for path in late:
            say(f"{shown(self.folder)}: {encoded(path)} came while the bag was"
                " made, and is in no manifest")
        is_done = report.status == 0 and is_written and not late
        if is_done:
            self.place.clear()
        return show(report) or (0 if is_done else 3)

    def late(self) -> List[bytes]:
        """The files that are beside `data`, and that no making writes. What a
        killed renewal left, the next one removes."""
        return [
            path
            for path in tag_files(os.fsencode(join(self.folder, "")))
            if path != b".bagit-begun"
            if not TAG_FILE.fullmatch(os.fsdecode(path))
        ]


def algorithms_in(text: str) -> List[str]:
    """The algorithms that are given, each once."""
    names = list(dict.fromkeys(text.split(",")))
    words_of_making(names)
    return names


def elements_given(file: str, words: Sequence[str]) -> List[Element]:
    """The elements of a file of JSON, then those of words, each as it will be
    written."""
    elements = []
    if file:
        try:
            given = json.loads(content_of(file))
        except ValueError as error:
            raise Refused(f"{shown(file)}: {error}") from error
        if not isinstance(given, dict):
            raise Refused(f"{shown(file)} has no object")
        elements = elements_in(given)
    for word in words:
        label, equals, value = word.partition("=")
        if not equals:
            raise Refused(f"{shown(word)} isn't LABEL=VALUE")
        elements.append((label, value))
    for label, value in elements:
        refuse_unwritable(label, value)
    return list(dict.fromkeys(elements))


def folders_of(words: Sequence[str], may_be_bags: bool) -> List[str]:
    """The whole paths of the folders, after a look at all."""
    folders = [folder_of(word) for word in words]
    for folder in folders:
        others = [it for it in folders if it != folder]
        if any(folder.startswith(join(other, "")) for other in others):
            raise Refused(f"{shown(folder)} lies in another of the folders")
        with reading(folder):
            is_begun = Making(folder, [], []).is_begun()
        if not is_begun and not may_be_bags:
            look(folder)
    return list(dict.fromkeys(folders))


def run(words: Sequence[str]) -> int:
    """Does what the command `make` is asked for, and says its status."""
    asked = read("make", words, 1, MANY)
    try:
        algorithms = algorithms_in(asked.algorithms or "sha256,sha512")
        elements = elements_given(asked.labels, asked.label)
    except BagError as error:
        raise Refused(str(error)) from error
    if find() is None or elements and find_renew() is None:
        raise Refused("there is no program bagit, or no bagit-renew", 3)
    status, may_be_bags = 0, bool(asked.bag_in_bag)
    for folder in folders_of(asked.operands, may_be_bags):
        making = Making(folder, algorithms, elements)
        try:
            status = max(status, making.make(may_be_bags))
        except (BagError, OSError) as error:
            say(explained(error) if isinstance(error, OSError) else error)
            status = 3
    return status
