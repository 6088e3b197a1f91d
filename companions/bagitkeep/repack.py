"""`bagit-keep repack`: the payload of a bag is changed, by a new bag."""
import os
import re
from dataclasses import dataclass
from os.path import basename, isdir, join, lexists
from typing import List, Optional, Sequence

from .bagit import Entries, content_of, entries_in, manifests_in, reading
from .beside import checked, folder_of, path_in_bag, replaced
from .errors import BagError
from .mending import (
    Changes, Entry, build, changed, is_old,
)
from .messages import Refused, shown
from .seal import payload_of
from .trees import PlaceOf, link_tree
from .usage import MANY, read

OXUM = re.compile(
    rb"^(payload-oxum[ \t]*:[ \t]*)\d+\.\d+[ \t]*\r?$", re.IGNORECASE | re.M
)


def is_at(path: str, above: str) -> bool:
    """Whether a path is this one, or lies below it."""
    return path == above or path.startswith(f"{above}/")


def payload_path(word: str) -> str:
    path = path_in_bag(word)
    if not path.startswith("data/"):
        raise Refused(f"{shown(word)} doesn't begin with data/")
    return path


@dataclass(frozen=True)
class Change:
    """What becomes of a payload: `place_of` says which path a file is to
    have; each of `paths` has to be there, and `new` mustn't. The payload of
    the bag `other` is added, at the path `to`."""

    place_of: PlaceOf
    paths: Sequence[str] = ()
    new: str = ""
    other: Optional[str] = None
    to: str = "data"

    def make(self, bag: str, work: str) -> None:
        """Makes the new bag in a folder."""
        checked(bag)
        for path in self.paths:
            if not lexists(join(bag, path)):
                raise Refused(f"{shown(bag)} has no {shown(path)}")
        if self.new and lexists(join(bag, self.new)):
            raise Refused(f"{shown(bag)} has {shown(self.new)} already")
        link_tree(bag, work, self.place_of_payload)
        entries: Entries = {}
        if self.other is not None:
            checked(self.other)
            entries = entries_in(self.other, False, is_old(self.other))
            link_tree(self.other, work, self.place_of_other)
        changes: Changes = {
            basename(path): self.manifest(bag, algorithm, path, entries)
            for algorithm, path in manifests_in(bag, False).items()
        }
        info = join(bag, "bag-info.txt")
        if lexists(info):
            files, size = payload_of(work)
            oxum = b"\\g<1>%d.%d" % (size, files)
            changes["bag-info.txt"] = OXUM.sub(oxum, content_of(info))
        build(bag, work, changes)

    def place_of_payload(self, path: str) -> Optional[str]:
        return self.place_of(path) if is_at(path, "data") else None

    def place_of_other(self, path: str) -> Optional[str]:
        return self.to + path[len("data"):] if is_at(path, "data") else None

    def manifest(
        self,
        bag: str,
        algorithm: str,
        path: str,
        entries: Entries,
    ) -> bytes:
        """A payload manifest of the bag, as it is to be."""

        def change(path: str, digest: str) -> Optional[Entry]:
            place = self.place_of(path)
            return None if place is None else (place, digest)

        added = [
            (self.to + path[len("data"):], sums.get(algorithm, ""))
            for path, sums in entries.items()
        ]
        if not all(digest for _, digest in added):
            raise BagError(
                f"{shown(self.other or '')} lacks digests by {algorithm}: add"
                " them by bagit-renew"
            )
        return changed(content_of(path), is_old(bag), change, added)


def change_of(words: List[str], to: Optional[str]) -> Change:
    """The change that these words ask for."""
    what, *rest = words or [""]
    if to is not None and what != "add":
        raise Refused("--to is for add")
    if what == "add" and len(rest) == 1:
        other = os.path.realpath(rest[0])
        if not isdir(other):
            raise Refused(f"{shown(rest[0])} isn't a folder")
        at = payload_path(to) if to is not None else "data"
        return Change(lambda it: it, other=other, to=at)
    paths = [payload_path(it) for it in rest]
    if what == "remove" and paths:
        return Change(
            lambda it: None if any(is_at(it, gone) for gone in paths) else it,
            paths,
        )
    if what == "rename" and len(paths) == 2:
        old, new = paths
        return Change(
            lambda it: new + it[len(old):] if is_at(it, old) else it,
            [old],
            new,
        )
    raise Refused("it takes a bag, and add, remove or rename, with paths")


def run(words: Sequence[str]) -> int:
    """Does what the command `repack` is asked for, and says its status."""
    asked = read("repack", words, 2, MANY)
    bag = folder_of(asked.operands[0])
    change = change_of(asked.operands[1:], asked.to)
    with reading(bag):
        return replaced(
            bag,
            "repack",
            [*asked.operands[1:], asked.to or ""],
            lambda work: change.make(bag, work),
        )
