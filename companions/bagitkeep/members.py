"""The files and folders that come: listed, judged by their paths, unpacked.

A list is judged before anything of it is written. What no bag may have, or
systems take differently, is Unfit, by its name.
"""
import os
import stat
import unicodedata
from contextlib import suppress
from dataclasses import dataclass, field
from os.path import join
from typing import IO, Any, Callable, Dict, Iterable, Iterator, List, Optional

from .files import PIECE, opened, sync_folder
from .lines import encoded
from .messages import Refused
from .trees import settle

DEEPEST = 256
LONGEST = 4000
LONGEST_NAME = 255
MANY = 1 << 62
ANY_BYTES = "surrogateescape"


class Unfit(Refused):
    """What has come can't be taken in, and why."""

    def __init__(self, text: str) -> None:
        super().__init__(text, 3)


@dataclass(frozen=True)
class Member:
    """A file or a folder, by its path with no slash at its end. `source` is
    what it is read by."""

    path: str
    is_folder: bool
    size: int = 0
    time: Optional[float] = None
    source: Any = field(default=None, compare=False)


@dataclass
class Content:
    """What has come: its members, what opens a file of them, and what people
    should know of how it was read."""

    members: List[Member]
    open: Callable[[Member], IO[bytes]]
    remarks: List[str] = field(default_factory=list)


@dataclass
class Limits:
    """How many files and folders, and bytes of them, may still come."""

    files: int
    bytes: int

    def count(self, member: Member) -> Member:
        """Counts a member, or is Unfit."""
        self.files -= 1
        self.bytes -= member.size
        if min(self.files, self.bytes) < 0:
            what = "files and folders" if self.files < 0 else "bytes"
            raise Unfit(f"it has more {what} than there may be")
        return member


def room_in(folder: str, files: Optional[int], size: Optional[int]) -> Limits:
    """What may come into a folder: what is said, or else what fits."""
    found = os.statvfs(folder)
    inodes = found.f_favail if found.f_files else MANY
    room = found.f_bavail * found.f_frsize
    return Limits(
        inodes if files is None else files, room if size is None else size
    )


def folder_content(folder: str, limits: Optional[Limits] = None) -> Content:
    """What a folder has. No link is followed."""
    members, folders = [], [""]
    place = join(os.fsencode(folder), b"")
    for path in folders:
        with os.scandir(place + path.encode("utf-8")) as entries:
            for entry in sorted(entries, key=lambda it: it.name):
                name = path + entry.name.decode("utf-8", ANY_BYTES)
                members.append(found_member(name, entry))
                if limits is not None:
                    limits.count(members[-1])
                if members[-1].is_folder:
                    refuse_path(name)
                    folders.append(f"{name}/")
    return Content(members, lambda it: opened(it.source))


def found_member(path: str, entry: "os.DirEntry[bytes]") -> Member:
    """A file or a folder that is there, or Unfit."""
    found = entry.stat(follow_symlinks=False)
    is_folder = stat.S_ISDIR(found.st_mode)
    if not is_folder and not stat.S_ISREG(found.st_mode):
        is_link = stat.S_ISLNK(found.st_mode)
        what = "a link" if is_link else "a device or a pipe"
        raise Unfit(f"{encoded(path)} is {what}")
    size = 0 if is_folder else found.st_size
    return Member(path, is_folder, size, found.st_mtime, entry.path)


def refuse_path(path: str) -> None:
    """A path has to lead into the folder where it is unpacked."""
    parts, why = path.split("/"), None
    if path.startswith("/"):
        why = "is absolute"
    elif {"", ".", ".."} & set(parts):
        why = "has an empty part, . or .."
    elif "\0" in path:
        why = "has a byte of 0"
    elif any("\ud800" <= it <= "\udfff" for it in path):
        why = "isn't UTF-8; of a .zip --names says what it is"
    elif len(parts) > DEEPEST or len(path.encode("utf-8")) > LONGEST or any(
        len(it.encode("utf-8")) > LONGEST_NAME for it in parts
    ):
        why = "is too long"
    if why is not None:
        raise Unfit(f"the path {encoded(path)} {why}")


def key_of(path: str) -> str:
    """What paths have in common that differ by case or by normal form."""
    text = unicodedata.normalize("NFC", path).casefold()
    return unicodedata.normalize("NFC", text)


def folders_of(path: str) -> Iterator[str]:
    """The folders that a path leads through."""
    at = path.find("/")
    while at >= 0:
        yield path[:at]
        at = path.find("/", at + 1)


def refuse_twice(members: Iterable[Member]) -> None:
    """Each path is there once, also by case and by normal form. A folder may
    be listed again."""
    seen: Dict[str, Member] = {}
    for it in members:
        for path in [*folders_of(it.path), it.path]:
            new = Member(path, it.is_folder or path != it.path)
            known = seen.setdefault(key_of(path), new)
            if known is new or known == new and new.is_folder:
                continue
            why = f"{encoded(path)} is there twice"
            if known.path != path:
                both = f"{encoded(known.path)} and {encoded(path)}"
                why = f"{both} differ by case or normal form alone"
            raise Unfit(why)


def unpack(content: Content, folder: str) -> None:
    """Writes the members into an empty folder, where they are on the disk
    then, and sees that they, and nothing else, are there."""
    place = join(os.fsencode(folder), b"")
    wanted: Dict[str, int] = {}
    folders = [place]
    for it in content.members:
        for path in [*folders_of(it.path), *[it.path] * it.is_folder]:
            if path not in wanted:
                folders.append(place + path.encode("utf-8"))
                os.mkdir(folders[-1])
                wanted[path] = 0
        if not it.is_folder:
            write_member(content, it, place + it.path.encode("utf-8"))
            wanted[it.path] = it.size
    for made in folders:
        sync_folder(made)
    found = folder_content(folder).members
    if {it.path: it.size for it in found} != wanted:
        raise Unfit("what was unpacked isn't what was listed")


def write_member(content: Content, member: Member, path: bytes) -> None:
    """Writes a file, with as many bytes as were listed."""
    left = member.size
    with content.open(member) as source, open(path, "xb") as file:
        while left >= 0 and (piece := source.read(PIECE)):
            left -= len(piece)
            file.write(piece)
        if left:
            text = f"{encoded(member.path)} has not as many bytes as listed"
            raise Unfit(text)
        file.flush()
        settle(file.fileno())
    if member.time is not None:
        with suppress(OSError, OverflowError, ValueError):
            os.utime(path, (member.time, member.time))
