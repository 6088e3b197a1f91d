"""The fingerprint of a bag, which says whether it is the same still.

It is the SHA-256 of a listing: a line for the bag's folder and each thing
below it, with its path, type, size, times in nanoseconds, inode, and device.
No clock is asked. Devices are counted as they come, the bag's own being 0,
since each machine has other numbers for the same ones. A disk that was
cloned, inodes and times and all, has the fingerprint of the first.
"""
import hashlib
import heapq
import os
import stat
from dataclasses import dataclass
from itertools import groupby
from os.path import join
from typing import IO, Dict, Iterable, Iterator, List, Optional

from .files import Path
from .lines import encoded

SECOND = 10**9


@dataclass(frozen=True)
class Fingerprint:
    """The digest of a listing; how many files, and bytes of them, it has; and
    whether a time in it is of whole seconds."""

    digest: str
    files: int
    size: int
    is_coarse: bool


def listing(directory: Path) -> Iterator[str]:
    """A line for a bag and all that is below it, in the order of `place`; of
    the bag in a .tar for this file. A link that names the bag is in the bag's
    line, too: it may have named another one for a while."""
    devices: Dict[int, int] = {}
    left = [("-", os.fsencode(directory))]
    while left:
        path, name = left.pop()
        it = os.stat(name, follow_symlinks=path == "-")
        device = devices.setdefault(it.st_dev, len(devices))
        kind = stat.S_IFMT(it.st_mode)
        times = f"{it.st_mtime_ns} {it.st_ctime_ns}"
        link = os.lstat(name.rstrip(b"/") or b"/") if path == "-" else it
        if link.st_ino != it.st_ino or link.st_dev != it.st_dev:
            times += f" {link.st_ctime_ns} {link.st_ino}"
        yield f"{path} {kind:o} {it.st_size} {times} {it.st_ino} {device}\n"
        if kind == stat.S_IFDIR:
            above = "" if path == "-" else f"{path}/"
            below = {above + encoded(one): one for one in os.listdir(name)}
            for path in sorted(below, reverse=True):
                left.append((path, join(name, below[path])))


def fingerprint(
    directory: Path, out: Optional[IO[str]] = None
) -> Fingerprint:
    """The fingerprint of a bag, whose listing is written."""
    digest, files, size, is_coarse = hashlib.sha256(), 0, 0, False
    for line in listing(directory):
        _, kind, count, _, changed, *_ = line.split(" ")
        if int(kind, 8) != stat.S_IFDIR:
            files, size = files + 1, size + int(count)
        is_coarse = is_coarse or int(changed) % SECOND == 0
        digest.update(line.encode())
        if out is not None:
            out.write(line)
    return Fingerprint(digest.hexdigest(), files, size, is_coarse)


def place(line: str) -> List[str]:
    """The names on the way to what a line is of."""
    path = line.partition(" ")[0]
    return [] if path == "-" else path.split("/")


def difference(old: Iterable[str], new: Iterable[str]) -> Optional[str]:
    """The path of the first file that differs between two listings, or else
    of the first folder, which may be the bag's."""
    folder: Optional[str] = None
    for names, both in groupby(heapq.merge(old, new, key=place), place):
        first, *others = both
        if others != [first]:
            if int(first.split(" ")[1], 8) != stat.S_IFDIR:
                return "/".join(names)
            folder = "/".join(names) if folder is None else folder
    return folder


def altered(directory: Path, kept: str) -> str:
    """What of a bag differs from its kept listing."""
    with open(kept, encoding="ascii") as file:
        path = difference(file, listing(directory))
    name = encoded(os.fsencode(directory))
    return join(name, path) if path else name
