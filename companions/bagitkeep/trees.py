"""Files and folders that are made beside others, and are on the disk then."""
import hashlib
import os
import shutil
import stat
from contextlib import suppress
from os.path import dirname, isdir, join
from typing import IO, Callable, Dict, Iterable, Optional

from .errors import BagError
from .files import PIECE, opened, sync_folder
from .messages import shown

PlaceOf = Callable[[str], Optional[str]]
"""Says which path a path is to have; None if it is left out."""


def settle(file: int) -> None:
    """Syncs an open file, and gives its pages up, so that whoever reads it
    next reads the disk."""
    os.fsync(file)
    os.posix_fadvise(file, 0, 0, os.POSIX_FADV_DONTNEED)


def copied(
    stream: IO[bytes], to: str, algorithms: Iterable[str] = ()
) -> Dict[str, str]:
    """Writes a stream into a new file, and says its digests. Its pages are
    given up, so that who reads it next reads the disk."""
    sums = {it: hashlib.new(it, usedforsecurity=False) for it in algorithms}
    with open(to, "xb") as file:
        while piece := stream.read(PIECE):
            file.write(piece)
            for digest in sums.values():
                digest.update(piece)
        file.flush()
        settle(file.fileno())
    return {name: digest.hexdigest() for name, digest in sums.items()}


def dress(path: str, like: str) -> None:
    """Gives what is new the mode, the owner and the group of another. Where
    the owner or the group can't be given, the group and all others may do
    what both could."""
    wanted = os.stat(like, follow_symlinks=False)
    mode = stat.S_IMODE(wanted.st_mode)
    try:
        os.chown(path, wanted.st_uid, wanted.st_gid)
    except OSError:
        both = mode & mode >> 3 & 7
        mode = mode & 0o700 | both << 3 | both
    os.chmod(path, mode)


def link(path: str, to: str) -> None:
    """Gives a file another name, or copies it where that can't be done."""
    if not stat.S_ISREG(os.stat(path, follow_symlinks=False).st_mode):
        raise BagError(f"{shown(path)} is neither a file nor a folder")
    try:
        os.link(path, to, follow_symlinks=False)
    except FileExistsError as error:
        raise BagError(f"{shown(to)} is there twice") from error
    except OSError:
        with opened(path) as stream:
            copied(stream, to)
        dress(to, path)
        shutil.copystat(path, to)


def make_folders(folder: str, like: str) -> None:
    """Makes a folder and those above it, dressed as another. They are on the
    disk then."""
    if not isdir(folder):
        make_folders(dirname(folder), like)
        os.mkdir(folder)
        dress(folder, like)
        sync_folder(dirname(folder))


def prune(folder: str) -> None:
    """Removes a folder, and those below it, where there is no file."""
    for path, _, _ in os.walk(folder, topdown=False):
        with suppress(OSError):
            os.rmdir(path)


def link_tree(source: str, to: str, place_of: PlaceOf) -> None:
    """Gives the files below a folder names below another, each at the path
    that `place_of` says, and makes folders as those there."""
    folders, made = [""], []
    for above in folders:
        with os.scandir(join(source, above)) as entries:
            for entry in entries:
                path = f"{above}{entry.name}"
                place = place_of(path)
                if place is None:
                    continue
                target = join(to, place)
                if entry.is_dir(follow_symlinks=False):
                    folders.append(f"{path}/")
                    if not isdir(target):
                        made.append((entry.path, target))
                        make_folders(target, to)
                else:
                    make_folders(dirname(target), to)
                    link(entry.path, target)
    for old, new in reversed(made):
        shutil.copystat(old, new)
        dress(new, old)
        sync_folder(new)
