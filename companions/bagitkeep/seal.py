"""The seal of a bag: one digest of all its tag files.

A tag file is any file of the bag that isn't in `data`. The manifests are
among them, and they have the digests of the payload; so whoever takes files
out of a bag together with their lines alters its seal. It is the SHA-512 of
what this writes in the folder of the bag, where `sort` is by bytes:

    find . -path ./data -type d -prune -o -type f -printf '%P\\0' |
        sort -z | xargs -0r sha512sum -z --

The seal of a bag in a .tar is the SHA-512 of that file, so that it rests on
no reading of what is in it.
"""
import hashlib
import os
from typing import Dict, Iterator, Tuple

from .files import Path, digests_of, files_below, opened


def is_tar(path: Path) -> bool:
    """Whether a bag is in a .tar, which the name of a file says."""
    return os.fsencode(path)[-4:] == b".tar" and os.path.isfile(path)


def seal_of(directory: Path) -> str:
    """The seal of the bag at a directory, or in a .tar, in hex.

    An OSError where something can't be read, or is neither file nor folder.
    """
    if is_tar(directory):
        return sha512_of(os.path.realpath(os.fsencode(directory)))
    return seal_by(sums_of(directory))


def sums_of(directory: Path) -> Dict[bytes, str]:
    """The SHA-512 of each tag file of the bag at a directory, by its path."""
    place = os.path.join(os.fsencode(directory), b"")
    return {path: sha512_of(place + path) for path in tag_files(place)}


def seal_by(sums: Dict[bytes, str]) -> str:
    """The seal of a bag whose tag files have these digests."""
    seal = hashlib.sha512()
    for path in sorted(sums):
        seal.update(f"{sums[path]}  ".encode() + path + b"\0")
    return seal.hexdigest()


def tag_files(place: bytes) -> Iterator[bytes]:
    """The paths of all files but those in `data`, in a folder that is given
    with a slash at its end."""
    entries = files_below(place, [place + b"data"])
    return (entry.path[len(place):] for entry in entries)


def sha512_of(path: Path) -> str:
    """The SHA-512 of a file."""
    with opened(path) as file:
        return digests_of(file, ["sha512"])["sha512"]


def payload_of(directory: Path) -> Tuple[int, int]:
    """How many files, and how many bytes, are listed in `data`; a .tar is one
    file of its bytes."""
    if is_tar(directory):
        return 1, os.path.getsize(directory)
    files = count = 0
    for entry in files_below(os.path.join(os.fsencode(directory), b"data")):
        files += 1
        count += entry.stat(follow_symlinks=False).st_size
    return files, count
