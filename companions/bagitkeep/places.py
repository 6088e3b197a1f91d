"""Folders in which something is made, and names that are given once."""
import hashlib
import os
import shutil
from contextlib import contextmanager, suppress
from typing import Iterator

from .files import place, read_bytes, write_synced
from .messages import Refused, shown
from .runs import alone


class Work:
    """A folder that one process at a time works in. Unless it is to be kept,
    it is removed in the end; a killed process leaves it."""

    def __init__(self, path: str) -> None:
        self.path = path
        self.keep = False

    def at(self, name: str) -> str:
        return os.path.join(self.path, name)

    def clear(self) -> None:
        """Removes what a killed process left."""
        for name in os.listdir(self.path):
            path = self.at(name)
            if os.path.isdir(path) and not os.path.islink(path):
                shutil.rmtree(path)
            else:
                os.unlink(path)


def work_path(folder: str, kind: str, *key: str) -> str:
    """The path of the folder for this work: the same for the same key."""
    text = "\0".join(key).encode("utf-8", "surrogateescape")
    digest = hashlib.sha256(text).hexdigest()
    return os.path.join(folder, f".{kind}-{digest[:16]}")


@contextmanager
def work_at(path: str) -> Iterator[Work]:
    """The folder of this path, locked, with what a killed process left."""
    with suppress(FileExistsError):
        os.mkdir(path, 0o700)
    with alone(path):
        work = Work(path)
        try:
            yield work
        finally:
            if not work.keep:
                shutil.rmtree(path, ignore_errors=True)


def refuse_there(path: str) -> None:
    """Refuses a path at which something is."""
    if os.path.lexists(path):
        raise Refused(f"{shown(path)} is there already", 3)


def place_text(content: bytes, path: str) -> None:
    """Writes a file, whole, onto nothing; or it has these bytes already."""
    if os.path.lexists(path):
        if read_bytes(path) != content:
            text = f"{shown(path)} is there already, with other bytes"
            raise Refused(text, 3)
        return
    part = f"{path}.{os.urandom(4).hex()}.part"
    write_synced(part, content)
    place(part, path)
