"""Runs of `bagit` and `bagit-renew` for one bag, with what they answer."""
import fcntl
import os
import tempfile
from concurrent.futures import ThreadPoolExecutor, wait
from contextlib import contextmanager
from dataclasses import dataclass, field
from typing import IO, Callable, Iterator, List, Optional, Sequence

from .errors import BagError, BagNotChecked, Unread
from .files import EXCLUSIVE, has_lock, locked
from .lines import Fault, Unchecked, encoded, line_of
from .messages import printable
from .program import Asked, Ended, Program, Verdict, find, named
from .progress import bytes_of, read_by

MOST_SHOWN = 1 << 16
SECONDS = 1.0

Tell = Callable[[int, int], None]
"""Is told how many bytes were read, and how many the payload has."""


@dataclass(frozen=True)
class BagReport:
    """What a check says of a bag.

    `status` is 0 without faults, 1 with faults, and 3 where something is
    `unread`: then the faults are those that were found before. `result` is
    the closing line, and `unchecked` are keys of a profile. `message` names
    what the system refused.
    """

    status: int
    result: str
    faults: List[Fault] = field(default_factory=list)
    unread: Optional[Unread] = None
    unchecked: List[str] = field(default_factory=list)
    message: str = ""


def report_from(verdict: Verdict, out: IO[bytes]) -> BagReport:
    """The report of a check, or BagNotChecked where it gave no verdict."""
    closing = verdict.closing
    if closing is None:
        raise BagNotChecked(verdict.result)
    out.seek(0)
    lines = [line_of(text) for text in out]
    unread = None
    if closing.ended == "unread":
        unread = Unread(closing.path or "", closing.cause or "")
    return BagReport(
        verdict.status,
        verdict.result,
        [line for line in lines if isinstance(line, Fault)],
        unread,
        [line.key for line in lines if isinstance(line, Unchecked)],
        verdict.message.removeprefix("bagit: "),
    )


def check(
    path: str,
    asked: Asked,
    tell: Optional[Tell] = None,
    seconds: Optional[float] = None,
) -> BagReport:
    """Checks the bag at a path, for at most so many seconds."""
    found = find()
    if found is None:
        raise BagNotChecked("there is no program bagit")
    with Program(found) as program, tempfile.TemporaryFile() as out:

        def work() -> Verdict:
            return program.check(path, asked, out, seconds)

        verdict = work() if tell is None else told(program, path, work, tell)
        return report_from(verdict, out)


def told(
    program: Program, path: str, work: Callable[[], Verdict], tell: Tell
) -> Verdict:
    """Does the work, and tells each second how far it is. What `tell` raises
    ends the work."""
    with ThreadPoolExecutor(1) as pool:
        begun = pool.submit(work)
        try:
            size = bytes_of(os.fsencode(path))
            while not wait([begun], SECONDS).done:
                tell(min(read_by(program), size), size)
            return begun.result()
        finally:
            program.stop()


def answered(
    found: Optional[str],
    path: str,
    words: Sequence[str],
    ending: str,
    lock: Optional[int],
) -> None:
    """Runs a program that changes a folder. It has done so if it ends with 0,
    and its output is the folder's name and this ending; else a BagError. It
    holds a lock too, while it runs."""
    if found is None:
        raise BagError("there is no program bagit, or no bagit-renew")
    name, folder = named(path)
    with Program(found, lock) as program, tempfile.TemporaryFile() as out:
        ended = program.run([*words, "--", name], out, folder)
        out.seek(0)
        text = out.read(MOST_SHOWN).decode("ascii", "backslashreplace")
    if ended.status != 0 or text != f"{encoded(name)} {ending}\n":
        raise BagError(refusal(ended, text))


def refusal(ended: Ended, text: str) -> str:
    """Why nothing was done, or not all: the program's line, if it wrote one
    and ended by itself."""
    line = text.partition("\n")[0]
    if ended.status in (1, 3) and " not " in line:
        return printable(line)
    return ended.described()


def make(
    path: str, words: Sequence[str], lock: Optional[int] = None
) -> None:
    """Makes the folder at a path a bag."""
    answered(find(), path, words, "made", lock)


def renew(
    path: str, words: Sequence[str], lock: Optional[int] = None
) -> None:
    """Renews the bag at a path."""
    answered(find_renew(), path, words, "renewed", lock)


def find_renew() -> Optional[str]:
    """The path of `bagit-renew`: of the program that the variable BAGIT_RENEW
    names, else of the one beside `bagit`, else of the first one on PATH."""
    name = os.environ.get("BAGIT_RENEW")
    if name:
        return find(name)
    found = find()
    beside = found and os.path.join(os.path.dirname(found), "bagit-renew")
    return (find(beside) if beside else None) or find("bagit-renew")


@contextmanager
def alone(path: str, bag: Optional[str] = None) -> Iterator[int]:
    """Refuses a second one that would write to the bag at a path, or to what
    is to become this bag, at the same time. This is the lock, an open folder.
    Where the system has no locks a file beside the bag stands for it."""
    folder = os.open(path, os.O_RDONLY | os.O_DIRECTORY)
    claim = os.path.realpath(bag or path) + ".locked"
    try:
        is_locked = has_lock(fcntl.flock, folder, EXCLUSIVE)
        with locked(is_locked, claim, "another process is writing this bag"):
            if not os.path.samestat(os.fstat(folder), os.stat(path)):
                raise BagError("another process has replaced this bag")
            yield folder
    finally:
        os.close(folder)
