"""The checks of a round: several at a time, each by a process of `bagit`."""
import fcntl
import os
import stat
import threading
import time
from contextlib import suppress
from functools import lru_cache
from os.path import join
from typing import IO, Any, Callable, List, Optional, Tuple, TypeVar

from . import __version__
from .files import (
    EXCLUSIVE, Path, give_name, has_lock, naming, random_name, sha256_of,
    sync_folder, text_of,
)
from .fingerprint import fingerprint
from .lines import encoded
from .messages import explained, now, say
from .program import Program, Verdict, find, named, sought
from .progress import Far, bytes_of, shown_while
from .rounds import Record, Round
from .seal import is_tar, payload_of, seal_of

Found = TypeVar("Found")


def obstacle(directory: bytes) -> Optional[str]:
    """Why a check can't even begin."""
    try:
        if stat.S_ISDIR(os.stat(directory).st_mode) or is_tar(directory):
            return None
    except FileNotFoundError:
        return "is not there"
    except OSError as error:
        return f"can't be read: {error.strerror}"
    return "is not a folder"


def found_of(path: Path, look: Callable[[Path], Found]) -> Optional[Found]:
    """What a look finds of a bag; None where something can't be read."""
    with suppress(OSError):
        return look(path)
    return None


@lru_cache(maxsize=8)
def digest_as(path: Path, state: str) -> str:
    """The SHA-256 of a file in a state, by which it is read once."""
    return sha256_of(path)


def digest_of(path: Path) -> str:
    """The SHA-256 of a file, which is read again if it was put anew."""
    return digest_as(path, fingerprint(path).digest)


class Checks:
    """The checks of bags of a round, for so many seconds at most. `worst` is
    the greatest status that wasn't put into the round."""

    def __init__(self, a_round: Round, seconds: Optional[float]) -> None:
        self.round, self.seconds, self.worst = a_round, seconds, 0
        self.program = Program(find() or sought())
        self._locks: Optional[IO[bytes]] = None
        self._writing = threading.Lock()
        host = encoded(os.uname().nodename).replace("/", "%2F")
        name = f"{host}-{os.getpid()}-".encode() + random_name() + b".jsonl"
        self._records = join(a_round.folder, b"records", name)

    def run(
        self, numbers: List[int], jobs: Optional[int], is_told: bool
    ) -> None:
        """Checks the bags of these numbers, so many at a time, or as many as
        there are processors."""
        folder, bags = self.round.folder, self.round.directories
        for name in b"reports", b"tries", b"records":
            os.makedirs(join(folder, name), exist_ok=True)
        far = Far(
            self.program, "bags", numbers, lambda it: encoded(bags[it - 1]),
            lambda it: bytes_of(bags[it - 1]),
        )
        with open(join(folder, b"lock"), "ab") as self._locks:
            jobs = jobs or len(os.sched_getaffinity(0))
            with self.program, shown_while(far, is_told):
                self.program.each(self.begin, numbers, jobs)
        for name in b"reports", b"records":
            sync_folder(join(folder, name))

    def begin(self, number: int) -> None:
        """Checks the bag of a number, unless another process is at it.

        Whatever happens is a message: the status of the round is taken from
        what is in its folder. The file of locks is opened once, since a
        process that closes one of its files loses its locks there.
        """
        directory = self.round.directories[number - 1]
        is_locked = has_lock(fcntl.lockf, self._locks, EXCLUSIVE, 1, number)
        try:
            if is_locked is False:
                say(
                    f"{encoded(directory)} is being checked by another"
                    " process of this round"
                )
            elif not os.path.lexists(self.round.report_path(number)):
                self.try_bag(number, directory, bool(is_locked))
        except OSError as error:
            say(f"{encoded(directory)}: {explained(error)}")
        finally:
            if is_locked:
                has_lock(fcntl.lockf, self._locks, fcntl.LOCK_UN, 1, number)

    def try_bag(self, number: int, directory: bytes, is_alone: bool) -> None:
        """Checks a bag, and leaves its record and its report."""
        begun, why = now(), obstacle(directory)
        real = os.path.realpath(directory)
        if find() is None:
            why = why or f"was not checked: there is no program {sought()}"
        if why is not None:
            why = f"{encoded(directory)} {why}"
            self.note(number, real, begun, why)
            say(why)
            return
        file = self.round.new_try(number)
        with naming(file), open(file, "x+b") as out:
            verdict, seal = self.check(directory, out)
            if verdict.status != 3 and os.path.realpath(directory) != real:
                why = "it names another folder than when its check began"
                verdict = Verdict(3, why, verdict.faults)
            os.fsync(out)
        if verdict.status == 3 and self.program.stopped.is_set():
            return
        path = self.round.report_path(number) if verdict.status != 3 else file
        files, size = found_of(directory, payload_of) or (None, None)
        self.note(
            number,
            real,
            begun,
            verdict.result if verdict.closing is None else None,
            version=__version__,
            bagit_sha256=found_of(self.program.path, digest_of),
            report=os.path.relpath(path, self.round.folder).decode(),
            report_sha256=sha256_of(file),
            seal=seal,
            files=files,
            size=size,
        )
        if verdict.status != 3:
            file = self.publish(number, file, verdict, is_alone)
        if verdict.status != 0:
            say(told_of(directory, verdict, file))

    def note(
        self,
        number: int,
        real: bytes,
        begun: str,
        why: Optional[str],
        **known: Any,
    ) -> None:
        """Writes a line for a check that has ended, and syncs it. It begins a
        line of its own, also below one that was cut off."""
        bag = self.round.directories[number - 1]
        record = Record(
            number, text_of(bag), text_of(real), begun, now(),
            time.time_ns(), why, **known,
        )
        with naming(self._records), self._writing:
            with open(self._records, "ab") as file:
                file.write(b"\n" + record.line())
                file.flush()
                os.fsync(file)

    def check(
        self, directory: bytes, out: IO[bytes]
    ) -> Tuple[Verdict, Optional[str]]:
        """What `bagit` says of a bag, and its seal. If its tag files are
        altered meanwhile, nothing is known of it."""
        seal, asked = found_of(directory, seal_of), self.round.asked
        verdict = self.program.check(directory, asked, out, self.seconds)
        if verdict.status == 3:
            return verdict, None
        if found_of(directory, seal_of) != seal:
            why = "its tag files were altered while it was checked"
            return Verdict(3, why, verdict.faults), None
        return verdict, seal

    def publish(
        self, number: int, file: bytes, verdict: Verdict, is_alone: bool
    ) -> bytes:
        """Gives a report its name, and removes those of earlier tries; says
        where the report is. If another process has given one, that stands."""
        path = self.round.report_path(number)
        try:
            give_name(file, path)
        except FileExistsError:
            self.worst = max(self.worst, verdict.status)
            return file
        for name in self.round.take_tries(number) if is_alone else ():
            with suppress(OSError):
                os.unlink(name)
        return path


def told_of(directory: bytes, verdict: Verdict, file: bytes) -> str:
    """How a bag is that isn't without faults, for people."""
    is_named = verdict.closing is not None and named(directory)[1] is None
    name = "" if is_named else f"{encoded(directory)}: "
    where = f" ({encoded(file)})" if verdict.faults else ""
    return f"{name}{verdict.result}{where}"
