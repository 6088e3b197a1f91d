"""Runs of `bagit`, and what they say of a bag.

A verdict is an exit status and the closing line that belongs to it. A status
without its line, a line without its status, a crash, a kill or a program that
isn't there are status 3: nothing is known of the bag.

Each run is one process, started without a shell, in a process group of its
own. Whatever ends this process, a kill too, none goes on without it: a guard,
which waits at the end of a pipe that this process alone holds, then kills all
that have the guard's mark in their environment.
"""
import os
import shutil
import signal
import subprocess
import sys
import threading
from concurrent.futures import FIRST_EXCEPTION, ThreadPoolExecutor, wait
from contextlib import AbstractContextManager, suppress
from dataclasses import dataclass, field
from typing import IO, Callable, List, Optional, Sequence, Set, Tuple

from .files import Path, read_bytes
from .lines import VERDICTS, Closing, Report, report_of
from .messages import Refused, explained, first_line
from .seal import is_tar

LONGEST_STOP = 10
LONGEST_WAIT = 2_147_483
"""The seconds that a process can be waited for: the milliseconds of one more
are no `int` of C."""

MARK = "BAGIT_KEEP_GUARD"

GUARD = """
import os, sys, time
mark, left = sys.argv[1].encode(), 1 if os.read(0, 1) else 100
while left:
    left -= 1
    for number in filter(str.isdigit, os.listdir("/proc")):
        try:
            with open(f"/proc/{number}/environ", "rb") as file:
                if mark in file.read().split(b"\\0"):
                    os.kill(int(number), 9)
                    left = max(left, 1)
        except OSError:
            pass
    time.sleep(0.01)
"""

Process = subprocess.Popen  # of bytes


class Stopped(Exception):
    """No process is started any more."""


@dataclass(frozen=True)
class Asked:
    """What a check looks at: a depth, which is a key of VERDICTS; clashes of
    names; a profile, which is a file; and, if this isn't all, the part K of N,
    after a line of its report."""

    depth: str = "full"
    clashes: bool = False
    profile: Optional[Path] = None
    part: Optional[Tuple[int, int]] = None
    after: Optional[str] = None
    quiet: bool = False

    def words(self) -> List[Path]:
        """The arguments that ask for it."""
        given = {
            f"--{self.depth}": self.depth != "full",
            "--clashes": self.clashes,
            "--quiet": self.quiet,
            "--profile": self.profile,
            "--part": self.part and "{}/{}".format(*self.part),
            "--after": self.after,
        }
        words: List[Path] = ["--validate"]
        for option, value in given.items():
            if value:
                words += [option] if value is True else [option, value]
        return words

    def is_answered(self, closing: Closing) -> bool:
        """Whether a closing line is one of such a check."""
        if closing.ended == "unread":
            return True
        if self.part is None:
            return closing.ended in (VERDICTS[self.depth], "has faults")
        ended = "done" if self.after is None else "rest done"
        is_of_it = (closing.part, closing.parts) == self.part
        return closing.ended == ended and is_of_it


@dataclass(frozen=True)
class Ended:
    """How a process ended: by its status, which is negative if a signal
    killed it, and the first line of its messages. Without a status `message`
    says why there is none."""

    status: Optional[int]
    message: str = ""

    def described(self) -> str:
        """The same for people, where it is no answer."""
        if self.status is None:
            return f"bagit {self.message}"
        text = f"bagit ended with {self.status}"
        if self.status < 0:
            text = f"bagit was killed by signal {-self.status}"
        elif self.status < 2:
            text += ", without its closing line"
        return f"{text}: {self.message}" if self.message else text


@dataclass(frozen=True)
class Verdict:
    """What a check says: 0 without faults, 1 with faults, 3 nothing is known.

    `result` is the closing line, or says why there is none; `closing` is that
    line where the status belongs to it. `faults` are those of the report, so
    of status 3 those that were found before. `message` is what `bagit` wrote
    on its standard error.
    """

    status: int
    result: str
    faults: int
    closing: Optional[Closing] = field(default=None, compare=False)
    message: str = field(default="", compare=False)


def verdict_of(
    ended: Ended, report: Report, name: str, asked: Asked
) -> Verdict:
    """The verdict of a check of the bag of this name."""
    closing = report.closing
    if (
        closing is not None
        and closing.bag == name
        and asked.is_answered(closing)
        and closing.status == ended.status
    ):
        status, text = closing.status, closing.text
        return Verdict(status, text, report.faults, closing, ended.message)
    return Verdict(3, ended.described(), report.faults)


def sought() -> str:
    """The name of `bagit`: what the variable BAGIT says, or this."""
    return os.environ.get("BAGIT") or "bagit"


def find(name: Optional[str] = None) -> Optional[str]:
    """The path of `bagit`, or of this program; None where there is none."""
    path = shutil.which(name or sought())
    return path and os.path.abspath(path)


def needed() -> str:
    """The path of `bagit`, which has to be there."""
    found = find()
    if found is None:
        raise Refused(f"there is no program {sought()}", 3)
    return found


def read_profile(name: Optional[str]) -> Optional[bytes]:
    """A profile's bytes; bagit says whether it is a profile before it comes
    to a folder."""
    if name is None:
        return None
    path = os.path.abspath(name)
    try:
        profile = read_bytes(path)
    except OSError as error:
        text = f"the profile can't be read: {explained(error)}"
        raise Refused(text, 3) from error
    words = [*Asked(profile=path).words(), "--", os.devnull]
    with Program(sought()) as program, open(os.devnull, "wb") as out:
        tried = program.run(words, out)
    if tried.status == 2:
        raise Refused(tried.message)
    return profile


def named(directory: Path) -> Tuple[str, Optional[bytes]]:
    """The name that `bagit` is told, and where it is run. It takes no name
    that isn't UTF-8: such a folder is `.`, and `bagit` is run in there."""
    path = os.fsencode(directory)
    try:
        return path.decode("utf-8"), None
    except UnicodeDecodeError:
        if is_tar(path):
            folder, name = os.path.split(path)
            return name.decode("utf-8", "replace"), folder
        return ".", path


def kill(process: "Process[bytes]") -> None:
    """Kills a process, and all that it has started in its group."""
    with suppress(ProcessLookupError, PermissionError):
        os.killpg(process.pid, signal.SIGKILL)


class Program(AbstractContextManager["Program"]):
    """The program at a path, and its processes that are `running`.

    Several threads may run it at once. It is to be stopped in the end; in a
    `with` statement it is. Its processes hold an open file, too, such as a
    lock. None is started any more once it is `stopped`. `at_work` and `done`
    are the numbers that `each` is at, and was at.
    """

    def __init__(self, path: Path, held: Optional[int] = None) -> None:
        self.path = path
        self._held = () if held is None else (held,)
        self._lock = threading.Lock()
        self.running: Set["Process[bytes]"] = set()
        self.stopped = threading.Event()
        self._mark = os.urandom(16).hex()
        self._guard: Optional["Process[bytes]"] = None
        self.at_work: List[int] = []
        self.done: List[int] = []

    def __exit__(self, *error: object) -> None:
        self.stop()

    def run(
        self,
        words: Sequence[Path],
        out: IO[bytes],
        folder: Optional[Path] = None,
        seconds: Optional[float] = None,
    ) -> Ended:
        """Runs it with these arguments, in this folder, for at most so many
        seconds, or LONGEST_WAIT. Its standard output is `out`.

        It isn't run where no status would be had: the system keeps none for
        a process that ignores SIGCHLD, and Python then takes it for 0.
        """
        if signal.getsignal(signal.SIGCHLD) == signal.SIG_IGN:
            return Ended(None, "couldn't be run: SIGCHLD is ignored here")
        try:
            process = self._start(words, out, folder)
        except OSError as error:
            return Ended(None, f"couldn't be run: {error.strerror}")
        seconds = None if seconds is None else min(seconds, LONGEST_WAIT)
        with process:
            try:
                _, messages = process.communicate(timeout=seconds)
                return Ended(process.returncode, first_line(messages))
            except subprocess.TimeoutExpired:
                kill(process)  # what it has started, too, if it has ended
                return Ended(None, f"was killed after {seconds:g} seconds")
            finally:
                if process.poll() is None:
                    kill(process)
                with self._lock:
                    self.running.discard(process)

    def check(
        self,
        directory: Path,
        asked: Asked,
        out: IO[bytes],
        seconds: Optional[float] = None,
    ) -> Verdict:
        """Checks the bag at a directory, or in a .tar. The report is left in
        `out`, a file that is empty, and can be read and written."""
        name, folder = named(directory)
        tar = ["--tar"] if is_tar(directory) else []
        words = [*asked.words(), *tar, "--", name.encode()]
        ended = self.run(words, out, folder, seconds)
        out.seek(0)
        return verdict_of(ended, report_of(out), name, asked)

    def each(
        self, work: Callable[[int], None], numbers: Sequence[int], jobs: int
    ) -> None:
        """Does the work for these numbers, so many at a time. If it fails for
        one, or this is interrupted, all processes are killed, and no other is
        started."""
        left, jobs = iter(numbers), min(jobs, len(numbers))

        def take() -> Optional[int]:
            with self._lock:
                return None if self.stopped.is_set() else next(left, None)

        def do() -> None:
            for number in iter(take, None):
                self.at_work.append(number)
                try:
                    work(number)
                finally:
                    self.at_work.remove(number)
                    self.done.append(number)

        pool = ThreadPoolExecutor(jobs)
        try:
            begun = [pool.submit(do) for _ in range(jobs)]
            for it in wait(begun, return_when=FIRST_EXCEPTION).done:
                it.result()
        except BaseException:
            self.stop()
            pool.shutdown(False)
            raise
        pool.shutdown()

    def stop(self) -> None:
        """Kills all processes, and starts none any more. One that hangs in
        the system, as on a disk that is gone, isn't waited for."""
        with self._lock:
            self.stopped.set()
            for process in self.running:
                kill(process)
            if self._guard is not None:
                with suppress(subprocess.TimeoutExpired):
                    self._guard.communicate(b"x", LONGEST_STOP)
                self._guard = None

    def _start(
        self, words: Sequence[Path], out: IO[bytes], folder: Optional[Path]
    ) -> "Process[bytes]":
        with self._lock:
            if self.stopped.is_set():
                raise Stopped
            if self._guard is None:
                self._guard = self._begin_guard()
            process = subprocess.Popen(
                [self.path, *words],
                stdin=subprocess.DEVNULL,
                stdout=out,
                stderr=subprocess.PIPE,
                cwd=folder,
                env={**os.environ, MARK: self._mark},
                start_new_session=True,
                pass_fds=self._held,
            )
            self.running.add(process)
            return process

    def _begin_guard(self) -> "Process[bytes]":
        python = sys.executable or "python3"
        return subprocess.Popen(
            [python, "-IS", "-c", GUARD, f"{MARK}={self._mark}"],
            stdin=subprocess.PIPE,
            stdout=subprocess.DEVNULL,
            stderr=subprocess.DEVNULL,
            cwd="/",
            start_new_session=True,
        )
