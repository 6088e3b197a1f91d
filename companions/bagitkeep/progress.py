"""How far checks are."""
import os
import re
import sys
import threading
import time
from contextlib import contextmanager, suppress
from dataclasses import dataclass, field
from datetime import timedelta
from os.path import join
from typing import Callable, Dict, Iterator, Sequence

from .files import opened
from .messages import say
from .program import Program
from .seal import payload_of

TERMINAL_SECONDS, SECONDS = 1.0, 60.0
MOST_NAMES = 3
OXUM = re.compile(rb"(?im)^payload-oxum[ \t]*:[ \t]*(\d{1,20})\.\d+\s*$")


def size(count: float) -> str:
    """A number of bytes for people."""
    if count < 1000:
        return f"{count:.0f} bytes"
    for unit in ("kB", "MB", "GB", "TB"):
        count /= 1000
        if count < 1000:
            break
    return f"{count:.1f} {unit}"


def bytes_of(directory: bytes) -> int:
    """The bytes of a payload: by Payload-Oxum, else by its listing."""
    with suppress(OSError):
        with opened(join(directory, b"bag-info.txt")) as file:
            found = OXUM.search(file.read(1 << 20))
        if found:
            return int(found[1])
    with suppress(OSError):
        return payload_of(directory)[1]
    return 0


def read_by(program: Program) -> int:
    """How many bytes the processes at work have read."""
    count = 0
    for process in list(program.running):
        with suppress(OSError), open(f"/proc/{process.pid}/io") as file:
            count += int(file.readline().split()[1])
    return count


@dataclass(frozen=True)
class Far:
    """How far a program is with what has these numbers, names, and sizes in
    bytes, which are found beside its work."""

    program: Program
    what: str
    numbers: Sequence[int]
    name_of: Callable[[int], str]
    size_of: Callable[[int], int]
    sizes: Dict[int, int] = field(default_factory=dict)

    def measure(self) -> None:
        for number in self.numbers:
            self.sizes[number] = self.size_of(number)

    def line(self, seconds: float) -> str:
        """The same for people, after so many seconds."""
        done, at_work = list(self.program.done), list(self.program.at_work)
        read = sum(self.sizes.get(it, 0) for it in done)
        read += read_by(self.program)
        of, total, left = len(self.numbers), "?", "?"
        share = len(done) / of
        if len(self.sizes) == of:
            whole = sum(self.sizes.values())
            share, total = min(1, read / max(1, whole)), size(whole)
        with suppress(OverflowError, ZeroDivisionError):  # by a false oxum
            left = str(timedelta(seconds=int(seconds / share - seconds)))
        names = ", ".join(map(self.name_of, at_work[:MOST_NAMES]))
        if len(at_work) > MOST_NAMES:
            names += f" +{len(at_work) - MOST_NAMES}"
        return (
            f"{len(done)} of {of} {self.what}, {size(read)} of {total},"
            f" {left} left, at work: {names}"
        )


def write_over(text: str) -> None:
    """Writes a line over the last one of a terminal."""
    with suppress(OSError):
        width = (os.get_terminal_size(2).columns or 80) - 1
        os.write(2, f"\r{text[:width]:{width}}\r".encode())


@contextmanager
def shown_while(far: Far, is_asked: bool) -> Iterator[None]:
    """Says how far a program is, while it is at work: each second over the
    last line of a terminal, else each minute if it is asked for."""
    is_terminal = sys.stderr is not None and sys.stderr.isatty()
    if not is_asked and not is_terminal:
        yield
        return
    ended, begun = threading.Event(), time.monotonic()

    def speak() -> None:
        while not ended.wait(TERMINAL_SECONDS if is_terminal else SECONDS):
            text = far.line(time.monotonic() - begun)
            write_over(text) if is_terminal else say(text)
        if is_terminal:
            write_over("")

    threading.Thread(target=far.measure, daemon=True).start()
    thread = threading.Thread(target=speak, daemon=True)
    thread.start()
    try:
        yield
    finally:
        ended.set()
        thread.join()
