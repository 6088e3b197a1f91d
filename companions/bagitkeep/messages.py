"""What the commands say to people, and why they end."""
import os
import time
from contextlib import suppress
from datetime import datetime
from typing import Union

from .lines import encoded

LONGEST_MESSAGE = 500


class Refused(Exception):
    """Ends the command with a message and a status."""

    def __init__(self, text: str, status: int = 2) -> None:
        super().__init__(text)
        self.status = status


def shown(path: Union[str, bytes]) -> str:
    """A path for people, as reports have it."""
    return encoded(os.fsencode(path))


def now() -> str:
    """The time in UTC."""
    return time.strftime("%Y-%m-%dT%H:%M:%SZ", time.gmtime())


def is_time(text: str) -> bool:
    """Whether a text is a time as `now` gives it."""
    with suppress(ValueError):
        datetime.fromisoformat(text[:-1])
        return text[-1:] == "Z"
    return False


def printable(text: str) -> str:
    """A text for people and terminals, which a name mustn't command."""
    if text.isprintable():
        return text
    return "".join(
        it if it.isprintable() else it.encode("unicode_escape").decode()
        for it in text.encode("utf-8", "backslashreplace").decode()
    )


def first_line(messages: bytes) -> str:
    """The first line of messages, with no character that a terminal obeys;
    gzip begins with an empty one."""
    line = messages.lstrip(b"\n").partition(b"\n")[0][:LONGEST_MESSAGE]
    return encoded(line).replace("%20", " ") if line else ""


def say(text: object) -> None:
    """Writes a message by one call, so that those of several threads and
    processes don't mix. One that can't be written is lost."""
    with suppress(OSError):
        line = f"bagit-keep: {printable(str(text))}\n"
        os.write(2, line.encode("ascii", "backslashreplace"))


def explained(error: OSError) -> str:
    """What the system says, and of which file."""
    where = ""
    if isinstance(error.filename, (str, bytes)):
        where = f"{shown(error.filename)}: "
    return f"{where}{error.strerror or error}"
