"""The words of a command, read by its help text.

The file templates/COMMAND.txt is what `--help` writes, and has a line for
each option: its name, what its value is called, and `..` if it may be given
several times.
"""
import argparse
import re
from typing import Any, Callable, Dict, NoReturn, Sequence, Tuple

from .lines import template
from .messages import Refused

OPTION = re.compile(r"^  (--[a-z-]+)(?: (\S+))?( \.\.)?(?=  |$)", re.M)
MANY = 1 << 62

Reader = Callable[[str], object]
"""Reads the value of an option, or raises an ArgumentTypeError."""


class Command(argparse.ArgumentParser):
    """Has this text as its help, and refuses what is wrong."""

    text = ""

    def error(self, message: str) -> NoReturn:
        raise Refused(message)

    def format_help(self) -> str:
        return self.text


def read(
    name: str,
    words: Sequence[str],
    least: int = 1,
    most: int = 1,
    **readers: Reader,
) -> argparse.Namespace:
    """The options of a command, and its operands, which are so many; after
    `--` all are operands. An option without a value is True, one that isn't
    given None, and one that may be given several times a list."""
    command = Command(
        f"bagit-keep {name}", "", add_help=False, allow_abbrev=False
    )
    command.text = template(f"{name}.txt")
    command.add_argument("operands", nargs="*")
    command.add_argument("-h", "--help", action="help")
    options = OPTION.findall(command.text)
    for option, value, _ in options:
        reader = readers.get(option[2:].replace("-", "_"), str)
        how: Dict[str, Any] = {"action": "append_const", "const": True}
        if value:
            how = {"action": "append", "type": reader}
        command.add_argument(option, default=[], **how)
    end = words.index("--") if "--" in words else len(words)
    asked = command.parse_intermixed_args(words[:end])
    asked.operands += words[end:][1:]
    for option, _, many in options:
        name = option[2:].replace("-", "_")
        given = getattr(asked, name)
        if len(given) > 1 and not many:
            raise Refused(f"{option} is given twice")
        setattr(asked, name, given if many else (given or [None])[0])
    if not least <= len(asked.operands) <= most or not all(asked.operands):
        raise Refused("the operands are others; --help says which")
    return asked


def number(least: int = 0, most: int = 10 ** 18 - 1) -> Reader:
    """Reads a number that isn't below `least`, nor above `most`."""

    def read(word: str) -> int:
        is_number = re.fullmatch("[0-9]{1,18}", word)
        if not is_number or not least <= int(word) <= most:
            text = f"not a number from {least} to {most}: {word}"
            raise argparse.ArgumentTypeError(text)
        return int(word)

    return read


COUNT, JOBS, DAYS = number(1), number(1, 1024), number(1, 999_999_999)


def share_of(word: str) -> Tuple[int, int]:
    """A share of the work, K/N."""
    found = re.fullmatch("([1-9][0-9]{0,8})/([1-9][0-9]{0,8})", word)
    if not found or int(found[1]) > int(found[2]):
        text = f"not K/N, a share from 1/N to N/N: {word}"
        raise argparse.ArgumentTypeError(text)
    return int(found[1]), int(found[2])
