"""Which commands there are, and how any of them ends."""
import os
import signal
import sys
import traceback
from contextlib import suppress
from importlib import import_module
from typing import Any, List, NoReturn

from . import __version__
from .errors import BagError
from .messages import Refused, explained, say

COMMANDS = {
    "make": ("make", "turn directories into bags, after a look at all"),
    "receive": ("receive", "take a deposit into a store of bags"),
    "fetch": ("fetch", "fetch the files that a holey bag lists"),
    "send": ("send", "pack a bag as a .tar, and check that"),
    "edit": ("edit", "change a tag file of a bag"),
    "repack": ("repack", "add, remove or rename payload files of a bag"),
    "restore": ("restore", "restore files of a bag from copies of it"),
    "info": ("info", "print what the tag files of a bag contain"),
    "report": ("report", "print reports of bagit as data, or a summary"),
    "check": ("check", "check a large bag in parts, which bagit joins"),
    "round": ("go_round", "check many bags, and print the table of a round"),
    "init": ("keeping", "create a register of bags"),
    "adopt": ("keeping", "take bags into a register, by a fixity check"),
    "audit": ("audit", "read bags of a register whole, and print the news"),
    "status": ("keeping", "print the news of a register"),
    "known": ("keeping", "note that a finding is known"),
    "accept": ("keeping", "accept a bag as it is now"),
    "retire": ("keeping", "note that a bag is no longer kept"),
    "moved": ("keeping", "note that a bag is at another place"),
    "renew": ("renewal", "update a bag of a register"),
    "history": ("keeping", "print all that happened to a bag"),
    "dump": ("keeping", "print all that a register holds, as JSON"),
    "premis": ("keeping", "print what happened to a bag, as PREMIS 3"),
    "page": ("page", "write a register, a round or a report as pages"),
}
SIGNALS = (signal.SIGINT, signal.SIGTERM, signal.SIGHUP)

USAGE = """\
usage: bagit-keep COMMAND [OPTIONS] ..

Stands beside bagit, which creates and checks BagIt bags. Each COMMAND prints
more by --help:

{}
Options:
  -h, --help    print this
  --version     print the version
"""


class Interrupted(BaseException):
    """A signal asks the command to end."""


def interrupt(number: int, frame: Any) -> NoReturn:
    """Ends the command. What it does to end isn't interrupted again."""
    for it in SIGNALS:
        signal.signal(it, signal.SIG_IGN)
    raise Interrupted(signal.Signals(number).name)


def open_closed_streams() -> None:
    """Opens what isn't open of standard input, output and error, so that no
    other file takes its place."""
    for number in range(3):
        try:
            os.fstat(number)
        except OSError:
            os.open(os.devnull, os.O_RDWR)


def do(words: List[str]) -> int:
    """Does what is asked for, and says the status."""
    if words[:1] in (["-h"], ["--help"]):
        says = [f"  {it:9} {COMMANDS[it][1]}\n" for it in COMMANDS]
        print(USAGE.format("".join(says)), end="")
        return 0
    if words[:1] == ["--version"]:
        print(f"bagit-keep {__version__}")
        return 0
    if not words or words[0] not in COMMANDS:
        names = " or ".join(COMMANDS)
        raise Refused(f"it takes a command, {names}; --help says more")
    module = import_module(f".{COMMANDS[words[0]][0]}", __package__)
    work = getattr(module, "COMMANDS", {}).get(words[0], module.run)
    status: int = work(words[1:])
    return status


def status_of(words: List[str]) -> int:
    """The status of what is asked for; whatever goes wrong is a message."""
    try:
        status = do(words)
        if sys.stdout is not None:
            sys.stdout.flush()
        return status
    except Refused as refused:
        say(refused)
        return refused.status
    except BagError as error:
        say(error)
    except OSError as error:
        say(explained(error))
    except MemoryError:
        say("out of memory")
    except Interrupted as signalled:
        say(f"interrupted by {signalled}")
    except SystemExit as ended:  # of --help
        return ended.code if isinstance(ended.code, int) else 3
    except Exception:  # which isn't the status of a bag's faults
        with suppress(Exception):
            traceback.print_exc()
    return 3


def run() -> NoReturn:
    """The command, with the words that it was given."""
    open_closed_streams()
    signal.signal(signal.SIGCHLD, signal.SIG_DFL)  # else there's no status
    for number in SIGNALS:
        if signal.getsignal(number) is not signal.SIG_IGN:
            signal.signal(number, interrupt)
    status = 3
    with suppress(OSError, Interrupted):
        status = status_of(sys.argv[1:])
        if sys.stderr is not None:
            sys.stderr.flush()
    os._exit(status)  # what a stream refused was said, and isn't tried again
