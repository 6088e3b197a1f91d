"""The command `round`: checks many bags, and writes the table of a round."""
import os
import sys
from argparse import Namespace
from collections import Counter
from typing import Dict, List, Sequence

from . import rounds, usage
from .beside import bag_beside, say_passed
from .checks import Checks
from .files import absolute, is_within, text_of
from .lines import encoded
from .messages import Refused, explained, printable, say
from .program import LONGEST_WAIT, Asked, read_profile
from .rounds import Round, Row
from .table import FORMATS, table_of

DEPTHS = ("fast", "completeness_only", "declaration_only")


def read_words(words: Sequence[str]) -> Namespace:
    asked = usage.read(
        "round", words, 1, usage.MANY, jobs=usage.JOBS, task=usage.share_of,
        timeout=usage.number(1, LONGEST_WAIT),
    )
    if not asked.table and (asked.format or asked.since is not None):
        raise Refused("--format and --since go with --table")
    if asked.format not in (None, *FORMATS):
        raise Refused(f"--format is {' or '.join(FORMATS)}")
    depths = [it for it in DEPTHS if getattr(asked, it)]
    if len(depths) > 1:
        raise Refused("it takes one depth")
    asked.depth = "".join(depths).replace("_", "-")
    return asked


def read_list(name: str) -> List[bytes]:
    """The directories of a list that `find -print0` has written."""
    try:
        is_file = name != "-"
        with open(name if is_file else 0, "rb", closefd=is_file) as file:
            content = file.read()
    except OSError as error:
        text = f"the list can't be read: {explained(error)}"
        raise Refused(text) from error
    if not content:
        raise Refused("the list is empty")
    if not content.endswith(b"\0"):
        raise Refused(
            "the list doesn't end with a NUL byte: it was cut off, or isn't"
            " one of `find -print0`"
        )
    return content[:-1].split(b"\0")


def without_left(names: List[bytes]) -> List[bytes]:
    """The directories of a list, but for what was left beside bags that are
    in the list too; and that is said."""
    listed = set(map(absolute, filter(None, names)))
    left = {it for it in listed if bag_beside(it) in listed}
    say_passed(list(left))
    return [it for it in names if not it or absolute(it) not in left]


def directories_of(asked: Namespace) -> List[bytes]:
    """The directories that are asked for, absolute, each once."""
    names = [os.fsencode(name) for name in asked.operands[1:]]
    if asked.list is not None:
        if names:
            raise Refused("it takes directories or --list, not both")
        names = without_left(read_list(asked.list))
    if not names:
        raise Refused(
            "it takes a directory or more, or --list FILE; --help says more"
        )
    if not all(names):
        raise Refused("a directory's name is empty")
    return list(dict.fromkeys(map(absolute, names)))


def refuse_nesting(folder: bytes, directories: List[bytes]) -> None:
    """A round in a bag would be a part of the bag."""
    where = encoded(folder)
    for directory in directories:
        name = encoded(directory)
        if is_within(folder, directory):
            raise Refused(f"{where} lies in {name}, which is to be checked")
        if is_within(directory, folder):
            raise Refused(f"{name} lies in the round {where}")


def set_aside(a_round: Round, number: int, row: Row) -> bool:
    """Puts the report of a link that names another folder now among the
    tries, so that the bag is checked again; says whether it did."""
    real = text_of(os.path.realpath(row.bag))
    if row.status == 3 or row.record is None or row.record.real == real:
        return False
    say(f"{encoded(row.bag)} names another folder now, and is checked again")
    os.rename(a_round.report_path(number), a_round.new_try(number))
    return True


def left_of(a_round: Round, rows: Dict[int, Row]) -> List[int]:
    """The numbers of the bags of these rows that have no result yet."""
    return [
        number
        for number, row in rows.items()
        if row.status == 3 or set_aside(a_round, number, row)
    ]


def go(asked: Namespace) -> int:
    """Begins a round, or goes on with it; its status is the greatest of its
    bags'."""
    folder, directories = absolute(asked.operands[0]), directories_of(asked)
    options = Asked(asked.depth or "full", bool(asked.clashes))
    refuse_nesting(folder, directories)
    profile = read_profile(asked.profile)
    a_round = rounds.begin(folder, directories, options, profile)
    task, tasks = asked.task or (1, 1)
    numbers = list(range(task, len(a_round.directories) + 1, tasks))
    share = f"task {task}/{tasks} of " if tasks > 1 else ""
    share += encoded(folder)
    if not numbers:
        print(f"{share}: no bags")
        return 0
    checks = Checks(a_round, asked.timeout)
    left = told_left(a_round, numbers, share)
    checks.run(left, asked.jobs, asked.progress)
    a_round = rounds.load(folder)
    count = Counter(a_round.row(number).status for number in numbers)
    print(
        f"{share}: {len(numbers)} bags, {count[0]} without faults, {count[1]}"
        f" with faults, {count[3]} not finished"
    )
    return max(checks.worst, *count)


def told_left(a_round: Round, numbers: List[int], share: str) -> List[int]:
    """The numbers of the bags of these that have no result yet. Says what is
    altered in a round, and whether it goes on."""
    rows = {number: a_round.row(number) for number in numbers}
    left = left_of(a_round, rows)
    if not left:
        raise Refused(
            f"{share} is finished, and nothing was checked; see --table, and"
            " begin another round"
        )
    for row in map(rows.pop, left):
        if row.is_altered:
            say(f"{encoded(row.bag)}: {row.result}")
    begun = [row.record.begun for row in rows.values() if row.record]
    if begun:
        say(
            f"{share} goes on: {len(begun)} bags have a result, of a check"
            f" since {min(begun)}"
        )
    return left


def write_table(asked: Namespace) -> int:
    """Writes the table of a round."""
    if asked.operands[1:] or asked.list is not None:
        raise Refused("--table takes no directories: they are in the round")
    others = "depth clashes profile jobs task timeout progress".split()
    if any(getattr(asked, name) for name in others):
        raise Refused("--table goes only with --format and --since")
    if sys.stdout is None:
        raise Refused("standard output is closed", 3)
    a_round, since = rounds.load(absolute(asked.operands[0])), None
    if asked.since is not None:
        since = rounds.load(absolute(asked.since))
    text, status = table_of(a_round, since, asked.format or "tsv")
    if sys.stdout.isatty():  # which a name mustn't command
        lines = [it.rstrip("\r").split("\t") for it in text.split("\n")[:-1]]
        text = "".join("\t".join(map(printable, it)) + "\n" for it in lines)
    sys.stdout.buffer.write(text.encode("utf-8", "surrogateescape"))
    return status


def run(words: Sequence[str]) -> int:
    """Does what the command is asked for, and says its status."""
    asked = read_words(words)
    return write_table(asked) if asked.table else go(asked)
