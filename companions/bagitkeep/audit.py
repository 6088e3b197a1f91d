"""`bagit-keep audit`: reads bags of a register whole, and says what is new."""
import argparse
import json
import os
import time
from contextlib import closing, suppress
from functools import cached_property
from os.path import join
from typing import Dict, Iterator, List, Optional, Sequence, Set, Tuple

from . import rounds
from .beside import bag_beside, say_passed
from .checks import Checks
from .checks import found_of as look_at
from .files import sync_folder, text_of, write_synced
from .fingerprint import fingerprint
from .go_round import left_of as numbers_left
from .messages import Refused, explained, now, printable, say
from .news import State, found_of, is_past, lapse, miss, note_told, remind
from .news import settle, state_of, welcome
from .program import Asked
from .progress import bytes_of
from .received import look
from .register import Register, Row, alone, path_of
from .rounds import Round
from .rounds import Row as Result
from .seal import is_tar, seal_of
from .usage import COUNT, DAYS, JOBS, read, share_of

FULL = Asked()
LAST_ROUNDS = 40

Seen = Dict[str, List[str]]
"""The states of .tar files, by their paths, and their seals."""


def in_order(bags: List[Row]) -> List[Row]:
    """The bags that are kept, those first that were read longest ago, or, as
    far as is known, were tried in vain."""
    ahead = now()

    def last(bag: Row) -> str:
        times = [bag["read"] or "", bag.get("tried", "")]
        return max((it for it in times if it <= ahead), default="")

    return sorted((bag for bag in bags if bag["is_kept"]), key=last)


def bags_there(register: Register) -> List[Row]:
    """The bags that are there, with when they were last tried in vain: none
    of those that can't be read takes the share of another for ever."""
    tried: Dict[int, str] = {}
    last = "id > (SELECT max(id) FROM rounds) - ?"
    for row in register.rows("rounds", last, LAST_ROUNDS):
        for bag, status in json.loads(row["results"] or "{}").items():
            if status == 3:
                tried[int(bag)] = row["begun"]
    return [
        {**bag, "tried": tried.get(bag["id"], "")}
        for bag in register.rows("bags")
        if os.path.exists(path_of(bag["path"]))
    ]


def due(bags: List[Row], asked: argparse.Namespace) -> List[Row]:
    """The bags that an audit is to read."""
    chosen = in_order(bags)
    if asked.days is not None:
        chosen = [bag for bag in chosen if is_past(bag["read"], asked.days)]
    if asked.share is not None:
        share, whole = asked.share
        chosen = chosen[: -(-len(chosen) * share // whole)]
    if asked.bytes is not None:
        total = 0
        for count, bag in enumerate(chosen):
            if total >= asked.bytes:
                return chosen[:count]
            total += bytes_of(path_of(bag["path"]))
    return chosen


class Timed(Checks):
    """Checks of which none begins after a time; `late` are those bags."""

    until: Optional[float] = None

    def begin(self, number: int) -> None:
        if self.until is None or time.monotonic() < self.until:
            super().begin(number)
        else:
            self.late.append(self.round.directories[number - 1])

    @cached_property
    def late(self) -> List[bytes]:
        return []


def open_round(register: Register) -> Optional[Row]:
    """The round that isn't taken in yet."""
    rows = register.rows("rounds")
    return next((row for row in rows if row["ended"] is None), None)


def is_lost(register: Register, row: Row) -> bool:
    """Whether the list of a round was altered or removed, which is said."""
    try:
        rounds.load(folder_of(register, row["name"]))
    except Refused as refused:
        say(f"{refused}: its bags are read again")
        return True
    return False


def give_up(register: Register, row: Row) -> None:
    """Ends a round without a list, of which nothing can be taken in."""
    with register.changing():
        if open_round(register) == row:
            register.alter("rounds", row, ended=now(), results="{}")
            register.note("cut-off", None, begun=row["begun"])


def begin_round(register: Register, bags: List[Row], by_task: bool) -> Row:
    """Begins a round over these bags, or takes the one that another process
    has just begun. That of tasks has results at once, which are none yet."""
    with register.changing():
        there = open_round(register)
        if there is not None:
            return there
        name = f"{next_number(register):06d}"
        folder = folder_of(register, name)
        os.makedirs(os.path.dirname(folder), exist_ok=True)
        rounds.begin(folder, [path_of(it["path"]) for it in bags], FULL, None)
        values = {"ended": None, "results": "{}" if by_task else None}
        register.add("rounds", name=name, begun=now(), **values)
        found = open_round(register)
        assert found is not None
        return found


def next_number(register: Register) -> int:
    """The number of the next round, which none ever had: also none that an
    older copy of the register doesn't know."""
    known = [row["name"].encode() for row in register.rows("rounds")]
    there = rounds.names_in(join(register.folder, b"rounds"))
    return 1 + max(int(it) for it in [b"0", *known, *there] if it.isdigit())


def folder_of(register: Register, name: str) -> bytes:
    return join(register.folder, b"rounds", name.encode())


def check(
    a_round: Round, numbers: List[int], asked: argparse.Namespace
) -> List[bytes]:
    """Checks the bags of these numbers of a round; gives those for which
    there was no time."""
    checks = Timed(a_round, None)
    if asked.hours is not None:
        checks.until = time.monotonic() + asked.hours * 3600
    checks.run(numbers, asked.jobs, asked.progress)
    return checks.late


def left_of(a_round: Round, task: Tuple[int, int]) -> List[int]:
    """The bags of a share of a round that have no result."""
    numbers = range(task[0], len(a_round.directories) + 1, task[1])
    return numbers_left(a_round, {it: a_round.row(it) for it in numbers})


def tell_of(error: OSError) -> None:
    say(explained(error))


def bags_in(stores: List[str]) -> Iterator[bytes]:
    """The bags in some folders, but none within another one, or in a folder
    of which the name begins with a dot; and each .tar. What was left beside a
    bag that is there is passed over too, and that is said."""
    left: List[bytes] = []
    for store in stores:
        for place, names, files in os.walk(path_of(store), onerror=tell_of):
            if b"bagit.txt" in files:
                names.clear()
                yield place
                continue
            folders = [it for it in sorted(names) if it[:1] != b"."]
            others = {it for it in folders if bag_beside(join(place, it))}
            left += (join(place, it) for it in others)
            names[:] = [it for it in folders if it not in others]
            shown = (join(place, it) for it in files if it[:1] != b".")
            yield from filter(is_tar, sorted(shown))
    say_passed(left)


def standing(path: bytes) -> Optional[str]:
    """What the system says of a .tar, which alters if somebody writes to it
    or replaces it; None where that isn't sure."""
    found = look_at(path, fingerprint) if is_tar(path) else None
    return None if found is None or found.is_coarse else found.digest


def seal_at(path: bytes, before: Seen, seen: Seen) -> Optional[str]:
    """The seal of a bag. That of a .tar is taken from `before` where it was
    noted of this file in this state; and it is noted in `seen`."""
    state, text = standing(path), text_of(path)
    found = before.get(text)
    if state is None or found is None or found[0] != state:
        seal = look_at(path, seal_of)
        if state is None or seal is None or standing(path) != state:
            return seal
        found = [state, seal]
    seen[text] = found
    return found[1]


def strangers(register: Register) -> Tuple[List[bytes], Seen]:
    """The bags in the stores of a register that it doesn't keep. One that was
    retired isn't among them, as long as it has its seal: which bag this is,
    and not how it is, so that no .tar of these is read whole each night."""
    bags = {bag["path"]: bag for bag in register.rows("bags")}
    before: Seen = register.setting("seen") or {}
    seen: Seen = {}

    def is_strange(path: bytes) -> bool:
        bag = bags.get(text_of(path))
        if bag is None or bag["is_kept"]:
            return bag is None
        seal: str = bag["seal"]
        return seal_at(path, before, seen) != seal

    found = dict.fromkeys(bags_in(register.setting("stores")))
    return list(filter(is_strange, found)), seen


def take_in(
    register: Register,
    row: Optional[Row],
    is_cut_off: bool,
    late: List[bytes],
) -> None:
    """Notes in the register what a round has found, and ends the round; and
    which bags are overdue. A bag that was to be read and has no result isn't
    passed over, unless it was too late for it."""
    results: List[Tuple[bytes, Result]] = []
    there, seen = strangers(register)
    if row is not None:
        a_round = rounds.load(folder_of(register, row["name"]))
        results = list(zip(a_round.directories, a_round.rows()))
    with register.changing():
        if row is not None and open_round(register) != row:
            row, results = None, []  # as another audit has taken it in
        bags = {bag["path"]: bag for bag in register.rows("bags", "is_kept")}
        statuses, over = {}, accepted_after(register, row)
        for path, result in results:
            bag = bags.get(text_of(path))
            if bag and bag["id"] not in over and path not in late:
                take_result(register, bag, result)
                statuses[bag["id"]] = result.status
        for bag in bags.values():
            if bag["id"] not in statuses:
                miss(register, bag, os.path.exists(path_of(bag["path"])))
        if row is not None:
            register.alter(
                "rounds", row, ended=now(), results=json.dumps(statuses)
            )
            if is_cut_off:
                register.note("cut-off", None, begun=row["begun"])
        welcome(register, there)
        look(register)
        remind(register)
        lapse(register)
        register.set("seen", seen)


def accepted_after(register: Register, row: Optional[Row]) -> Set[int]:
    """The bags that were accepted when a round had read them: of how they are
    since, it says nothing."""
    name = None if row is None else row["name"]
    rows = register.rows("events", "kind = 'accepted'") if row else []
    return {
        it["bag"] for it in rows if json.loads(it["data"]).get("after") == name
    }


def take_result(register: Register, bag: Row, result: Result) -> None:
    """Notes how a bag is."""
    settle(register, bag, found_of(result, bag["seal"]))
    if result.status != 3 and result.record is not None:
        register.alter("bags", bag, read=result.record.ended)


def prune_round(folder: bytes) -> int:
    """Removes the reports of the bags of a round without faults, and says how
    many. That they were there is noted before."""
    a_round = rounds.load(folder)
    numbers = range(1, len(a_round.directories) + 1)
    good = [it for it in numbers if a_round.row(it).status == 0]
    if good:
        draft = join(folder, b"pruned.part")
        with suppress(FileNotFoundError):
            os.unlink(draft)
        noted = sorted(a_round.pruned.union(good))
        write_synced(draft, "".join(f"{it}\n" for it in noted).encode())
        os.rename(draft, join(folder, b"pruned"))
        sync_folder(folder)
    for number in good:
        with suppress(FileNotFoundError):
            os.unlink(a_round.report_path(number))
    return len(good)


def prune(register: Register) -> None:
    """Of rounds but the last, removes the reports of bags without faults: back
    to one that has none, as those before it were pruned, too."""
    for row in reversed(register.rows("rounds", "ended IS NOT NULL")[:-1]):
        with suppress(Refused, OSError):
            if not prune_round(folder_of(register, row["name"])):
                break


def is_checked(register: Register, row: Row) -> bool:
    """Whether somebody has checked each bag of a round, or tried to."""
    a_round = rounds.load(folder_of(register, row["name"]))
    left = left_of(a_round, (1, 1))
    return all(a_round.row(number).record is not None for number in left)


def cut_off_of(register: Register, there: Optional[Row]) -> Optional[Row]:
    """The round that was begun before, if it was cut off. Tasks leave theirs
    to another audit, with a check of each bag."""
    if there is None:
        return None
    is_of_tasks = there["results"] is not None
    return None if is_of_tasks and is_checked(register, there) else there


def audit(register: Register, asked: argparse.Namespace) -> int:
    """One audit, or one task of it, and what is new."""
    there, by_task = open_round(register), asked.task is not None
    lost = there if there is not None and is_lost(register, there) else None
    if lost is not None:
        give_up(register, lost)
        there = None
    cut_off = None if by_task else lost or cut_off_of(register, there)
    late: List[bytes] = []
    if there is None or cut_off is not None and is_checked(register, there):
        if there is not None:
            take_in(register, there, True, [])
        bags = due(bags_there(register), asked)
        there = begin_round(register, bags, by_task) if bags else None
    if there is not None:
        a_round = rounds.load(folder_of(register, there["name"]))
        left = left_of(a_round, asked.task or (1, 1))
        if left:
            late = check(a_round, left, asked)
        if by_task:
            print(f"{len(left)} bags were checked for {there['name']}")
            return 0
    is_resumed = cut_off is not None and cut_off == there
    take_in(register, there, is_resumed, late)
    prune(register)
    register.copy()
    status = tell(state_of(register, cut_off, True))
    note_told(register)
    return status


def tell(state: State) -> int:
    """Writes the news; the status says whether there are any."""
    print(*map(printable, state.lines()), sep="\n", flush=True)
    return 1 if state.news else 0


def run(words: Sequence[str]) -> int:
    """Does what the command is asked for, and says its status."""
    asked = read(
        "audit", words, share=share_of, days=DAYS, bytes=COUNT, hours=COUNT,
        jobs=JOBS, task=share_of,
    )
    folder = os.path.abspath(os.fsencode(asked.operands[0]))
    with alone(folder, shared=asked.task is not None):
        with closing(Register(folder)) as register:
            return audit(register, asked)
