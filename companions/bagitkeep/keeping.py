"""The commands that change a register, or say what it says: `init`, `adopt`,
`status`, `known`, `accept`, `retire`, `moved`, `history`, `dump`, `premis`."""
import json
import os
import shutil
from argparse import ArgumentTypeError, Namespace
from contextlib import closing, nullcontext, suppress
from dataclasses import dataclass
from datetime import datetime
from os.path import join
from typing import Any, Callable, Dict, List, Optional, Sequence

from . import rounds
from .audit import FULL, check, folder_of, open_round, strangers, tell
from .files import absolute, text_of
from .lines import encoded
from .messages import Refused, now, printable
from .news import LAPSED, forget, remind, state_of
from .premis import premis_of
from .register import Register, Row, alone, forget_new, make, take
from .rounds import Round
from .rounds import Row as Result
from .usage import DAYS, JOBS, MANY, read

EVERY = 90


def who_of(asked: Namespace) -> Dict[str, str]:
    if not asked.by or not asked.why:
        raise Refused("it takes --by WHO and --why TEXT")
    return {"by": asked.by, "why": asked.why}


def checked(register: Register, paths: List[bytes], jobs: Any) -> Round:
    """A round over some bags, made for this alone. It lies in the register
    until the next one."""
    folder = join(register.folder, b"rounds", b"asked")
    shutil.rmtree(folder, ignore_errors=True)
    os.makedirs(os.path.dirname(folder), exist_ok=True)
    a_round = rounds.begin(folder, paths, FULL, None)
    asked = Namespace(hours=None, jobs=jobs, progress=None)
    check(a_round, list(range(1, len(paths) + 1)), asked)
    a_round = rounds.load(folder)
    if a_round.directories != paths:
        raise Refused(f"{encoded(folder)} is of another process by now", 3)
    return a_round


def good(result: Result) -> Optional[Dict[str, Any]]:
    """What is noted of a bag that has no fault; None where it isn't known to
    have none."""
    record = result.record
    if result.status != 0 or record is None or record.seal is None:
        return None
    return {
        "seal": record.seal,
        "files": record.files,
        "bytes": record.size,
        "read": record.ended,
    }


def init(words: Sequence[str]) -> int:
    """Makes a register."""
    asked = read("init", words, 2, MANY, every=DAYS)
    folder, *stores = map(absolute, asked.operands)
    for store in stores:
        if not os.path.isdir(store):
            raise Refused(f"{encoded(store)} is not a folder")
    names = [text_of(store) for store in stores]
    make(folder, {"stores": names, "every": asked.every or EVERY})
    print(f"{encoded(folder)} is a register of no bag yet: see adopt")
    return 0


def adopt(register: Register, asked: Namespace, paths: List[bytes]) -> int:
    """Takes bags in by a full check, and notes their seals."""
    ours = {bag["path"]: bag for bag in register.rows("bags")}
    for path in paths:
        if ours.get(text_of(path), {"is_kept": 0})["is_kept"]:
            raise Refused(f"{encoded(path)} is in the register already")
    new = paths or strangers(register)[0]
    if not new:
        print("there is no bag to adopt")
        return 0
    results = checked(register, new, asked.jobs).rows()
    found = {path: good(it) for path, it in zip(new, results)}
    with register.changing():
        for path, values in found.items():
            if values is not None:
                take(register, text_of(path), **values)
    count = sum(values is not None for values in found.values())
    print(f"{count} of {len(new)} bags were adopted")
    return max(result.status for result in results)


def status(register: Register, asked: Namespace, paths: List[bytes]) -> int:
    """Writes the news, also which bags are overdue by now, and whether an
    audit wasn't ended, without a look at any bag."""
    return tell(state_of(register, unended(register)))


def unended(register: Register) -> Optional[Row]:
    """The audit that was begun and not ended, unless one is at work, which
    only who may write in the register can tell."""
    if open_round(register) is None:
        return None
    with suppress(OSError):
        try:
            with alone(register.folder):
                return open_round(register)
        except Refused:
            return None
    return open_round(register)


def history(register: Register, asked: Namespace, paths: List[bytes]) -> int:
    """Writes all that happened to a bag."""
    bag = register.bag_at(paths[0])
    lines = [f"{encoded(paths[0])} was last read whole at {bag['read']}"]
    for row in register.rows("events", "bag = ?", bag["id"]):
        data = json.loads(row["data"])
        says = " ".join(f"{name}={data[name]}" for name in sorted(data))
        lines.append(f"{row['at']} {row['kind']} {says}")
    for line in lines:
        print(printable(line))
    return 0


def dump(register: Register, asked: Namespace, paths: List[bytes]) -> int:
    """Writes all that the register says, as JSON."""
    tables = "settings", "bags", "findings", "events", "rounds"
    print(json.dumps({it: register.rows(it) for it in tables}, indent=1))
    return 0


def date_of(word: str) -> str:
    try:
        return datetime.strptime(word, "%Y-%m-%d").strftime("%Y-%m-%d")
    except ValueError as error:
        text = f"not a date, YYYY-MM-DD: {word}"
        raise ArgumentTypeError(text) from error


def names_of(row: Row) -> List[str]:
    """How people may name what was found."""
    return [row["text"], f"{row['kind']} {row['text']}".strip()]


def known(register: Register, asked: Namespace, paths: List[bytes]) -> int:
    """Notes that people know of what was found of a bag."""
    said = {**who_of(asked), "at": now()}
    if asked.until is not None:
        said["until"] = asked.until
    text = text_of(paths[0])
    with register.changing():
        remind(register)
        new = register.rows("findings", "bag IS NULL AND text = ?", text)
        bag = {"id": None} if new else register.bag_at(paths[0])
        found = new or register.rows("findings", "bag = ?", bag["id"])
        if not asked.all and not new:
            line = LAPSED.sub("", " ".join(asked.line))
            found = [row for row in found if line in names_of(row)]
        if not found:
            raise Refused(f"nothing such was found of {encoded(paths[0])}")
        for row in found:
            register.alter("findings", row, known=json.dumps(said))
            register.note(
                "known", bag["id"], of=row["kind"], text=row["text"], **said
            )
    until = f" until {asked.until}" if asked.until else ""
    print(f"{encoded(paths[0])}: {len(found)} findings are known{until}")
    return 0


def accepted(register: Register, asked: Namespace, paths: List[bytes]) -> int:
    """Takes a bag as it is now for good, by a full check."""
    return accept(register, paths[0], who_of(asked), lambda values: None)


def round_over(register: Register, path: bytes) -> Dict[str, str]:
    """The audit at work, if it has read this bag already. Of how the bag is
    from now on, it knows nothing."""
    row = open_round(register)
    if row is not None:
        with suppress(Refused, OSError):
            a_round = rounds.load(folder_of(register, row["name"]))
            bags = dict(enumerate(a_round.directories, 1))
            if path in map(bags.get, a_round.records):
                return {"after": row["name"]}
    return {}


def accept(
    register: Register,
    path: bytes,
    said: Dict[str, str],
    look: Callable[[Row], None],
) -> int:
    """Does so if `look`, which is given what is to be noted, lets it."""
    register.kept_at(path)
    after = round_over(register, path)
    result = checked(register, [path], None).row(1)
    values = good(result)
    if values is None:
        return result.status or 3
    look(values)
    with register.changing():
        bag = register.kept_at(path)
        forget(register, bag)
        register.alter("bags", bag, **values)
        register.note("accepted", bag["id"], **said, **values, **after)
    print(f"{encoded(path)} is accepted, with the seal {values['seal']}")
    return 0


def retire(register: Register, asked: Namespace, paths: List[bytes]) -> int:
    """Notes that a bag isn't kept any more."""
    said = who_of(asked)
    with register.changing():
        bag = register.bag_at(paths[0])
        forget(register, bag)
        register.alter("bags", bag, is_kept=0)
        register.note("retired", bag["id"], **said)
    print(f"{encoded(paths[0])} is retired")
    return 0


def moved(register: Register, asked: Namespace, paths: List[bytes]) -> int:
    """Notes that a bag is at another place, by a full check of it there."""
    said, bag = who_of(asked), register.kept_at(paths[0])
    old, new = map(encoded, paths)
    if os.path.lexists(paths[0]):
        raise Refused(f"{old} is still there", 3)
    if register.rows("bags", "path = ?", text_of(paths[1])):
        raise Refused(f"{new} is in the register already")
    result = checked(register, paths[1:], None).row(1)
    values = good(result)
    if values is None:
        return result.status or 3
    if values["seal"] != bag["seal"]:
        raise Refused(f"{new} is another bag: its seal is another one", 3)
    with register.changing():
        bag = register.kept_at(paths[0])
        forget(register, bag)
        forget_new(register, text_of(paths[1]))
        register.alter("bags", bag, path=text_of(paths[1]), **values)
        register.note(
            "moved", bag["id"], old=text_of(paths[0]), new=text_of(paths[1]),
            **said,
        )
    print(f"{old} is {new} from now on")
    return 0


def premis(register: Register, asked: Namespace, paths: List[bytes]) -> int:
    """Writes what happened to a bag as PREMIS 3."""
    bag = register.bag_at(paths[0])
    events = register.rows("events", "bag = ?", bag["id"])
    print(premis_of(encoded(paths[0]), bag, events))
    return 0


Work = Callable[[Register, Namespace, List[bytes]], int]


@dataclass(frozen=True)
class Command:
    """A command over a register: what it does, how many bags it is given, and
    whether it checks bags, or only reads the register."""

    name: str
    work: Work
    bags: int = 1
    checks: bool = False
    reads: bool = False

    def __call__(self, words: Sequence[str]) -> int:
        asked = read(
            self.name, words, 1 if self.bags == MANY else 1 + self.bags,
            MANY if self.name == "known" else 1 + self.bags,
            jobs=JOBS, until=date_of,
        )
        asked.line = asked.operands[2:]
        folder, *paths = map(absolute, asked.operands[:1 + self.bags])
        lock = alone(folder, b"asked") if self.checks else nullcontext()
        with lock, closing(Register(folder, self.reads)) as register:
            return self.work(register, asked, paths)


COMMANDS: Dict[str, Callable[[Sequence[str]], int]] = {
    "init": init,
    **{
        it.name: it
        for it in (
            Command("adopt", adopt, MANY, True),
            Command("status", status, 0, reads=True),
            Command("known", known),
            Command("accept", accepted, 1, True),
            Command("retire", retire),
            Command("moved", moved, 2, True),
            Command("history", history, reads=True),
            Command("dump", dump, 0, reads=True),
            Command("premis", premis, reads=True),
        )
    },
}


def run(words: Sequence[str]) -> int:
    raise Refused("it takes a command")
