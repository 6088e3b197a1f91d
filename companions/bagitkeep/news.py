"""What was found of bags, and what of it is news: what nobody has taken note
of yet."""
import json
import re
from collections import Counter
from dataclasses import dataclass
from datetime import datetime, timedelta, timezone
from typing import Any, Dict, Iterable, List, Optional, Set, Tuple

from .files import text_of
from .lines import encoded, faults_in
from .messages import now
from .register import Register, Row, path_of
from .rounds import Row as Result

MOST_FAULTS = 1000
LAPSED = re.compile(r" ?\(known until [0-9-]+\)$")
KINDS = {
    "fault": "with faults",
    "altered": "altered",
    "new": "new",
    "missing": "missing",
    "unread": "not read",
    "overdue": "overdue",
    "cut-off": "cut off",
    "receipt": "with an altered receipt",
}
"""What is found, and how it is counted in a first line."""

UNREAD = {"missing", "unread"}
"""What is found of a bag of which nothing else is known."""

OF_PATHS = {"new": "", "receipt": "was altered, or isn't there"}
"""What is found at paths that are no bag's, and what is said of it."""

TO_DO = {
    "fault": "restore it, and then accept",
    "altered": "accept, if it was changed on purpose; or else restore it",
    "new": "adopt",
    "missing": "moved, or retire; or else restore it",
    "unread": "see why, and then accept",
    "overdue": "audit more of the bags each night",
    "cut-off": "see why it was",
    "receipt": "put it there from a backup",
}
"""What people do then, by commands or else."""

Found = Set[Tuple[str, str]]
"""A kind, and a text that says what exactly."""

What = Tuple[Optional[int], str, str]
"""The same, after the bag."""


def lines_of(
    report: Iterable[bytes], count: Optional[int], digest: Optional[str]
) -> List[str]:
    """The lines of the faults of a report; of very many only how many, and
    the digest of the report, so that others are other news."""
    if count is not None and count > MOST_FAULTS:
        return [f"{count} faults, of the report with the SHA-256 {digest}"]
    return list(map(str, faults_in(report)))


def found_of(result: Result, seal: Optional[str]) -> Found:
    """What a check has found of a bag with this seal in the register."""
    if result.status == 3:
        is_missing = result.result.endswith(" is not there")
        return {("missing", "")} if is_missing else {("unread", result.result)}
    if result.record is None or result.report is None:
        return {("unread", "its report can't be read")}
    record, found = result.record, set()
    if result.status == 1:
        digest = record.report_sha256
        with open(result.report, "rb") as report:
            lines = lines_of(report, result.faults, digest)
        if not lines:
            return {("unread", "its report was altered")}
        found = {("fault", line) for line in lines}
    if record.seal is None:
        return found | {("unread", "its tag files can't be read")}
    if seal is not None and record.seal != seal:
        found.add(("altered", record.seal))
    return found


def find(register: Register, bag: Optional[Row], kind: str, text: str) -> None:
    """Has the register say that this is found, of a bag or of none."""
    number: Optional[int] = None if bag is None else bag["id"]
    values = {"bag": number, "kind": kind, "text": text}
    register.add("findings", **values, since=now(), known=None)
    register.note("found", number, of=kind, text=text)


def lose(register: Register, row: Row) -> None:
    """Has it say that this isn't found any more."""
    register.remove("findings", row)
    register.note("gone", row["bag"], of=row["kind"], text=row["text"])


def settle(register: Register, bag: Row, found: Found) -> None:
    """Has the register say that this is what is found of a bag now, but for
    what is overdue. Of a bag that wasn't read, what was found before stands:
    nothing says that it is gone."""
    there = register.rows("findings", "bag = ?", bag["id"])
    is_read = UNREAD.isdisjoint(kind for kind, _ in found)
    for row in there:
        what, kind = (row["kind"], row["text"]), row["kind"]
        stands = kind == "overdue" or not (is_read or kind in UNREAD)
        if what not in found and not stands:
            lose(register, row)
    known = {(row["kind"], row["text"]) for row in there}
    for kind, text in sorted(found - known):
        find(register, bag, kind, text)


def forget(register: Register, bag: Row) -> None:
    """Has it say that nothing is found of a bag any more."""
    for row in register.rows("findings", "bag = ?", bag["id"]):
        lose(register, row)


def miss(register: Register, bag: Row, is_there: bool) -> None:
    """Notes whether a bag that wasn't to be read is there at all."""
    where = "bag = ? AND kind = 'missing'"
    found = register.rows("findings", where, bag["id"])
    if found and is_there:
        lose(register, found[0])
    if not found and not is_there:
        find(register, bag, "missing", "")


def is_past(time: Optional[str], days: float) -> bool:
    """Whether a time is so many days ago. So it is where none was noted, and
    where it is to come, as the clock was ahead."""
    if time is None:
        return True
    then = datetime.fromisoformat(time.rstrip("Z"))
    ago = datetime.now(timezone.utc) - then.replace(tzinfo=timezone.utc)
    return ago > timedelta(days=days) or ago < timedelta(hours=-1)


def welcome(register: Register, there: List[bytes]) -> None:
    """Finds the bags of these that the register doesn't keep."""
    ours = {bag["path"] for bag in register.rows("bags", "is_kept")}
    of_no_bag(register, "new", {text_of(path) for path in there} - ours)


def of_no_bag(register: Register, kind: str, paths: Set[str]) -> None:
    """Has the register say that this is found at these paths, which are no
    bag's."""
    for row in register.rows("findings", "kind = ?", kind):
        if row["text"] not in paths:
            lose(register, row)
        paths = paths - {row["text"]}
    for text in sorted(paths):
        find(register, None, kind, text)


def overdue_of(register: Register, bags: Iterable[Row]) -> List[Row]:
    """The bags of these that are overdue by now."""
    days = register.setting("every")
    kept = (bag for bag in bags if bag["is_kept"])
    return [bag for bag in kept if is_past(bag["read"], days)]


def text_of_overdue(bag: Row) -> str:
    return f"not read whole since {bag['read']}"


def remind(register: Register) -> None:
    """Finds the bags that are overdue, and those that aren't any more."""
    found = register.rows("findings", "kind = 'overdue'")
    gone = {row["bag"]: row for row in found}
    for bag in overdue_of(register, register.rows("bags")):
        if gone.pop(bag["id"], None) is None:
            find(register, bag, "overdue", text_of_overdue(bag))
    for row in gone.values():
        lose(register, row)


def lapse(register: Register) -> None:
    """Has what was known until a day that is over be news again."""
    today = now()[:10]
    for row in register.rows("findings", "known IS NOT NULL"):
        if is_news(row, today):
            what = {"of": row["kind"], "text": row["text"]}
            register.alter("findings", row, known=None)
            said = json.loads(row["known"])
            register.note("lapsed", row["bag"], **what, **said)


def findings_of(register: Register, bags: Iterable[Row]) -> List[Row]:
    """What is found by now: as the register has it once an audit has noted
    which of its bags are overdue."""
    late = {bag["id"]: bag for bag in overdue_of(register, bags)}
    found = []
    for row in register.rows("findings"):
        if row["kind"] != "overdue" or late.pop(row["bag"], None):
            found.append(row)
    values = {"kind": "overdue", "since": now(), "known": None}
    for number, bag in late.items():
        found.append({**values, "bag": number, "text": text_of_overdue(bag)})
    return found


def is_news(row: Row, today: str) -> bool:
    """Whether nobody knows of it, or only until a day that is over."""
    if row["known"] is None:
        return True
    until = until_in(row["known"])
    return until is not None and until < today


def until_in(known: Optional[str]) -> Optional[str]:
    """The last day on which somebody wants to know of it, if there is one."""
    found: Optional[str] = json.loads(known or "{}").get("until")
    return found


def is_new(row: Row) -> bool:
    """Whether no audit has told one of the news before."""
    return bool(row.get("is_new", True))


def until_of(row: Row) -> str:
    """Until when one of the news was known, if it was."""
    return f" (known until {row['until']})" if row.get("until") else ""


@dataclass(frozen=True)
class State:
    """How the bags of a register are, as far as people don't know it."""

    news: List[Row]
    known: List[Row]
    bags: Dict[int, Row]

    def first_line(self) -> str:
        """How many news there are, and of what; and whether an audit has told
        all of them before."""
        if not self.news:
            return f"no news: {self.counted()}"
        of = {(row["kind"], self.name_of(row)) for row in self.news}
        count = Counter(kind for kind, _ in of)
        kinds = [f"{count[it]} {KINDS[it]}" for it in KINDS if count[it]]
        bags = len({name for _, name in of} - {"-"})
        noun = "bag" if bags == 1 else "bags"
        still = "" if any(map(is_new, self.news)) else "still "
        return f"{still}news of {bags} {noun}: {', '.join(kinds)}"

    def counted(self) -> str:
        """How many bags there are, and which was read longest ago."""
        kept = [bag for bag in self.bags.values() if bag["is_kept"]]
        text = f"{len(kept)} bags"
        if kept:
            oldest = min(bag["read"] or "" for bag in kept)
            text += f", each read whole since {oldest}"
        count = len(self.known)
        return f"{text}, {count} known findings" if count else text

    def lines(self) -> List[str]:
        """The first line, one for each of the news, and one about the rest."""
        lines = [self.first_line()]
        for row in self.news:
            still, name = "" if is_new(row) else "still ", self.name_of(row)
            text = OF_PATHS.get(row["kind"], row["text"])
            line = f"{still}{row['kind']} {name} {text}".rstrip()
            lines.append(line + until_of(row))
        return lines + ([self.counted()] if self.news else [])

    def name_of(self, row: Row) -> str:
        """The bag of one of the news."""
        bag = self.bags.get(row["bag"])
        if bag is not None:
            return encoded(path_of(bag["path"]))
        is_path = row["kind"] in OF_PATHS
        return encoded(path_of(row["text"])) if is_path else "-"


def state_of(
    register: Register, cut_off: Optional[Row] = None, is_audit: bool = False
) -> State:
    """The news of a register, and of a round of it that was cut off: what
    this audit, or else the last one, is the first to tell, and then what an
    earlier one has told."""
    bags = {bag["id"]: bag for bag in register.rows("bags")}
    found, today = findings_of(register, bags.values()), now()[:10]
    first = first_told(register, is_audit)
    news = []
    for row in found:
        if is_news(row, today):
            until = until_in(row["known"])
            what = row["bag"], row["kind"], row["text"]
            is_old = "id" in row and until is None and what not in first
            until = until or first.get(what)
            news.append({**row, "is_new": not is_old, "until": until})
    known = [row for row in found if not is_news(row, today)]
    news.sort(key=lambda row: not is_new(row))
    if cut_off is not None:
        text = f"the audit of {cut_off['begun']} was cut off"
        news.insert(0, {"bag": None, "kind": "cut-off", "text": text})
    return State(news, known, bags)


def first_told(register: Register, is_audit: bool) -> Dict[What, Any]:
    """What this audit, or else the last one, is the first to tell; and until
    when it was known before."""
    before = told_in(register)[int(is_audit)]
    first = {}
    for row in register.rows("events", "id > ?", before):
        if row["kind"] in ("found", "lapsed"):
            data = json.loads(row["data"])
            first[row["bag"], data["of"], data["text"]] = data.get("until")
    return first


def told_in(register: Register) -> List[int]:
    """The last events that the last two audits have told."""
    return register.setting("told") or [0, 0]


def note_told(register: Register) -> None:
    """Notes that an audit has told its news. Where it was killed before this,
    the next one tells them as new."""
    with register.changing():
        last = register.rows("events", "id = (SELECT max(id) FROM events)")
        told = [told_in(register)[1], last[0]["id"]]
        register.set("told", told)
