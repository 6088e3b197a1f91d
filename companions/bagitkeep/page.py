"""`bagit-keep page`: a register, a round or a report as pages to look at."""
import json
import os
import shutil
from collections import Counter, defaultdict
from contextlib import closing
from dataclasses import dataclass, field
from datetime import datetime, timedelta, timezone
from importlib import import_module
from os.path import join
from typing import Any, Dict, Iterable, List, Optional, Sequence, Set
from typing import Tuple

from . import __version__, rounds
from .files import absolute, read_bytes, sync_folder
from .keeping import unended
from .lines import FAULTS, TEXTS, encoded, faults_in, report_of
from .messages import Refused, now, printable
from .news import MOST_FAULTS, TO_DO, State, state_of, until_of
from .receipts import page_of
from .received import noted_in
from .register import Register, Row, path_of
from .usage import read

MARK = b"bagit-keep.page"
MOST_BAGS = 500
MOST_GROUPS = 60
WEEKS = 53
AGES = ((7, "0 to 6"), (30, "7 to 29"), (90, "30 to 89"), (365, "90 to 364"))
LAST_AGE = "365 or more, or never"

View = Dict[str, Any]
"""What a template shows of something."""

Faults = List[Tuple[str, List[View]]]
"""The faults of a bag, by folders."""


@dataclass
class BagView:
    """A bag as pages show it."""

    name: str
    how: str
    findings: List[str] = field(default_factory=list)
    read: Optional[str] = None
    files: Optional[int] = None
    bytes: Optional[int] = None
    seal: Optional[str] = None
    events: List[View] = field(default_factory=list)
    faults: Faults = field(default_factory=list)
    page: str = ""
    is_certified: bool = False
    receipts: List[View] = field(default_factory=list)


@dataclass
class Site:
    """What the pages say."""

    first_line: str
    bags: List[BagView]
    news: List[View] = field(default_factory=list)
    known: List[View] = field(default_factory=list)
    ages: List[View] = field(default_factory=list)
    year: View = field(default_factory=dict)
    receipts: List[View] = field(default_factory=list)
    lists: List[List[BagView]] = field(default_factory=list)

    def __post_init__(self) -> None:
        """Names the pages of the bags that have more to say than a row."""
        for number, bag in enumerate(self.bags, 1):
            says = bag.findings or bag.faults or bag.receipts
            if says or len(bag.events) > 1 or len(self.bags) <= MOST_BAGS:
                bag.page = f"bag-{number}.html"
        for start in range(0, len(self.bags), MOST_BAGS):
            self.lists.append(self.bags[start:][:MOST_BAGS])


def by_folder(lines: Iterable[str]) -> Faults:
    """The faults of these lines, by folders and then by files."""
    folders: Dict[str, List[View]] = defaultdict(list)
    for fault in faults_in(f"{text}\n".encode() for text in lines):
        folder, _, file = fault.path.rpartition("/")
        word, means, todo = FAULTS[fault.code]
        says = f"{fault.code} {word} {fault.algorithm or ''}"
        row = {"file": encoded(file), "says": says.strip()}
        row.update(means=means, todo=todo)
        folders[encoded(folder) if folder else "the bag"].append(row)
    return sorted(folders.items())


def day_of(time: str) -> datetime:
    return datetime.fromisoformat(time[:10])


def today() -> datetime:
    return datetime.now(timezone.utc).replace(tzinfo=None)


def ages_of(bags: List[Row]) -> List[View]:
    """How many bags were last read whole how long ago."""
    count: Counter[str] = Counter()
    for bag in bags:
        name = LAST_AGE
        if bag["read"] is not None:
            days = max(0, (today() - day_of(bag["read"])).days)
            name = next((it for end, it in AGES if days < end), LAST_AGE)
        count[name] += 1
    return [
        {
            "days": it,
            "bags": count[it],
            "share": round(100 * count[it] / max(1, len(bags))),
        }
        for it in [*(name for _, name in AGES), LAST_AGE]
    ]


def year_of(bags: List[Row], results: List[Row], events: List[Row]) -> View:
    """The year as bags, in groups, by weeks, and in numbers by months."""
    first = today() - timedelta(days=7 * WEEKS - 1)
    groups = min(MOST_GROUPS, len(bags))
    group = {it["id"]: at * groups // len(bags) for at, it in enumerate(bags)}
    sizes = Counter(group.values())
    reads: Dict[Tuple[int, int], Set[str]] = defaultdict(set)
    found: Set[Tuple[int, int]] = set()
    months: Dict[str, Counter[str]] = defaultdict(Counter)

    def week_of(time: str) -> int:
        return (day_of(time) - first).days // 7

    for row in results:
        week = week_of(row["ended"])
        for name, status in json.loads(row["results"] or "{}").items():
            if int(name) in group and status != 3 and week >= 0:
                reads[group[int(name)], week].add(name)
                months[row["ended"][:7]]["read"] += 1
    for row in events:
        week = week_of(row["at"])
        if row["kind"] == "found" and row["bag"] in group and week >= 0:
            found.add((group[row["bag"]], week))
            months[row["at"][:7]]["found"] += 1
    squares = [
        (*at, f"{0.25 + 0.75 * len(reads[at]) / sizes[at[0]]:.2f}")
        for at in sorted(reads)
    ]
    return {
        "groups": groups,
        "weeks": WEEKS,
        "squares": squares,
        "found": sorted(found),
        "months": sorted(months.items()),
    }


def grouped(rows: Iterable[Row]) -> Dict[Optional[int], List[Row]]:
    """Rows by their bags."""
    of_bag: Dict[Optional[int], List[Row]] = defaultdict(list)
    for row in rows:
        of_bag[row["bag"]].append(row)
    return of_bag


def site_of_register(register: Register) -> Site:
    """A register's news, bags and year."""
    state = state_of(register, unended(register))
    events = register.rows("events")
    of_bag, found = grouped(events), grouped(state.news + state.known)
    kept = [bag for bag in state.bags.values() if bag["is_kept"]]
    kept.sort(key=lambda bag: str(bag["path"]))
    views = {
        it["id"]: view_of(it, found[it["id"]], of_bag[it["id"]]) for it in kept
    }
    receipts = []
    for it in noted_in(register):
        view = views.get(it.bag or 0)
        bag = view.name if view else "-"
        row: View = {"number": it.number, "bag": bag, "says": {}}
        if it.says is not None:
            row.update(says=it.says, page=f"receipt-{it.number}.html")
            row["came"] = printable(it.says["arrived"]["name"])
        receipts.append(row)
        if view is not None:
            view.receipts.append(row)
    site = Site(state.first_line(), list(views.values()), receipts=receipts)
    site.news = [news_of(state, views, row) for row in state.news]
    site.known = [known_of(state, views, row) for row in state.known]
    site.ages = ages_of(kept)
    if kept:
        ended = register.rows("rounds", "ended IS NOT NULL")
        site.year = year_of(kept, ended, events)
    return site


def view_of(bag: Row, found: List[Row], events: List[Row]) -> BagView:
    """A bag of a register."""
    kinds = Counter(row["kind"] for row in found)
    how = ", ".join(f"{kinds[it]} {it}" for it in sorted(kinds))
    view = BagView(encoded(path_of(bag["path"])), how or "no finding")
    view.findings = [f"{row['kind']} {row['text']}".strip() for row in found]
    view.read, view.seal = bag["read"], bag["seal"]
    view.files, view.bytes = bag["files"], bag["bytes"]
    view.events = [
        {**it, "says": said_of_event(json.loads(it["data"]))} for it in events
    ]
    faults = [row["text"] for row in found if row["kind"] == "fault"]
    view.faults = by_folder(faults)
    view.is_certified = bool(bag["read"]) and not found
    return view


def said_of_event(data: Dict[str, Any]) -> str:
    """What an event says, but for digests."""
    says = []
    if "of" in data:
        row = {"kind": data["of"], "text": data["text"]}
        says.append(f"{data['of']} {said_of(row)}".strip())
    if "old" in data:
        both = data["old"], data["new"]
        says.append(" to ".join(encoded(path_of(it)) for it in both))
    if "decision" in data:
        says.append(f"receipt {data['number']}: {data['decision']}")
    if "seal" in data:
        says.append(f"files: {data['files']}, bytes: {data['bytes']}")
    if "by" in data:
        until = f", until {data['until']}" if "until" in data else ""
        says.append(f"{data['by']}: {data['why']}{until}")
    return printable("; ".join(says))


def said_of(row: Row) -> str:
    """What a finding says, but for digests."""
    if row["kind"] in ("new", "altered"):
        return ""
    words = row["text"].split(" ")
    if row["kind"] == "fault" and len(words) == 6:
        return ", ".join(it for it in words[1:4] if it != "-")
    return str(row["text"])


def news_of(state: State, views: Dict[int, BagView], row: Row) -> View:
    """One of the news."""
    view = views.get(row["bag"])
    return {
        "what": row["kind"],
        "bag": state.name_of(row),
        "page": view.page if view is not None else "",
        "says": (said_of(row) + until_of(row)).strip(),
        "todo": TO_DO[row["kind"]],
        "since": row.get("since", "")[:10],
    }


def known_of(state: State, views: Dict[int, BagView], row: Row) -> View:
    """A finding that people know of, with what they have noted of it."""
    said = json.loads(row["known"])
    texts = {it: printable(said.get(it, "")) for it in ("by", "why", "until")}
    return {**news_of(state, views, row), **texts}


def site_of_round(folder: bytes) -> Site:
    """The bags of a round."""
    bags, a_round = [], rounds.load(folder)
    for row in a_round.rows():
        view = BagView(encoded(row.bag), row.result)
        is_bad = row.status and not row.is_pruned
        view.findings = [row.result] if is_bad else []
        if row.report is not None and (row.faults or 0) <= MOST_FAULTS:
            report = read_bytes(row.report).decode("ascii")
            view.faults = by_folder(report.splitlines())
        if row.record is not None:
            view.files, view.bytes = row.record.files, row.record.size
            view.seal = row.record.seal
            is_read = row.status != 3 or row.is_pruned
            is_whole = a_round.asked.depth == "full" and is_read
            view.read = row.record.ended if is_whole else None
            view.is_certified = is_whole and row.status == 0
        bags.append(view)
    count = sum(bool(bag.findings) for bag in bags)
    return Site(f"{count} of {len(bags)} bags have news", bags)


def site_of_report(path: bytes) -> Site:
    """The faults of one report."""
    text = read_bytes(path)
    report = report_of(text.splitlines(keepends=True))
    if report.closing is None:
        why = report.wrong or "it was cut off"
        raise Refused(f"{encoded(path)} is no report: {why}", 3)
    says = str(report.closing)
    bag = BagView(encoded(report.closing.bag), says)
    bag.findings = [says] if report.closing.status else []
    bag.faults = by_folder(text.decode("ascii").splitlines()[:MOST_FAULTS])
    return Site(says, [bag])


def templates() -> Any:
    """The templates of the pages, by which no text acts."""
    try:
        jinja2: Any = import_module("jinja2")
    except ImportError as error:
        raise Refused("there is no Jinja2 (python3-jinja2)", 3) from error
    pages = jinja2.Environment(
        loader=jinja2.FileSystemLoader(TEXTS), autoescape=True,
        trim_blocks=True, lstrip_blocks=True, auto_reload=False,
    )
    pages.globals.update(now=now(), version=__version__)
    return pages


def write(site: Site, folder: bytes) -> None:
    """Writes all pages into a folder that isn't there."""
    pages = templates()
    os.mkdir(folder)

    def put_text(name: str, text: str) -> None:
        with open(join(folder, os.fsencode(name)), "xb") as file:
            file.write(text.encode("utf-8", "backslashreplace"))

    def put(name: str, template: str, title: str, **values: Any) -> None:
        page = pages.get_template(template)
        put_text(name, page.render(site=site, title=title, **values))

    put("index.html", "index.html", site.first_line)
    for number, some in enumerate(site.lists, 1):
        title = f"{some[0].name} to {some[-1].name}"
        put(f"bags-{number}.html", "list.html", title, bags=some, home=1)
    for bag in filter(lambda it: it.page, site.bags):
        put(bag.page, "bag.html", bag.name, bag=bag, home=1)
    if site.receipts:
        put("receipts.html", "receipts.html", "Receipts", home=1)
    for receipt in filter(lambda it: "page" in it, site.receipts):
        put_text(receipt["page"], page_of(receipt["says"]))
    put_text(os.fsdecode(MARK), "")


def replace(site: Site, folder: bytes) -> None:
    """Writes the pages, in the place of others that this wrote before."""
    is_ours = os.path.exists(join(folder, MARK))
    if os.path.lexists(folder) and not is_ours:
        raise Refused(f"{encoded(folder)} is there, and isn't of bagit-keep")
    draft = folder + b".draft-" + os.urandom(4).hex().encode()
    old = folder + b".old-" + os.urandom(4).hex().encode()
    try:
        write(site, draft)
        if is_ours:
            os.rename(folder, old)
        os.rename(draft, folder)
    finally:
        shutil.rmtree(draft, ignore_errors=True)
        if os.path.exists(join(folder, MARK)):
            shutil.rmtree(old, ignore_errors=True)
    sync_folder(os.path.dirname(folder))


def run(words: Sequence[str]) -> int:
    """Does what the command is asked for, and says its status."""
    source, folder = map(absolute, read("page", words, 2, 2).operands)
    if os.path.isfile(join(source, b"register.sqlite")):
        with closing(Register(source, True)) as register:
            site = site_of_register(register)
    elif os.path.isdir(source):
        site = site_of_round(source)
    else:
        site = site_of_report(source)
    replace(site, folder)
    return 0
