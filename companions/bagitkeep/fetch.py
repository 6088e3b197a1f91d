"""`bagit-keep fetch`: the files that fetch.txt of a bag names."""
import os
import re
import subprocess
from dataclasses import dataclass, field
from os.path import dirname, join, lexists, realpath
from typing import IO, Dict, Iterable, List, Optional, Sequence, Set, Tuple

from .archives import run_into
from .bagit import Bag
from .beside import show
from .errors import BagError
from .files import PIECE, digests_of, place
from .lines import encoded
from .members import Unfit, refuse_path, room_in
from .messages import Refused, say
from .places import Work, work_at, work_path
from .trees import make_folders, settle
from .usage import number, read

URL = re.compile(
    r"(https?)://(\[[0-9A-Fa-f:.]+\]|[A-Za-z0-9.-]+)(?::([0-9]{1,5}))?"
    r"(?:[/?#][!-~]*)?",
    re.IGNORECASE,
)
PORTS = {"http": 80, "https": 443}
CURL = (
    "curl -q --silent --show-error --fail --globoff --proto =http,https"
    " --connect-timeout 60 --speed-time 300 --speed-limit 1"
    " --write-out %{stderr}%{redirect_url} --url"
).split()
MOST_REDIRECTIONS = 10
MOST_DIGITS = 18
FETCH_FAULTS = (204, 401, 402, 403, 404, 405)
TOO_MUCH = "more bytes come than there may be"
TOO_LONG = "it is longer than fetch.txt says"

Source = Tuple[str, Optional[int]]
"""A URL of a file, and the length that fetch.txt says."""


@dataclass
class Fetched:
    """How many files were fetched, how many couldn't be, and what is said of
    those that weren't kept."""

    kept: int = 0
    failed: int = 0
    wrong: List[str] = field(default_factory=list)

    def note(self, path: str, wrong: Dict[str, Optional[str]]) -> None:
        """Notes that a file isn't at these URLs, or why it wasn't fetched."""
        self.failed += any(wrong.values())
        for url, why in wrong.items():
            text = f"{encoded(path)} has other bytes at {encoded(url)}"
            if why is not None:
                text = f"{encoded(path)} wasn't fetched from {encoded(url)}"
                text += f": {why}"
            self.wrong.append(text)


def hosts_of(url: str) -> Tuple[str, ...]:
    """How --allow may name the host of a URL that curl reads as it is read
    here: with its port, or without."""
    found = URL.fullmatch(url)
    if found is None:
        return ()
    scheme, host, port = found[1].lower(), found[2].lower(), found[3]
    default = PORTS[scheme]
    names = f"{host}:{int(port or default)}", host
    return names if port else names[::-1]


def refuse_hosts(urls: Iterable[str], allowed: Set[str]) -> None:
    """Each URL is of a host that is allowed."""
    others = set()
    for url in urls:
        names = hosts_of(url)
        if not names:
            raise Refused(f"{encoded(url)} isn't an http or https URL", 3)
        if not allowed & set(names):
            others.add(names[0])
    if others:
        text = ", ".join(sorted(others))
        raise Refused(f"--allow doesn't name these hosts: {text}")


def download(
    source: Source, allowed: Set[str], file: IO[bytes], most: int
) -> None:
    """Writes what is at a URL into a file. It may be elsewhere, on another
    host that is allowed."""
    (url, length), why = source, TOO_MUCH
    if length is not None and max(length, PIECE) < most:
        most, why = max(length, PIECE), TOO_LONG  # a redirection has bytes too
    for _ in range(MOST_REDIRECTIONS):
        refuse_hosts([url], allowed)
        file.seek(0)
        file.truncate()
        words = [*CURL, url]
        url = run_into(words, file, most, subprocess.DEVNULL, why).strip()
        if not url:
            if length is not None and file.tell() > length:
                raise Unfit(TOO_LONG)
            return
    raise Unfit("it is always elsewhere")


def length_of(text: str) -> Optional[int]:
    """The length of a file, if fetch.txt says it."""
    is_said = text.isdigit() and len(text) <= MOST_DIGITS
    return int(text) if is_said else None


def missing(bag: Bag) -> Dict[str, List[Source]]:
    """Where the files are that aren't there, by their paths; none where
    fetch.txt has a fault, or the bag can't be read."""
    report = bag.report(completeness_only=True)
    stops = [it for it in report.faults if it.code in FETCH_FAULTS]
    if stops or report.unread is not None:
        say(f"nothing is fetched: {stops[0] if stops else report.result}")
        return {}
    sources: Dict[str, List[Source]] = {}
    for url, length, path in bag.fetch_entries():
        refuse_path(path)
        if not lexists(join(bag.path, path)):
            sources.setdefault(path, []).append((url, length_of(length)))
    return sources


def fetch_file(
    sources: List[Source], sums: Dict[str, str], allowed: Set[str],
    file: IO[bytes], most: int,
) -> Dict[str, Optional[str]]:
    """Writes a file from the first of these sources that has it right. Gives
    the URLs where it isn't, each with why it wasn't fetched, if it wasn't."""
    wrong: Dict[str, Optional[str]] = {}
    for source in sources:
        try:
            download(source, allowed, file, most)
            if sums and digests_of(file, sums) == sums:
                return {}
            wrong[source[0]] = None
        except Refused as why:
            wrong[source[0]] = str(why)
    return wrong


def fetch_into(
    folder: str, words: Sequence[str], most: int, work: Work
) -> Fetched:
    """Fetches what is missing in a bag."""
    result = Fetched()
    try:
        bag = Bag(folder)
        sources, sums = missing(bag), bag.payload_entries()
    except BagError as error:
        say(f"nothing is fetched: {error}")
        return result
    allowed = {it.lower() for it in words}
    refuse_hosts((url for of in sources.values() for url, _ in of), allowed)
    for path, of in sources.items():
        with open(work.at("fetched"), "wb+") as file:
            wrong = fetch_file(of, sums.get(path, {}), allowed, file, most)
            if not wrong:
                most -= file.tell()
                settle(file.fileno())
        if wrong:
            result.note(path, wrong)
            continue
        target = join(bag.path, path)
        make_folders(dirname(target), join(bag.path, "data"))
        place(work.at("fetched"), target)
        result.kept += 1
    return result


def run(words: Sequence[str]) -> int:
    """Does what the command is asked for, and says its status."""
    asked = read("fetch", words, max_bytes=number())
    bag = Bag(asked.operands[0])
    parent, name = os.path.split(realpath(bag.path))
    most = room_in(parent, None, asked.max_bytes).bytes
    with work_at(work_path(parent, "fetching", name)) as work:
        fetched = fetch_into(bag.path, asked.allow, most, work)
    for text in fetched.wrong:
        say(text)
    status = show(bag.report())
    return 3 if fetched.failed else status
