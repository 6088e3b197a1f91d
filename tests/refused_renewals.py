"""Renews bags, each call of the program refused in turn or killed, and looks at what is left. tests/refused_renewals.sh
calls it, and says what is wanted.

usage: refused_renewals.py BAGIT BAGIT_RENEW
"""
import os
import re
import shutil
import subprocess
import sys
import tempfile
import threading
from concurrent.futures import ThreadPoolExecutor
from pathlib import Path
from typing import NamedTuple

import renew
from injections import injecting, injections, is_injected
from renew import BEGUN, Options
from renewals import Look, Programs, Wrong, demand, look

SECONDS = 60
CAUSES = "device|special|name|not-found|changed|too-many|exists|memory"
NOT_RENEWED = re.compile(rf"d not renewed: (?:(read|put|remove) (\S+) ({CAUSES})|out of memory)\n")
COMPLAINT = re.compile(r"bagit-renew: (out of memory|output refused)\n")
WHY = re.compile(r"bagit-renew: d(?:/\S+)?: (?:not there|not a folder|permission denied|.+ \(os error \d+\))\n")
INFO, PRIVATE = b"bag-info.txt", 0o100600
PLAIN = {b"data/first.txt": b"one", b"data/empty": b"", b"data/large": b"x" * 200_000}
PAYLOAD = {**PLAIN, b"data/letters/50%.txt": b"two"}
FETCHED = b"http://example.org/ - data/letters/50%.txt\n"


class Case(NamedTuple):
    """A bag that is renewed."""

    name: str
    top: str  # the bag as it is before
    options: Options
    opens_payload: bool

    def wanted(self):
        return renew.renewed(self.top, self.options)


def make_bag(top, version, algorithms, tag_algorithms, payload=PAYLOAD, part=()):
    """A valid bag; some manifests list a part of the payload, and what isn't said of it is the same for all."""
    files = {b"metadata/dc.xml": b"<dc/>", b"bag-info.txt": b"Contact-Name: Ann\nBag-Size: 1 KB\n on\n two lines\n"}
    files[b"bagit.txt"] = f"BagIt-Version: {version}\nTag-File-Character-Encoding: UTF-8\n".encode()
    for algorithm in algorithms:
        listed = dict([*payload.items()][:2]) if algorithm in part else payload
        files[renew.manifest_path(algorithm)] = renew.manifest_of(algorithm, listed, version)
    tags = {renew.tag_manifest_path(name): renew.manifest_of(name, files, version) for name in tag_algorithms}
    renew.write({**payload, **files, **tags}, top)
    os.chmod(f"{top}/{INFO.decode()}", 0o600)
    demand(renew.is_valid(top), renew.why_invalid(top))


def cases():
    make_bag("old", "0.97", ["md5"], ["md5"])
    make_bag("two", "1.0", ["md5", "sha256"], ["md5", "sha1"])
    make_bag("plain", "0.97", ["md5"], ["md5"], PLAIN)
    make_bag("parts", "0.97", ["md5", "sha1"], ["md5"], part=["md5"])
    (Path("old") / renew.FETCH.decode()).write_bytes(FETCHED)
    (Path("two") / BEGUN.decode()).write_bytes(b"begun")
    element = (("Contact-Name", "Bob"), ("External-Identifier", "A 2026/17"))
    yield Case("SHA-512 and elements in a bag of 0.97", "old", Options(add=("sha512",), set=element), True)
    without_md5 = Options(drop=("md5",), unset=("bag-size",), set=element)
    yield Case("elements, and without MD5", "two", without_md5, True)
    yield Case("the same unchecked", "two", without_md5._replace(unchecked=True), False)
    to_1_0 = Options(add=("sha256",), drop=("md5",), set=element, to_1_0=True)
    yield Case("0.97 with MD5 to 1.0 with SHA-256", "plain", to_1_0, True)
    yield Case("0.97 without MD5, which lists a part", "parts", Options(drop=("md5",), unset=("bag-size",)), True)


# ---- calls


class Ended(NamedTuple):
    status: int
    said: str
    complaint: str
    calls: str


def run(programs, case, folder, injection=""):
    """Renews `d` in the folder, under strace."""
    options = injecting(injection) if injection else ["-y", "-s", "300"]
    words = ["strace", "-f", "-o", "calls", *options, programs.renewing, *case.options.words(), "d"]
    try:
        ended = subprocess.run(words, cwd=folder, capture_output=True, check=False, timeout=SECONDS)
    except subprocess.TimeoutExpired as error:
        raise Wrong("it hangs") from error
    calls = (folder / "calls").read_text(errors="replace")
    status = 137 if ended.returncode == -9 else ended.returncode
    return Ended(status, ended.stdout.decode(), ended.stderr.decode(), calls)


def check_openings(case, calls):
    """Each payload file is opened once, or none."""
    opened = [match[1] for match in (re.search(r'openat\(.*?"([^"]*)".*O_RDONLY', line) for line in calls) if match]
    for path in renew.payload_of(renew.held(case.top)):
        times = sum(("/" + name).endswith("/" + os.path.basename(path.decode())) for name in opened)
        demand(times == case.opens_payload, f"{path} is opened {times} times")


# ---- what is left


class Judge:
    """Says what is wrong with what is left; of what was seen before, only once."""

    def __init__(self, programs, case):
        self.programs, self.case, self.wanted = programs, case, case.wanted()
        self.first, self.known, self.lock = renew.held(case.top), {}, threading.Lock()

    def check(self, before, after, ended, injection):
        self.check_files(before, after)
        self.check_modes(before, after)
        self.check_answer(after.files, ended, ":signal=KILL" in injection)

    def check_files(self, before, after):
        kept = {path for path in self.wanted.untouched(before.files)}
        for path in kept:
            demand(path in after.files and after.file(path) == before.file(path), f"{path} was touched")
        for path, content in after.files.items():
            may_be = (before.files.get(path), self.wanted.files.get(path))
            demand(path == BEGUN or content in may_be, f"{path} is {content[:100]}")
        for path in before.files:
            may_go = path not in self.wanted.files or renew.is_tag_manifest(path)
            demand(path in after.files or may_go, f"{path} is lost")

    def check_modes(self, before, after):
        """A file has the mode of the one in whose place it is, or of bagit.txt; until then nobody else can open it."""
        for path, stat in after.stats.items():
            mode = before.stats[renew.owned_as(path, before.stats)].st_mode
            content, info = after.files[path], self.wanted.files[INFO]
            if path == BEGUN:
                may_be = (PRIVATE,) if content and info.startswith(content) else (PRIVATE, mode)
            else:
                may_be = (mode,)
            demand(stat.st_mode in may_be, f"{path} has the mode {stat.st_mode:o}")

    def check_answer(self, files, ended, is_killed):
        whole = "d renewed\n"
        if ended.status == 137 and is_killed:
            demand(whole.startswith(ended.said), f"it said {ended.said!r}")
        elif ended.status == 0:
            demand(ended.said == whole and not ended.complaint, f"status 0, and {ended.said!r}, {ended.complaint!r}")
        else:
            demand(ended.status == 3, f"status {ended.status}, and {ended.said!r}, {ended.complaint!r}")
            self.check_refusal(files, ended)
        if ended.said == whole:
            demand(files == self.wanted.files, "it said that the bag is renewed, and it isn't")

    def check_refusal(self, files, ended):
        line = NOT_RENEWED.fullmatch(ended.said)
        if not line:
            demand(COMPLAINT.fullmatch(WHY.sub("", ended.complaint)), f"status 3, and {ended.said!r}, {ended.complaint!r}")
            return
        is_why = WHY.fullmatch(ended.complaint) if line[3] == "device" else not ended.complaint
        demand(is_why, f"it said {ended.said!r}, and {ended.complaint!r}")
        if line[1] == "put":
            demand(line[2].encode() in self.wanted.put, f"it said {ended.said!r}")
        elif line[1] == "remove":
            demand(line[2].encode() in self.first, f"it said {ended.said!r}")
        else:
            demand(files == self.first, f"it said {ended.said!r}, and the bag was changed")

    def check_bag(self, folder, files):
        """A valid bag is left, and the same command makes the renewed one. Says whether that was tried in this folder."""
        key = frozenset(files.items())
        with self.lock:
            known = self.known.setdefault(key, [])
        is_new = not known
        if is_new:
            known.append(self.reason_against(folder))
        demand(not known[0], known[0])
        return is_new

    def reason_against(self, folder):
        top = str(folder / "d")
        why = renew.why_invalid(top) or self.programs.faults(top)
        if why:
            return f"no valid bag is left: {why}"
        ended = self.programs.run(*self.case.options.words(), top)
        files = renew.held(top)
        if ended[0] != 0 or files != self.wanted.files or self.programs.faults(top):
            return f"asked again it ends with {ended}, and leaves {sorted(files)}"
        return None


class Worker:
    """Tries one injection after the other in a folder of its own. `standing` is the bag there, where it is as it was copied: all its
    files are the very ones."""

    def __init__(self, programs, judge, folder):
        self.programs, self.judge, self.folder, self.standing = programs, judge, folder, None
        folder.mkdir()

    def fresh(self):
        top = self.folder / "d"
        if self.standing is None:
            shutil.rmtree(top, ignore_errors=True)
            shutil.copytree(self.judge.case.top, top, copy_function=shutil.copy)
        standing, self.standing = self.standing, None
        return standing or look(top)

    def try_injection(self, injection):
        """Renews a copy of the bag, and looks. What is wrong, or None."""
        try:
            before: Look = self.fresh()
            ended = run(self.programs, self.judge.case, self.folder, injection)
            demand(is_injected(ended.calls), "no call was refused")
            after: Look = look(self.folder / "d")
            self.judge.check(before, after, ended, injection)
            is_changed = self.judge.check_bag(self.folder, after.files)
            if not is_changed and after.same() == before.same():
                self.standing = after
        except Wrong as wrong:
            return f"{self.judge.case.name}, {injection}: {wrong}"
        return None


def try_case(programs, case, pool):
    """How many calls were refused, and what is wrong."""
    judge, folder = Judge(programs, case), Path(tempfile.mkdtemp(prefix=f"{case.top}-work.", dir=".")).absolute()
    shutil.copytree(case.top, folder / "d")
    ended = run(programs, case, folder)
    demand(ended[:3] == (0, "d renewed\n", ""), f"{case.name}: without a refusal it ends with {ended[:3]}")
    demand(renew.held(folder / "d") == judge.wanted.files, f"{case.name}: it isn't the renewed bag")
    calls = ended.calls.splitlines()
    check_openings(case, calls)
    local = threading.local()

    def one(injection):
        if not hasattr(local, "worker"):
            local.worker = Worker(programs, judge, folder / f"worker-{threading.get_ident()}")
        return local.worker.try_injection(injection)

    found = list(pool.map(one, injections(calls)))
    demand(len(found) > 100, f"{case.name}: only {len(found)} calls were refused")
    demand(len(judge.known) > 5, f"{case.name}: only {len(judge.known)} folders were left")
    return len(found), len(judge.known), [wrong for wrong in found if wrong]


def main(bagit, renewing):
    programs, refused, folders, wrongs = Programs(bagit, renewing), 0, 0, []
    with ThreadPoolExecutor(min(4, os.cpu_count() or 1)) as pool:
        for case in cases():
            counts = try_case(programs, case, pool)
            refused, folders, wrongs = refused + counts[0], folders + counts[1], wrongs + counts[2]
    print(*wrongs[:20], sep="\n", end="\n" if wrongs else "")
    print(f"{refused} calls refused or killed, {folders} folders left, {len(wrongs)} wrong")
    sys.exit(bool(wrongs))


if __name__ == "__main__":
    try:
        main(*sys.argv[1:])
    except Wrong as error:
        sys.exit(str(error))
