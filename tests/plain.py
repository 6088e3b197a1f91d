"""Has generated bags checked, some hundreds in one call, and compares what is printed, and the exit status, with the reports of a plain
check (plain_faults.py). tests/plain.sh calls it.

usage: plain.py PROGRAM BAGS

The bags are written into directories of the working directory. Where a report is another one, the bag's files are printed with both.
"""
import hashlib
import json
import os
import random
import shutil
import subprocess
import sys
from dataclasses import dataclass, field, replace
from functools import lru_cache
from pathlib import Path

import plain_bags
import plain_texts
from plain_faults import DEPTHS, WORDS, Bag, Options, asked_for, faults_of, report_of
from plain_tags import read_manifest

SEED = 8493
MOST = 400  # bags of one call
SHOWN = 3000  # characters of a text
ALL_LABELS = {label: {"values": ["-"]} for label in plain_texts.LABELS}  # no element has this value, so that each is told
RULES = {"BagIt-Profile-Info": {"BagIt-Profile-Identifier": "urn:p"}, "Bag-Info": ALL_LABELS}
FAST, COMPLETE, FULL = Options("fast"), Options("complete"), Options("full")
KINDS = (  # what is counted, where the bags come from, and by which options they are checked
    ("texts of bagit.txt", plain_texts.declarations, (FAST, Options("declaration"))),
    ("of bag-info.txt", plain_texts.metadata, (Options("fast", profile=RULES, profile_file="labels.json"),)),
    ("of Payload-Oxum", plain_texts.oxums, (FAST,)),
    ("of fetch.txt", plain_texts.fetch_lists, (COMPLETE,)),
    ("of manifests", plain_texts.manifests, (FULL,)),
)


class Wrong(Exception):
    """What isn't as it should be."""


@dataclass
class Shelf:
    """The program, the bags that the directories hold by name, the codes of all faults that were expected, and how many reports."""

    program: str
    held: dict = field(default_factory=dict)
    codes: set = field(default_factory=set)
    reports: int = 0


# ---- directories


@lru_cache(maxsize=None)
def parents(path):
    """The directories above a path."""
    names = path.split("/")
    return ["/".join(names[:place]) for place in range(1, len(names))]


def directories_of(bag):
    """All directories below that of a bag."""
    found = {parent for path in bag.files for parent in parents(path)}
    return found | {folder for path in bag.folders for folder in (path, *parents(path))}


def write(path, content):
    """Writes a file; one that is there keeps its inode, which takes a tenth of the time."""
    with open(path, "r+b" if os.path.exists(path) else "wb", buffering=0) as file:
        file.write(content)
        file.truncate()


def put(shelf, name, bag):
    """Writes a bag into its directory, where a file that the last bag there had too stays."""
    last, directories = shelf.held.get(name, Bag()), directories_of(bag)
    if name not in shelf.held or directories_of(last) != directories:
        shutil.rmtree(name, ignore_errors=True)
        last = Bag()
        for directory in ["", *directories]:
            os.makedirs(os.path.join(name, directory), exist_ok=True)
    for path in last.files:
        if path not in bag.files:
            os.remove(f"{name}/{path}")
    for path, content in bag.files.items():
        if last.files.get(path) != content:
            write(f"{name}/{path}", content)
    shelf.held[name] = bag


def name_of(place):
    """The name of a directory; that of some has to be encoded in a report."""
    return f"b {place}%é" if place % 50 == 7 else f"b{place}"


# ---- reports


def run(program, *words):
    """What the program prints, and its exit status."""
    ended = subprocess.run([program, *words], capture_output=True, check=False)
    if ended.stderr:
        raise Wrong(f"{words[:20]}: {ended.stderr.decode()}")
    return ended.stdout.decode(), ended.returncode


def shown(text):
    """A text, or its start."""
    return text if len(text) <= SHOWN else f"{text[:SHOWN]}.. ({len(text)} characters)"


def complaint(name, bag, options, wanted, found):
    """A report that is another one, with the bag."""
    files = "\n".join(f"  {path!r}: {shown(repr(content))}" for path, content in sorted(bag.files.items()))
    alike = os.path.commonprefix([wanted, found]).rfind("\n") + 1
    said = f"wanted, after {alike} characters that are alike:\n{shown(wanted[alike:])}\nfound:\n{shown(found[alike:])}"
    return f"{name}, by {options.words()}, holds {sorted(bag.folders)} and\n{files}\nprofile: {shown(str(options.profile))}\n{said}"


def compare(shelf, options, names, faults):
    """Checks the bags of these names in one call. Each report has to be that of its faults, and the status the greatest."""
    wanted = [report_of(name, found, options) for name, found in zip(names, faults)]
    text, status = run(shelf.program, "--validate", *options.words(), *names)
    at = 0
    for name, (report, _) in zip(names, wanted):
        if not text.startswith(report, at):
            raise Wrong(complaint(name, shelf.held[name], options, report, text[at : at + len(report) + 1000]))
        at += len(report)
    if at != len(text) or status != max(status for _, status in wanted):
        raise Wrong(f"{options.words()}: ends with {status} and {shown(text[at:])!r}: {names}")
    shelf.reports += len(names)
    shelf.codes.update(fault.code for found in faults for fault in asked_for(found, options))


def put_all(shelf, bags):
    """Writes bags into directories; gives the names of these."""
    names = [name_of(place) for place in range(len(bags))]
    for name, bag in zip(names, bags):
        put(shelf, name, bag)
    return names


def check(shelf, names, options_of_all, profile=None):
    """Has the bags of these names checked by each of these options; gives what faults each has."""
    faults = [faults_of(shelf.held[name], profile) for name in names]
    for options in options_of_all:
        compare(shelf, options, names, faults)
    return faults


# ---- what is checked


def write_profile(profile, name):
    """Writes a profile, and gives the options that name it."""
    Path(name).write_text(json.dumps(profile, ensure_ascii=False), encoding="utf-8")
    return Options(profile=profile, profile_file=name)


def check_texts(shelf):
    """Has the texts of each kind checked; gives how many there are."""
    write_profile(RULES, "labels.json")
    counted = []
    for kind, generated, options in KINDS:
        bags = generated()
        for first in range(0, len(bags), MOST):
            check(shelf, put_all(shelf, bags[first : first + MOST]), options, options[0].profile)
        counted.append(f"{len(bags)} {kind}")
    return counted


def check_bags(shelf, draw, names):
    """Has drawn bags checked at all depths, with a limit and by profiles."""
    options = [Options(depth, clashes) for depth in DEPTHS for clashes in (False, True)]
    options += [Options(clashes=True, most=most) for most in (1, 4, 11)] + [Options(depth, quiet=True) for depth in DEPTHS]
    check(shelf, names, options)
    allowed = [{"Tag-Files-Allowed": [pattern]} for pattern in plain_bags.PATTERNS]
    for number, more in enumerate([*allowed, *[{}] * 6]):
        profile = {**plain_bags.profile(draw), **more}
        by_profile = write_profile(profile, f"profile{number}.json")
        asked = [replace(by_profile, depth=depth) for depth in DEPTHS] + [replace(by_profile, most=9, quiet=True)]
        check(shelf, draw.sample(names, len(names) // 5), asked, profile)


def go_on(shelf, draw, name, faults, options, cursors):
    """Resumes a check after each of these lines; gives how often."""
    for fault in cursors:
        compare(shelf, replace(options, after=fault, most=draw.choice((0, 0, 0, 1, 2, 5))), [name], [faults])
    return len(cursors)


def check_cursors(shelf, draw, names):
    """Has checks of some bags resumed after each fault; gives how often."""
    profile = plain_bags.profile(draw)
    resumed = 0
    for options in (Options("complete", clashes=True), FULL, write_profile(profile, "cursors.json")):
        all_faults = check(shelf, names, [options], options.profile)
        for place, faults in enumerate(all_faults):
            others = [fault for fault in all_faults[place - 1] if fault not in faults]
            cursors = asked_for(faults, options) + draw.sample(others, min(len(others), 2))
            resumed += go_on(shelf, draw, names[place], faults, options, cursors)
    return resumed


def check_rules(shelf, draw):
    """Has two thousand elements checked under five hundred rules, by both versions; gives how often a check was resumed."""
    profile, resumed = plain_bags.ruled(draw), 0
    options = replace(write_profile(profile, "rules.json"), depth="fast")
    names = put_all(shelf, [plain_bags.elements(draw, version) for version in plain_texts.VERSIONS])
    for name, faults in zip(names, check(shelf, names, [options, replace(options, most=700)], profile)):
        found = asked_for(faults, options)
        if not {802, 803, 804} <= {fault.code for fault in found}:
            raise Wrong("the rules aren't broken in all ways")
        resumed += go_on(shelf, draw, name, faults, options, draw.sample(found, 3))
    return resumed


def check_made(shelf):
    """Has a bag created of a long path and of odd names, whose manifest a plain reader has to read as they are."""
    names = {"/".join(["%" * 255] * 11), "/".join(["\r\n%" * 80] * 12), *(path for path in plain_bags.NAMES if path != "z")}
    bag = Bag({path: path.encode() for path in names})
    name = "made"
    put(shelf, name, bag)
    if run(shelf.program, "--md5", name) != ("made made\n", 0):
        raise Wrong("no bag was created of a long path")
    sums, faults = read_manifest(Path(name, "manifest-md5.txt").read_bytes(), "manifest-md5.txt", False)
    if faults or sums != {f"data/{path}": hashlib.md5(content).hexdigest() for path, content in bag.files.items()}:
        raise Wrong(f"the manifest of a new bag has other names: {faults}, {shown(str(sums))}")
    compare(shelf, FULL, [name], [[]])


def main(program, count):
    """Has everything checked, and prints how much that was."""
    shelf, draw = Shelf(program), random.Random(SEED)
    try:
        if plain_bags.normal_forms() < 15:
            raise Wrong("too few names clash")
        counted = check_texts(shelf)
        names = put_all(shelf, [plain_bags.bag(draw) for _ in range(int(count))])
        check_bags(shelf, draw, names)
        resumed = check_cursors(shelf, draw, names[: int(count) // 4])
        resumed += check_rules(shelf, draw)
        check_made(shelf)
        lacking = sorted(set(WORDS) - {str(code) for code in shelf.codes} - {"814"})  # which a tar file alone can have
        if lacking and int(count) >= 320:
            raise Wrong(f"no bag has a fault of {lacking}")
    except Wrong as wrong:
        sys.exit(f"seed {SEED}: {wrong}")
    print(f"{', '.join(counted)}, {count} bags, {resumed} cursors: all {shelf.reports} reports are those of a plain reader")


if __name__ == "__main__":
    main(*sys.argv[1:])
