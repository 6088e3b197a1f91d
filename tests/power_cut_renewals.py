"""Replays the calls by which bags were renewed over disks that lose what wasn't synced, and cuts the power after each
call. tests/power_cut_renewals.sh calls it; the disks are those of power_cut.py, the bags those of refused_renewals.py.

usage: power_cut_renewals.py BAGIT BAGIT_RENEW

Then it kills the program after each of these calls, has the bag renewed again by the same command, and cuts the power
after each call of that; the disk lost nothing by the kill, and had still to keep what the first one did.

What is left is a loss where it isn't a valid bag, by the program or by renew.py; where a payload file isn't what it
was; where the same command doesn't make the renewed bag of it; and, once `renewed` was written, where it isn't that.
"""
import shutil
import subprocess
import sys
import tempfile
from functools import reduce
from pathlib import Path

import power_cut
import renew
from power_cut import FOLDER, MADE, cuts_of, done, tree_of
from refused_renewals import Case, cases, make_bag
from renew import Options
from renewals import Programs, Wrong, demand

PAYLOAD = "d/data/"


def write(tree, top):
    """Puts a tree into a new folder."""
    for path, held in sorted(tree):
        at = f"{top}{path.removeprefix('d')}"
        if held is None:
            Path(at).mkdir()
        else:
            Path(at).write_bytes(held)


class Judge:
    """Says which trees that are left are a loss; of one that was seen before, without looking again."""

    def __init__(self, programs, case, first, bag):
        self.programs, self.case, self.first, self.bag, self.known = programs, case, first, bag, {}

    def payload(self, tree):
        return {path: held for path, held in tree if path.startswith(PAYLOAD)}

    def reasons(self, trees):
        """Why each of them is a loss, or None."""
        trees = [tree for tree in trees if tree not in self.known]
        with tempfile.TemporaryDirectory(dir=".") as work:
            tops = [f"{work}/{number}" for number in range(len(trees))]
            for tree, top in zip(trees, tops):
                write(tree, top)
            invalid = self.invalid(tops)
            others = self.renewed_otherwise([top for top in tops if top not in invalid])
            for tree, top in zip(trees, tops):
                self.known[tree] = invalid.get(top) or others.get(top)
                if self.payload(tree) != self.payload(self.first):
                    self.known[tree] = "the payload is another"

    def invalid(self, tops):
        """Those that aren't valid bags, with the reason."""
        if not tops:
            return {}
        words = [self.programs.bagit, "--validate", *tops]
        told = subprocess.run(words, stdout=subprocess.PIPE, text=True, check=False).stdout
        valid = {line.removesuffix(" is valid") for line in told.splitlines() if line.endswith(" is valid")}
        found = {top: "no valid bag" for top in tops if top not in valid}
        return {**found, **{top: why for top in tops if (why := renew.why_invalid(top))}}

    def renewed_otherwise(self, tops):
        """Those of which the same command doesn't make the renewed bag."""
        if not tops:
            return {}
        status, said, complaint = self.programs.run("--quiet", *self.case.options.words(), *tops)
        demand(status == 0 and not said and not complaint, f"asked again it ends with {status}, {said}, {complaint}")
        wanted = {path.removeprefix("d/").encode(): held for path, held in self.bag if held is not None}
        return {top: "asked again it makes another bag" for top in tops if renew.held(top) != wanted}

    def losses(self, cuts):
        """What is wrong after cuts, with the events before it."""
        cuts = list(cuts)
        self.reasons({tree for _, tree in cuts if tree})
        for before, tree in cuts:
            if tree is None:
                yield before, f"more than {power_cut.MOST_STATES} states"
            elif self.known[tree]:
                yield before, self.known[tree]
            elif MADE in before and tree != self.bag:
                yield before, "another bag than the renewed one"


DISKS = (("strict disk", power_cut.strict_disk), ("disk with a journal", power_cut.disk_with_journal))


def all_cases():
    """The bags; of the last one the first change of a second renewal removes a manifest."""
    yield from cases()
    make_bag("one", "1.0", ["md5"], ["md5"])
    yield Case("SHA-512 in place of MD5", "one", Options(add=("sha512",), drop=("md5",)), True)


def trail_of(programs, case, work):
    """Has the bag `d` in a folder renewed, and gives what it was and is, and the calls that changed it."""
    first = tree_of(str(work / "d"))
    words = ["strace", "-f", "-y", "-s", "100000", "-e", "trace=!read", "-o", "calls", programs.renewing]
    ended = subprocess.run([*words, *case.options.words(), "d"], cwd=work, capture_output=True, check=False)
    demand(ended.returncode == 0, f"{case.name}: it ends with {ended}")
    calls = (work / "calls").read_text(encoding="ascii").replace(f"{work.resolve()}/", "")
    trail = power_cut.trail_of(calls.splitlines(), b" renewed\n")
    bag = tree_of(str(work / "d"))
    is_whole = reduce(lambda tree, event: done(event, tree), trail, first) == bag
    demand(MADE in trail and is_whole, f"{case.name}: these calls don't renew the bag, or don't say that they did")
    return first, bag, trail


def unmissed(judge, trail):
    """The kinds of syncs without which nothing is wrong, on the strict disk, and those of files on the other one too."""
    for (path, *_), places in power_cut.kinds_of_syncs(trail).items():
        fewer = [event for place, event in enumerate(trail) if place not in places]
        for name, disk in DISKS if path != "d" else DISKS[:1]:
            if not any(judge.losses(cuts_of(disk, fewer, judge.first))):
                yield f"{path} on the {name}"


class Killed:
    """Renewals that were killed after each call of the first, and then were asked for again."""

    def __init__(self, programs, case, judge, trail):
        self.programs, self.case, self.judge, self.again = programs, case, judge, {}
        calls = [event for event in trail if event != MADE]
        self.fronts = [calls[:end] for end in range(len(calls) + 1)]

    def second(self, front):
        """The calls of the second renewal."""
        there = reduce(lambda tree, event: done(event, tree), front, self.judge.first)
        if there not in self.again:
            with tempfile.TemporaryDirectory(dir=".") as work:
                write(there, f"{work}/{FOLDER}")
                _, bag, self.again[there] = trail_of(self.programs, self.case, Path(work))
            demand(bag == self.judge.bag, f"{self.case.name}: asked again it makes another bag")
        return self.again[there]

    def cuts(self, without=None):
        """What the strict disk may be left with after each cut; where this isn't the first event of a second renewal."""
        for front in self.fronts:
            second = self.second(front)
            trail = front + (second[1:] if second[0] == without else second)
            for end in range(len(front), len(trail) + 1):
                try:
                    yield from ((trail[:end], tree) for tree in power_cut.strict_disk(trail[:end], self.judge.first))
                except OverflowError:
                    yield trail[:end], None
                    break


def try_killed(programs, case, judge, trail):
    """How much is wrong where a renewal was killed."""
    killed = Killed(programs, case, judge, trail)
    losses = list(judge.losses(killed.cuts()))
    for before, loss in losses[:3]:
        last = (word for event in before[-1:] for word in event if isinstance(word, str))
        print("killed, asked again, and cut after", *last, "-", loss)
    print(f"{case.name}: killed {len(killed.fronts)} times and asked again, {len(losses)} losses")
    if case.top == "one" and not losses and not any(judge.losses(killed.cuts(("fsync", FOLDER)))):
        print(f"{case.name}: nothing is wrong without the first sync of a second renewal")
        return 1
    return len(losses)


def try_case(programs, case):
    """How much is wrong."""
    work = Path(tempfile.mkdtemp(prefix=f"{case.top}-cut.", dir="."))
    shutil.copytree(case.top, work / FOLDER)
    first, bag, trail = trail_of(programs, case, work)
    judge, count = Judge(programs, case, first, bag), 0
    for name, disk in DISKS:
        cuts = list(cuts_of(disk, trail, first))
        losses = list(judge.losses(cuts))
        for end, loss in sorted({(len(before), loss) for before, loss in losses})[:3]:
            print(name, "cut after", *(word for word in trail[end - 1] if isinstance(word, str)), "-", loss)
        print(f"{case.name}, {name}: {len(trail)} calls, {len(cuts)} states, {len(losses)} losses")
        count += len(losses)
    for path in [] if count else unmissed(judge, trail):
        print(f"{case.name}: nothing is wrong without the syncs of {path}")
        count += 1
    return count + try_killed(programs, case, judge, trail)


def main(bagit, renewing):
    programs = Programs(bagit, renewing)
    wrong = sum(try_case(programs, case) for case in all_cases())
    print(f"{wrong} wrong")
    sys.exit(wrong > 0)


if __name__ == "__main__":
    try:
        main(*sys.argv[1:])
    except Wrong as error:
        sys.exit(str(error))
