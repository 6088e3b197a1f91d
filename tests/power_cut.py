"""Replays the calls by which a bag was made over disks that lose what wasn't synced, and cuts the power after each call.

usage: power_cut.py BEFORE AFTER CALLS PROGRAM

BEFORE is the folder as it was, all of it on the disk; AFTER is the bag that it became; CALLS is what `strace -y` wrote of
the making, where the folder is `d`; PROGRAM checks what is left. There are two disks:

- A strict one keeps what was synced, and of all else any part in any combination. A name is kept, or its removal, where
  each folder that it is in or was in was synced after the change, and bytes where their file was. Once it or one above it was made or
  renamed a path means another file or folder, so that a sync of it keeps nothing older. Each renaming is done whole or
  not at all, and replaces what has the new name; what is moved into a folder that isn't there is lost. Bytes go to what
  has the path of their file, and those that aren't kept may be any: here they are zeros, or end after any line or in the
  middle.
- One with a journal keeps the changes of names in their order, so that some first part of them is left. A sync writes the
  journal up to the last change of what is synced, and nothing where that didn't change: ext4 and XFS promise no more.
  Bytes are in no journal, and are kept as by the strict disk: a name may be on the disk before the bytes of its file.

What is left is a loss where a file of the folder is whole neither at its path nor at that path in `.bagit-new` or `data`;
where PROGRAM calls it a valid bag, and a file isn't in its payload; and, once `made` was written, where it isn't the bag
that was made.
"""
import os
import re
import subprocess
import sys
import tempfile
from ast import literal_eval
from functools import reduce

FOLDER, NEW_FOLDER, PAYLOAD = "d", "d/.bagit-new", "d/data"
INFO, MANIFEST = "d/bag-info.txt", "d/manifest-sha256.txt"
LOOKS = "access close execve fchmod fchown fcntl fstat getdents64 lstat newfstatat read readlink readlinkat stat statx".split()
NAMES = ("mkdir", "create", "rename", "remove")
MADE = ("made",)
MOST_STATES = 2000


def within(top, path):
    return path == top or path.startswith(top + "/")


def folder_of(path):
    return path.rpartition("/")[0]


def event_of(line):
    """The change, the sync or the output that a call was. None of one that looks or was refused."""
    call = re.match(r"(?:\d+ +)?(\w+)\((.*)\) += (\d+)", line)
    if not call and not re.search("unfinished|resumed", line):
        return None
    name, words, count = call.groups() if call else ("", line, 0)
    opened = re.match(r"(\d+)<(.*?)>", words)
    texts = [literal_eval(f'b"{text}"') for text in re.findall(r'"((?:[^"\\]|\\.)*)"', words)]
    if name == "write" and opened[1] == "1":
        return ("output", texts[0])
    if name in LOOKS or call and not any(within(FOLDER, path) for path in re.findall(r'["<](.*?)/?[">]', words)):
        return None
    if name == "fsync":
        return (name, opened[2])
    if name == "write":
        return (name, opened[2], texts[0][: int(count)])
    if name in ("mkdir", "rename"):
        return (name, *(text.decode() for text in texts))
    if name in ("unlink", "unlinkat") and "AT_REMOVEDIR" not in words:
        return ("remove", texts[0].decode())
    if name == "openat" and "O_CREAT|O_EXCL" in words:
        return ("create", texts[0].decode())
    if name == "openat" and "O_RDONLY" in words:
        return None
    sys.exit(f"a call that isn't known: {line}")


def trail_of(lines, promise=b" made\n"):
    """The changes and syncs in their order, and where `made` was written, or what else promises that all is done."""
    trail, output = [], b""
    for event in filter(None, map(event_of, lines)):
        if event[0] != "output":
            trail.append(event)
            continue
        output += event[1]
        if output.endswith(promise):
            trail.append(MADE)
    return trail


def tree_of(root):
    """What stands in a folder, by path: the bytes of a file, None for a folder."""
    tree = {}
    for folder, _, files in os.walk(root):
        top = FOLDER + folder[len(root) :]
        tree[top] = None
        for name in files:
            with open(f"{folder}/{name}", "rb") as file:
                tree[f"{top}/{name}"] = file.read()
    return frozenset(tree.items())


def done(event, tree):
    """The tree after an event."""
    kind, *words = event
    left = dict(tree)
    if kind == "remove":
        left.pop(words[0], None)
    elif kind in NAMES:
        old, new = words[0], words[-1]
        named = {new: None if kind == "mkdir" else b""}
        if kind == "rename":
            named = {new + path[len(old) :]: held for path, held in tree if within(old, path)}
        if named:
            left = {path: held for path, held in tree if not within(old, path) and not within(new, path)}
        if folder_of(new) in left:
            left.update(named)
    elif kind == "write" and words[0] in left:
        left[words[0]] += words[1]
    return frozenset(left.items())


def parts(event, tree):
    """The trees that an event may leave where it isn't kept: the one before it, but for a write any bytes in its file."""
    held = dict(tree)
    if event[0] != "write" or event[1] not in held:
        return [tree]
    whole = held[event[1]] + event[2]
    ends = [0, len(whole) // 2, *(line.end() for line in re.finditer(b"\n", whole))]
    found = [bytes(len(whole)), *(whole[:end] for end in ends)]
    return [frozenset({**held, event[1]: some}.items()) for some in found]


def is_synced(path, later):
    for kind, *paths in later:
        if kind == "fsync" and paths == [path]:
            return True
        if kind in NAMES and any(within(named, path) for named in paths):
            return False
    return False


def is_kept(event, later):
    if event[0] in NAMES:
        return all(is_synced(folder_of(path), later) for path in event[1:])
    return event[0] != "write" or is_synced(event[1], later)


def left_of(events, first):
    """The trees that are left of events of which some are kept, and of the others any."""
    trees = {first}
    for event, kept in events:
        partly = [] if kept else [part for tree in trees for part in parts(event, tree)]
        trees = {done(event, tree) for tree in trees}.union(partly)
        if len(trees) > MOST_STATES:
            raise OverflowError
    return trees


def strict_disk(trail, first):
    return left_of([(event, is_kept(event, trail[place:])) for place, event in enumerate(trail, 1)], first)


def journal_written(trail):
    """How many events there are up to the last that a sync wrote."""
    written = 0
    for place, (kind, *synced) in enumerate(trail):
        for end, (name, *paths) in enumerate(trail[:place], 1):
            if kind == "fsync" and name in NAMES and {*synced} & {*paths, *map(folder_of, paths)}:
                written = max(written, end)
    return written


def disk_with_journal(trail, first):
    trees = set()
    for end in range(journal_written(trail), len(trail) + 1):
        events = [
            (event, event[0] in NAMES or is_kept(event, trail[place:]))
            for place, event in enumerate(trail, 1)
            if place <= end or event[0] == "write" and ("create", event[1]) in trail[:end]
        ]
        trees |= left_of(events, first)
    return trees


class Judge:
    """Says which trees that are left are a loss."""

    def __init__(self, before, after, program):
        self.first, self.bag, self.program = tree_of(before), tree_of(after), program
        self.files = [(path[len(FOLDER) :], held) for path, held in sorted(self.first) if held is not None]

    def missing(self, tree, *tops):
        """The first file of the folder that is whole below none of these."""
        held = dict(tree)
        return next((path for path, whole in self.files if all(held.get(top + path) != whole for top in tops)), None)

    def valid(self, trees):
        """Those that the program calls valid bags."""
        trees = list(trees)
        with tempfile.TemporaryDirectory() as work:
            for number, tree in enumerate(trees):
                for path, held in sorted(tree):
                    at = f"{work}/{number}{path[len(FOLDER):]}"
                    if held is None:
                        os.mkdir(at)
                    else:
                        with open(at, "wb") as file:
                            file.write(held)
            words = [self.program, "--validate", *map(str, range(len(trees)))]
            told = subprocess.run(words, cwd=work, stdout=subprocess.PIPE, text=True, check=False).stdout
        ends = re.findall(r"^(\d+) (is valid|has faults: \d+)$", told, re.MULTILINE)
        if [int(number) for number, _ in ends] != list(range(len(trees))):
            sys.exit(f"a check of what is left doesn't end as it must: {told[-200:]}")
        return {tree for tree, (_, end) in zip(trees, ends) if end == "is valid"}

    def lost(self, tree):
        return self.missing(tree, FOLDER, NEW_FOLDER, PAYLOAD)

    def wrongly_valid(self, trees):
        """Those that the program calls valid bags, while a file that isn't lost isn't in the payload."""
        partly = [tree for tree in trees if self.missing(tree, PAYLOAD) and not self.lost(tree)]
        valid = self.valid([self.bag, *partly])
        if self.bag not in valid:
            sys.exit("the bag that was made isn't valid")
        return valid - {self.bag}

    def losses(self, cuts, wrongly_valid=frozenset()):
        """What is wrong after cuts, with the events before it."""
        for before, tree in cuts:
            if tree is None:
                yield before, f"more than {MOST_STATES} states"
            elif self.lost(tree):
                yield before, f"{self.lost(tree)[1:]} is lost"
            elif tree in wrongly_valid:
                yield before, f"a bag without {self.missing(tree, PAYLOAD)[1:]} is valid"
            elif MADE in before and tree != self.bag:
                yield before, "another bag than the one that was made"


def cuts_of(disk, trail, first):
    """What may be left after each cut, with the events before it; None, at last, where that is too much to look at."""
    for end in range(len(trail) + 1):
        try:
            trees = disk(trail[:end], first)
        except OverflowError:
            yield trail[:end], None
            return
        for tree in trees:
            yield trail[:end], tree


def replay(judge, trail):
    """Says what is lost on both disks, and how often."""
    count = 0
    for name, disk in ("strict disk", strict_disk), ("disk with a journal", disk_with_journal):
        cuts = list(cuts_of(disk, trail, judge.first))
        losses = list(judge.losses(cuts, judge.wrongly_valid({tree for _, tree in cuts if tree})))
        for end, loss in sorted({(len(before), loss) for before, loss in losses})[:3]:
            print(name, "cut after", *(word for word in trail[end - 1] if isinstance(word, str)), "-", loss)
        print(f"{name}: {len(trail)} calls, {len(trail) + 1} cuts, {len(cuts)} states, {len(losses)} losses")
        count += len(losses)
    return count


def kinds_of_syncs(trail):
    """The syncs by what is synced, and by whether none, some or all renamings were done: of each kind the places."""
    kinds = {}
    for place, event in enumerate(trail):
        if event[0] == "fsync":
            before, after = ("rename" in (kind for kind, *_ in some) for some in (trail[:place], trail[place:]))
            kinds.setdefault((event[1], before, after), set()).add(place)
    return kinds


def unmissed(judge, trail):
    """What the replay doesn't miss: each kind of sync on the strict disk, and those of files on the other one too."""
    files = {path for path, held in judge.bag if held is not None}
    for (path, *_), places in kinds_of_syncs(trail).items():
        fewer = [event for place, event in enumerate(trail) if place not in places]
        for disk in (strict_disk, disk_with_journal) if path in files else (strict_disk,):
            if not any(judge.losses(cuts_of(disk, fewer, judge.first))):
                yield path
    # Where neither the moves nor the texts that count and list the files are kept, a part of the bag may be a valid one.
    fewer = [event for event in trail if event[0] != "fsync" or event[1] not in (NEW_FOLDER, INFO, MANIFEST)]
    begun = [place for place, event in enumerate(fewer, 1) if event[:2] == ("write", MANIFEST)]
    if not judge.wrongly_valid(strict_disk(fewer[: begun[0]], judge.first)):
        yield f"{NEW_FOLDER}, {INFO} and {MANIFEST}"


def main():
    before, after, calls, program = sys.argv[1:]
    judge = Judge(before, after, program)
    with open(calls, encoding="ascii") as lines:
        trail = trail_of(lines)
    if MADE not in trail or reduce(lambda tree, event: done(event, tree), trail, judge.first) != judge.bag:
        sys.exit("these calls don't make the bag that is there, or don't say that they did")
    wrong = replay(judge, trail)
    for path in [] if wrong else unmissed(judge, trail):
        print(f"nothing is wrong without the syncs of {path}")
        wrong += 1
    print(f"{len(kinds_of_syncs(trail))} kinds of syncs, {wrong} wrong")
    sys.exit(wrong > 0)


if __name__ == "__main__":
    main()
