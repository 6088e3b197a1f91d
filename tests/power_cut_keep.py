"""Replays the calls of `bagit-keep receive`, `edit`, `repack` and `restore` over a disk that loses what wasn't synced.

usage: power_cut_keep.py KEEP

KEEP is the command; BAGIT names bagit; the folder is an empty one. The power is cut after each call that changes something. A
name is kept, or its removal, where each folder that the call changes was synced after it, and bytes where their file was. Of all
else there is left: nothing; all; some first part; one of it; or all but one. Bytes that aren't kept are others. A renaming is
done whole or not at all. What is left then is looked at: nothing that was there is lost, no bag is there but the old one or the
new one, each whole, and what the command has promised when it ended is there. Then the syncs of files, or of folders, are left
out of the calls, and something has to be lost.
"""
import hashlib
import os
import re
import shutil
import subprocess
import sys
import tarfile
from ast import literal_eval
from itertools import count
from pathlib import Path

CALLS = (
    "openat,mkdir,mkdirat,rename,renameat,renameat2,link,linkat,unlink,unlinkat,rmdir,write,pwrite64,writev,truncate,ftruncate,fsync,"
    "fdatasync,symlink,symlinkat,sendfile,copy_file_range"
)
HERE = os.path.realpath(os.getcwd())
LOST = b"\0lost\0"
numbers = count(1)


class Disk:
    """The names and the bytes that a disk has, by the numbers of files and folders; the folder 0 is HERE."""

    def __init__(self, names=None, data=None):
        self.names = names or {0: {}}
        self.data = data or {}

    def copy(self):
        return Disk({it: dict(names) for it, names in self.names.items()}, dict(self.data))

    def at(self, path):
        """The folder and the name of a path."""
        *above, name = path.split("/")
        folder = 0
        for part in above:
            folder = self.names[folder][part]
        return folder, name

    def number(self, path):
        if not path:
            return 0
        folder, name = self.at(path)
        return self.names[folder][name]

    def do(self, event):
        kind, what = event
        if kind == "names":
            for folder, name, number in what:
                names = self.names.setdefault(folder, {})
                names[name] = number
                if number is None:
                    del names[name]
        elif kind == "data":
            self.data[what[0]] = what[1]

    def tree(self):
        """The bytes of all files, by their paths, and None for folders."""
        found, left = {}, [("", 0)]
        for above, folder in left:
            for name, number in self.names.get(folder, {}).items():
                if number in self.data:
                    found[above + name] = self.data[number]
                else:
                    found[above + name] = None
                    left.append((f"{above}{name}/", number))
        return found


def disk_here():
    """The disk as it is, all of it kept."""
    disk = Disk()
    for path in sorted(it for it in Path(HERE).rglob("*")):
        folder, name = disk.at(str(path.relative_to(HERE)))
        number = next(numbers)
        disk.do(("names", [(folder, name, number)]))
        if path.is_file():
            disk.do(("data", (number, path.read_bytes())))
    return disk


def lines_of(log):
    """The calls, each in one line, in the order in which they ended."""
    begun = {}
    for line in log.read_text(errors="surrogateescape").splitlines():
        process, text = re.fullmatch(r"(\d+) +(.*)", line).groups()
        if text.endswith("<unfinished ...>"):
            begun[process] = text[: -len("<unfinished ...>")]
            continue
        resumed = re.match(r"<\.\.\. \w+ resumed>,? ?", text)
        yield begun.pop(process) + text[resumed.end():] if resumed else text


def inside(path):
    """A path below HERE, or None."""
    return path[len(HERE) + 1:] if path.startswith(f"{HERE}/") else "" if path == HERE else None


def words_of(text):
    """The files and the paths that a call is given: those of descriptors, and those of texts, which may lie below one before."""
    at, paths, opened = "", [], []
    for fd, where, name in re.findall(r'(\w+)<([^>]*)>|"((?:[^"\\]|\\.)*)"', text):
        if fd:
            at = where
            opened.append(where)
        else:
            name = literal_eval(f'b"{name}"').decode("utf-8", "surrogateescape")
            paths.append(inside(name if name.startswith("/") else f"{at or HERE}/{name}"))
    return [inside(it) for it in opened], paths


def events_of(log, disk):
    """The changes and syncs of a log, over a disk that they change."""
    for line in lines_of(log):
        call = re.fullmatch(r"(\w+)\((.*)\) += (\d+)(?:<.*>)?", line)
        if not call:
            continue
        name, text, ended = call.groups()
        if name in ("write", "pwrite64"):
            (opened, *_), _ = words_of(text.partition('"')[0])
            if opened is not None:
                content = literal_eval("b" + re.search(r'"(?:[^"\\]|\\.)*"', text)[0])[: int(ended)]
                number = disk.number(opened)
                yield from done(disk, "data", (number, disk.data.get(number, b"") + content))
            continue
        opened, paths = words_of(text)
        if name in ("fsync", "fdatasync"):
            if opened[0] is not None:
                yield "sync", disk.number(opened[0])
        elif name == "openat":
            if "O_CREAT" in text and paths[0] is not None:
                folder, leaf = disk.at(paths[0])
                if leaf not in disk.names.get(folder, {}):
                    number = next(numbers)
                    disk.data[number] = b""
                    yield from done(disk, "names", [(folder, leaf, number)])
            assert "O_TRUNC" not in text or paths[0] is None, line
        elif None in paths:
            assert paths.count(None) == len(paths), line
        elif name in ("mkdir", "mkdirat"):
            yield from done(disk, "names", [(*disk.at(paths[0]), next(numbers))])
        elif name in ("link", "linkat"):
            yield from done(disk, "names", [(*disk.at(paths[1]), disk.number(paths[0]))])
        elif name.startswith("rename"):
            old, new = map(disk.at, paths)
            yield from done(disk, "names", [(*old, None), (*new, disk.number(paths[0]))])
        elif name in ("unlink", "unlinkat", "rmdir"):
            yield from done(disk, "names", [(*disk.at(paths[0]), None)])
        else:
            raise AssertionError(f"a call that isn't known: {line}")


def done(disk, *event):
    disk.do(event)
    yield event


def is_kept(event, place, synced):
    """Whether a change was synced after its place."""
    kind, what = event
    parts = {it[0] for it in what} if kind == "names" else {what[0]}
    return all(synced.get(it, -1) > place for it in parts)


def choices(loose):
    """Which of the changes that weren't synced may be there."""
    yield ()
    for end in range(1, len(loose) + 1):
        yield loose[:end]
        yield loose[end - 1: end]
        yield loose[: end - 1] + loose[end:]


def states(first, events):
    """What may be left when the power is cut after these events."""
    synced = {}
    for place, (kind, what) in enumerate(events):
        if kind == "sync":
            synced[what] = place
    changes = [(place, it) for place, it in enumerate(events) if it[0] != "sync"]
    loose = [place for place, it in changes if not is_kept(it, place, synced)]
    for chosen in choices(loose):
        gone = set(loose) - set(chosen)
        disk = first.copy()
        for place, event in changes:
            if place not in gone:
                disk.do(event)
            elif event[0] == "data":
                disk.data[event[1][0]] = LOST
            elif event[0] == "names":
                for _, _, number in event[1]:
                    if number is not None:
                        disk.data.setdefault(number, b"") if number in first.data else None
        yield disk.tree()


def below(tree, top):
    """What is below a folder, or None where it isn't there."""
    found = {path[len(top) + 1:]: it for path, it in tree.items() if path.startswith(f"{top}/")}
    return found if top in tree else None


def declared(version="1.0"):
    return f"BagIt-Version: {version}\nTag-File-Character-Encoding: UTF-8\n".encode()


def new_bag(name, files):
    """A bag of these files, by RFC 8493."""
    files = {f"data/{path}": content for path, content in files.items()}
    lines = [f"{hashlib.sha256(content).hexdigest()}  {path}\n" for path, content in files.items()]
    tags = {"bagit.txt": declared(), "bag-info.txt": b"Contact-Name: Ann\n", "manifest-sha256.txt": "".join(lines).encode()}
    lines = [f"{hashlib.sha256(content).hexdigest()}  {path}\n" for path, content in tags.items()]
    tags["tagmanifest-sha256.txt"] = "".join(lines).encode()
    for path, content in {**files, **tags}.items():
        Path(name, path).parent.mkdir(parents=True, exist_ok=True)
        Path(name, path).write_bytes(content)


class Receives:
    def __init__(self):
        new_bag("deposit", {"a": b"one", "in/b": b"two"})
        new_bag("store/older", {"c": b"three"})
        with tarfile.open("deposit.tar.gz", "w:gz") as tar:
            tar.add("deposit")
        self.words = ["receive", "deposit.tar.gz", "store"]

    def loss(self, tree, before, after, is_done):
        for path, content in before.items():
            if tree.get(path, LOST) != content:
                return f"{path} was lost"
        found, wanted = below(tree, "store/deposit"), below(before, "deposit")
        if found not in (None, wanted):
            return "a bag is in the store that isn't the one that came"
        seen = {path.split("/")[1] for path in tree if path.startswith("store/") and path[6] != "."}
        if not seen <= {"older", "deposit"}:
            return f"the store has {seen}"
        receipts = [below(it, "store/.receipts") for it in (tree, after)]
        is_there = found == wanted and receipts[0] == receipts[1]
        return "what was promised isn't there" if is_done and not is_there else None


class Edits:
    def __init__(self):
        new_bag("d", {"a": b"one", "in/b": b"two"})
        Path("new").write_bytes(b"Contact-Name: Eve\n")
        self.words = self.asks()

    def asks(self):
        return ["edit", "d", "bag-info.txt", "--from", "new"]

    def loss(self, tree, before, after, is_done):
        old, new = below(before, "d"), below(after, "d")
        found = below(tree, "d")
        kept = [below(tree, top) for top in tree if re.fullmatch(r"d\.kept\.\w+", top)]
        record = tree.get("d.new/bagit-keep.json", b"")
        if found is None and (below(tree, "d.new/bag") != new or b'"kept": ' not in record):
            return "there is neither the old bag nor the new one"
        if found not in (None, old, new):
            return "a bag is there that is neither the old one nor the new one"
        if old not in (found, *kept):
            return "the old bag was lost"
        return "what was promised isn't there" if is_done and found != new else None


class Repacks(Edits):
    def asks(self):
        return ["repack", "d", "remove", "data/a"]


class Restores:
    def __init__(self):
        new_bag("d", {"a": b"one", "in/b": b"two", "c": b"three"})
        shutil.copytree("d", "copy")
        Path("d/data/a").write_bytes(b"worse")
        Path("d/bag-info.txt").write_bytes(b"worse tag file")
        for manifest in Path("d").glob("tagmanifest-*.txt"):
            manifest.write_bytes(manifest.read_bytes().replace(b" bagit.txt", b" bagid.txt"))
        shutil.rmtree("d/data/in")
        self.words = ["restore", "d", "--from", "copy"]

    def loss(self, tree, before, after, is_done):
        old, good, found = below(before, "d"), below(before, "copy"), below(tree, "d") or {}
        for path, content in found.items():
            if content not in (old.get(path, good[path]), good[path]):
                return f"{path} is neither the old one nor the good one"
        kept = {it for path, it in tree.items() if path.startswith(("d.kept.", "d/"))}
        for path, content in old.items():
            if content is not None and content not in kept:
                return f"{path} was lost"
        return "what was promised isn't there" if is_done and found != good else None


def losses(scenario, first, after, events):
    """What is wrong after a cut of the power."""
    before = first.tree()
    for end in range(len(events) + 1):
        for tree in states(first, events[:end]):
            why = scenario.loss(tree, before, after, end == len(events))
            if why:
                yield end, why


def try_command(kind, keep):
    """Runs a command, and cuts the power after each of its calls."""
    shutil.rmtree(HERE, ignore_errors=True)
    os.mkdir(HERE)
    os.chdir(HERE)
    scenario = kind()
    first, log = disk_here(), Path(f"{HERE}.log")
    words = ["strace", "-f", "-y", "-s", "10000000", "-e", f"trace={CALLS}", "-o", log, keep, *scenario.words]
    ran = subprocess.run(words, capture_output=True, text=True)
    assert ran.returncode == 0, ran
    live = first.copy()
    events, after = list(events_of(log, live)), live.tree()
    assert after == disk_here().tree(), "these calls don't make what is there"
    for end, why in losses(scenario, first, after, events):
        sys.exit(f"{scenario.words[0]}, cut after {end} of {len(events)} calls, {events[:end][-1:]}: {why}")
    files = {number for number in live.data}
    for name, is_left_out in ("files", lambda it: it in files), ("folders", lambda it: it not in files):
        fewer = [it for it in events if it[0] != "sync" or not is_left_out(it[1])]
        if not any(losses(scenario, first, after, fewer)):
            sys.exit(f"{scenario.words[0]}: nothing is lost without the syncs of {name}")
    return len(events)


def main():
    counts = {kind.__name__: try_command(kind, sys.argv[1]) for kind in (Receives, Edits, Repacks, Restores)}
    print("nothing is lost by a cut of the power after each call:", ", ".join(f"{name} {it}" for name, it in counts.items()))


main()
