"""`bagit-keep restore`: what a bag lacks, or has wrong, out of its copies."""
import errno
import os
import stat
from contextlib import ExitStack
from os.path import basename, dirname, join, lexists
from typing import Dict, Iterator, List, Sequence, Set, Tuple

from .bagit import content_of, entries_in, manifests_in, reading
from .beside import (
    Beside, Faulty, checked, folder_of, kept_of, refuse_mount, show,
)
from .copies import Copy, Sums, copies_at, say_differences
from .errors import BagError
from .files import sync_folder, write_synced
from .lines import Fault, encoded
from .mending import fits, is_old
from .messages import Refused, explained, say, shown
from .program import Asked
from .runs import BagReport, alone, check
from .trees import dress, link_tree, make_folders, prune
from .usage import read

OLD = "BagIt-Version: 0.97\nTag-File-Character-Encoding: UTF-8\n"
"""The declaration of a bag whose manifests may name some files each."""

Found = Dict[str, Tuple[str, str]]
"""New files, and of which copy each is, by their paths in the bag."""


def in_doubt(report: BagReport) -> Set[Fault]:
    """Faults of payload files by a manifest that isn't what a tag manifest
    gives: it can be the manifest that is wrong, and not the file."""
    wrong = {it.path for it in report.faults if it.code == 702}
    return {
        it for it in report.faults
        if it.code == 701 and f"manifest-{it.algorithm}.txt" in wrong
    }


def wanted_of(bag: str, report: BagReport, is_tag: bool) -> Dict[str, Sums]:
    """The files of one kind that are to be restored, with their digests."""
    codes = (602, 702) if is_tag else (601, 701)
    sure = set(report.faults) - in_doubt(report)
    paths = {it.path for it in sure if it.code in codes}
    if report.unread is not None:
        paths.add(report.unread.path)
    if not paths:
        return {}
    entries = entries_in(bag, is_tag, is_old(bag))
    return {path: entries[path] for path in sorted(paths & set(entries))}


def gather(
    place: Beside, wanted: Dict[str, Sums], copies: List[Copy]
) -> Found:
    """Copies of the files that are wanted. A bag is made of them, and checked
    in full."""
    place.clear()
    place.note()
    os.makedirs(join(place.work, "data"))
    write_synced(join(place.work, "bagit.txt"), OLD.encode())
    found: Found = {}
    manifests: Dict[str, str] = {}
    for number, (path, sums) in enumerate(wanted.items()):
        name = f"data/{number}"
        new = join(place.work, name)
        for copy in copies:
            if copy.has(path, sums, new):
                found[path] = new, copy.path
                for algorithm, digest in sums.items():
                    line = f"{digest}  {name}\n"
                    manifests[algorithm] = manifests.get(algorithm, "") + line
                break
    for algorithm, text in manifests.items():
        name = join(place.work, f"manifest-{algorithm}.txt")
        write_synced(name, text.encode())
    if found:
        checked(place.work)
    return found


def put(new: str, bag: str, path: str, kept: str) -> None:
    """Gives a file its name in a bag. What had it is kept."""
    target, old, like = join(bag, path), join(kept, path), bag
    if lexists(join(bag, "bagit.txt")):
        like = join(bag, "bagit.txt")
    if lexists(target):
        if not stat.S_ISREG(os.stat(target, follow_symlinks=False).st_mode):
            raise OSError(errno.EISDIR, "it isn't a file", target)
        make_folders(dirname(old), bag)
        try:
            os.link(target, old)
        except OSError:
            os.rename(target, old)
        sync_folder(dirname(old))
        if os.access(old, os.R_OK):
            like = old
    make_folders(dirname(target), bag)
    dress(new, like)
    os.rename(new, target)
    sync_folder(dirname(target))
    sync_folder(dirname(new))


def put_all(bag: str, found: Found, kept: str) -> int:
    """Gives files their names in a bag, and says how many got theirs."""
    count = 0
    for path, (new, copy) in found.items():
        try:
            put(new, bag, path, kept)
            say(f"{encoded(path)} is now that of {shown(copy)}")
            count += 1
        except OSError as error:
            say(f"{encoded(path)} isn't put: {explained(error)}")
    return count


def by_digests(
    place: Beside, report: BagReport, copies: List[Copy], kept: str,
    done: Set[str],
) -> Tuple[int, List[str]]:
    """Restores files that have the digests of manifests, tag files first,
    since manifests are among them; says how many, and which no copy has."""
    missing: List[str] = []
    for is_tag in True, False:
        wanted = wanted_of(place.bag, report, is_tag)
        wanted = {it: wanted[it] for it in wanted if it not in done}
        found = gather(place, wanted, copies) if wanted else {}
        missing += [it for it in wanted if it not in found]
        done |= set(found)
        count = put_all(place.bag, found, kept)
        if count:
            return count, missing
    return 0, missing


def is_of(fault: Fault, name: str, algorithm: str) -> bool:
    """Whether a fault is of this tag manifest, or was found by it."""
    is_by_it = fault.code in (602, 702) and fault.algorithm == algorithm
    return is_by_it or fault.path == name


def tag_manifests(
    bag: str, report: BagReport, copies: List[Copy]
) -> Iterator[Tuple[str, Copy, bytes, float]]:
    """Tag manifests of copies that the tag files of a bag fit, where its own
    doesn't: name, copy, content and time."""
    old = is_old(bag)
    for algorithm, path in manifests_in(bag, True).items():
        name, seen = basename(path), [content_of(path)]
        if not any(is_of(it, name, algorithm) for it in report.faults):
            continue
        for copy in copies:
            for content, time in copy.contents(name):
                is_new = content not in seen
                seen.append(content)
                if is_new and fits(bag, algorithm, seen[0], content, old):
                    yield name, copy, content, time


def by_tag_manifest(
    place: Beside, report: BagReport, copies: List[Copy], kept: str,
    done: Set[str],
) -> bool:
    """Takes a tag manifest of a copy, if a full check of the bag with it
    finds fewer faults, and none of its own. Each is taken once."""
    if report.status != 1:
        return False
    for name, copy, content, time in tag_manifests(
        place.bag, report, copies
    ):
        if name in done:
            continue
        place.clear()
        place.note()
        os.mkdir(place.work)
        link_tree(place.bag, place.work, lambda it: it if it != name else None)
        new = join(place.work, name)
        write_synced(new, content)
        os.utime(new, (time, time))
        tried = check(place.work, Asked())
        if tried.unread is not None or any(
            it.path == name for it in tried.faults
        ):
            continue
        if len(tried.faults) < len(report.faults):
            done.add(name)
            return put_all(place.bag, {name: (new, copy.path)}, kept) > 0
    return False


def say_missing(path: str, copies: List[Copy], is_whole: bool) -> None:
    """Says why a file wasn't restored."""
    kind = "manifest" if path.startswith("data/") else "tagmanifest"
    name = encoded(path)
    for copy in copies:
        for algorithm in copy.others.get(path, [])[:1]:
            say(
                f"{shown(copy.path)}: {name} doesn't have the digest that"
                f" {kind}-{algorithm}.txt gives"
            )
    if not any(path in it.others or path in it.unread for it in copies):
        text = f"{name} isn't in what could be read of the copies"
        say(f"no copy has {name}" if is_whole else text)


def restored(
    bag: str, copies: List[Copy], is_whole: bool
) -> Tuple[BagReport, List[str]]:
    """Restores what can be; gives the report of the last full check, and the
    files that no copy has."""
    place, kept = Beside(bag, "restore"), kept_of(bag)
    done: Set[str] = set()
    try:
        while True:
            report = check(bag, Asked())
            count, missing = by_digests(place, report, copies, kept, done)
            if count or by_tag_manifest(place, report, copies, kept, done):
                continue
            doubts = {it.algorithm for it in in_doubt(report)}
            for path in missing:
                say_missing(path, copies, is_whole)
            for name in sorted(f"manifest-{it}.txt" for it in doubts):
                say(
                    f"no file is replaced that differs by {name} alone:"
                    f" restore {name} first"
                )
            if report.unread is not None and report.unread.path in missing:
                say(
                    f"{encoded(report.unread.path)} can't be read, and what"
                    " comes after it isn't checked: move it away, and give"
                    " the same command again"
                )
            if report.status == 0:
                say_differences(bag, copies)
            return report, missing
    finally:
        place.clear()
        prune(kept)
        if lexists(kept):
            say(f"what was there is kept in {shown(kept)}")


def run(words: Sequence[str]) -> int:
    """Does what the command `restore` is asked for, and says its status."""
    asked = read("restore", words)
    names = getattr(asked, "from")
    if not names:
        raise Refused("it takes a bag, and --from with a copy of it")
    bag = folder_of(asked.operands[0])
    for name in names:
        if os.path.realpath(name) == bag:
            raise Refused(f"{shown(name)} is the bag itself")
    with reading(bag), ExitStack() as stack:
        refuse_mount(bag)
        Beside(bag, "restore").left()
        copies = copies_at(names, stack)
        if not copies:
            raise Refused("there is no copy that can be used")
        is_whole = len(copies) == len(names) and not any(
            it.why for it in copies
        )
        stack.enter_context(alone(bag))
        try:
            report, missing = restored(bag, copies, is_whole)
        except Faulty as faulty:
            raise BagError(f"what was copied changed: {faulty}")
    status = show(report)
    is_read = is_whole and not any(set(missing) & it.unread for it in copies)
    return status if is_read or not missing else 3
