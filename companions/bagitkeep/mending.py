"""Tag files that are changed with all that says what they are.

Of a manifest only the lines are changed that have to be. A digest is written
anew only of a file that had the one that stood there, so that damage never
passes for a change.
"""
import hashlib
import re
import shutil
from collections import Counter
from os.path import basename, dirname, isdir, join, lexists
from typing import Callable, Dict, Iterable, Iterator, Optional, Set, Tuple

from . import tags
from .bagit import Bag, content_of, manifests_in, reading
from .errors import BagError
from .files import digests_of, opened, sync_folder, write_synced
from .messages import printable
from .trees import dress, link_tree, make_folders

Changes = Dict[str, Optional[bytes]]
"""What tag files are to have, by their paths; None if one is removed."""

Entry = Tuple[str, str]
"""A path, and its digest."""

BYTE_ORDER_MARK = "\ufeff"


def is_old(bag: str) -> bool:
    """Whether a bag is of version 0.97; any other is read as one of 1.0."""
    try:
        return Bag(bag).version == "0.97"
    except BagError:
        return False


def line_of(path: str, digest: str, old: bool) -> str:
    """The line of a manifest; a BagError where none can name the path."""
    text = path if old else path.replace("%", "%25")
    text = text.replace("\n", "%0A").replace("\r", "%0D")
    if text[0] in tags.BLANKS + "*" or tags.path_of(text, old) != path:
        raise BagError(f"no manifest can name {printable(path)}")
    return f"{digest}  {text}\n"


def changed(
    content: bytes,
    old: bool,
    change: Callable[[str, str], Optional[Entry]],
    added: Iterable[Entry] = (),
) -> bytes:
    """A manifest in which each path and digest are what `change` says, if
    anything, and others are added. Lines that stay keep their bytes."""
    text = content.decode("utf-8")
    mark = BYTE_ORDER_MARK if text.startswith(BYTE_ORDER_MARK) else ""
    parts = re.split("(\r\n|\n|\r)", text[len(mark):])
    lines = []
    for line, end in zip(parts[::2], [*parts[1::2], ""]):
        found = tags.ENTRY.fullmatch(line)
        path = found and tags.path_of(found[2].removeprefix("*"), old)
        if found and path:
            entry = path, found[1].lower()
            becomes = change(*entry)
            if becomes is None:
                continue
            if becomes[0] != path:
                line = line_of(*becomes, old)[:-1]
            elif becomes != entry:
                line = becomes[1] + line[len(found[1]):]
        lines.append(line + end)
    text = "".join(lines)
    new = [line_of(*entry, old) for entry in added]
    if new and text and text[-1] not in "\r\n":
        text += "\n"
    return (mark + text + "".join(new)).encode("utf-8")


def digest_of(content: Optional[bytes], algorithm: str) -> Optional[str]:
    """The digest of a file's content, if there is a file."""
    if content is None:
        return None
    return hashlib.new(algorithm, content, usedforsecurity=False).hexdigest()


def mended(bag: str, changes: Changes) -> Changes:
    """Changes of tag files, and of the tag manifests that name them."""
    before = {
        path: content_of(join(bag, path)) if lexists(join(bag, path)) else None
        for path in changes
    }
    result, old = dict(changes), is_old(bag)
    for algorithm, path in manifests_in(bag, True).items():
        if (name := basename(path)) in changes:
            continue

        def change(path: str, digest: str) -> Optional[Entry]:
            was = digest_of(before.get(path), algorithm)
            if path not in changes or digest != was:
                return path, digest
            new = digest_of(changes[path], algorithm)
            return None if new is None else (path, new)

        content = content_of(path)
        named = tags.entries_of(content, algorithm, True, old)
        added = [
            (path, digest_of(new, algorithm) or "")
            for path, new in changes.items()
            if new is not None and path not in named
            if tags.may_name(True, path)
        ]
        result[name] = changed(content, old, change, added)
    return {
        path: new for path, new in result.items()
        if path in changes or new != content_of(join(bag, path))
    }


def given(
    content: bytes, algorithm: str, is_tag: bool, old: bool
) -> Dict[str, Set[str]]:
    """All digests that a manifest gives, by paths. Of one that isn't UTF-8
    they are taken too, though `bagit` reads none there."""
    text = content.decode("utf-8", "backslashreplace").encode("utf-8")
    found: Dict[str, Set[str]] = {}
    for path, digest in tags.given_by(text, algorithm, is_tag, old):
        found.setdefault(path, set()).add(digest)
    return found


def has_one(path: str, algorithm: str, digests: Set[str]) -> bool:
    """Whether a file is there, and has one of these digests."""
    if isdir(path):
        return False
    try:
        with opened(path) as file:
            return digests_of(file, [algorithm])[algorithm] in digests
    except (FileNotFoundError, NotADirectoryError):
        return False


def lost(
    was: Dict[str, Set[str]],
    becomes: Dict[str, Set[str]],
    has: Callable[[str, Set[str]], bool],
) -> Iterator[str]:
    """The paths whose digests one manifest gives, and not the next, though
    the file hasn't them. A digest may come to a path that wasn't named, one
    for each path that goes."""
    come = Counter(
        digest
        for path, digests in becomes.items()
        if path not in was
        for digest in digests
    )
    for path, digests in was.items():
        if digests & becomes.get(path, set()) or has(path, digests):
            continue
        moved = {it for it in digests if come[it] > 0}
        if path in becomes or not moved:
            yield path
        else:
            come[min(moved)] -= 1


def untold(bag: str, new: str) -> Iterator[Entry]:
    """What the manifests of a bag tell of damage, and those of a new bag
    don't: a path, and the algorithm by which its file hasn't the digest that
    was given."""
    old, becomes_old = is_old(bag), is_old(new)
    for is_tag in (False, True):
        places = manifests_in(new, is_tag)
        for algorithm, place in manifests_in(bag, is_tag).items():
            was, next_place = content_of(place), places.get(algorithm)
            becomes = content_of(next_place) if next_place else b""
            if (was, old) == (becomes, becomes_old):
                continue

            def has(path: str, digests: Set[str]) -> bool:
                return has_one(join(bag, path), algorithm, digests)

            for path in lost(
                given(was, algorithm, is_tag, old),
                given(becomes, algorithm, is_tag, becomes_old),
                has,
            ):
                yield path, algorithm


def alike(one: str, other: str) -> bool:
    """Whether one digest can be the other, damaged: those of other bytes
    differ in nearly all digits, and not in less than half."""
    return 2 * sum(a != b for a, b in zip(one, other)) < len(one)


def fits(
    bag: str, algorithm: str, was: bytes, becomes: bytes, old: bool
) -> bool:
    """Whether the tag files of a bag have the digests of a tag manifest that
    isn't its own, which names all that its own does. Where its own gives
    another digest, this has to be alike: else it tells of other bytes."""
    named, new = (given(it, algorithm, True, old) for it in (was, becomes))
    for path, digests in new.items():
        if not has_one(join(bag, path), algorithm, digests):
            return False
        if not any(
            alike(a, b) for a in named.get(path, digests) for b in digests
        ):
            return False
    return not any(lost(named, new, lambda path, digests: path in new))


def build(bag: str, to: str, changes: Changes) -> None:
    """Makes a bag in a folder, which may have its payload: some tag files are
    changed, the tag manifests with them, and all other files are linked."""
    with reading(bag):
        changes = mended(bag, changes)
    has_payload = isdir(join(to, "data"))

    def place_of(path: str) -> Optional[str]:
        is_there = path in changes or has_payload and path == "data"
        return None if is_there else path

    link_tree(bag, to, place_of)
    for path, content in changes.items():
        if content is not None:
            old, new = join(bag, path), join(to, path)
            make_folders(dirname(new), to)
            write_synced(new, content)
            like = old if lexists(old) else join(bag, "bagit.txt")
            dress(new, like if lexists(like) else bag)
            sync_folder(dirname(new))
    shutil.copystat(bag, to)
    dress(to, bag)
    sync_folder(to)
