"""`bagit-keep edit`: a tag file is changed, and its lines with it."""
import os
import shlex
import subprocess
from os.path import basename, join, lexists
from typing import Optional, Sequence

from .bagit import content_of, reading
from .beside import (
    Beside, folder_of, kept_of, path_in_bag, replaced, show,
)
from .errors import BagError
from .files import write_synced
from .lines import encoded
from .mending import Changes, build, untold
from .messages import Refused, say, shown
from .program import Asked, needed
from .runs import check
from .usage import MANY, read


def content_at(path: str) -> Optional[bytes]:
    """What a file has, if there is one."""
    return content_of(path) if lexists(path) else None


def edit(bag: str, path: str, file: str, changes: Changes) -> None:
    """Notes what an editor makes of a tag file, in a file of its own."""
    words = os.environ.get("VISUAL") or os.environ.get("EDITOR") or "vi"
    old = content_at(join(bag, path))
    write_synced(file, old or b"")
    status = subprocess.call([*shlex.split(words), file])
    new = content_at(file)
    if new is not None and new != old and (new or status == 0):
        changes[path] = new
    if status != 0:
        raise BagError(f"the editor ended with {status}")
    if new is None:
        raise BagError(f"the editor has removed its file of {encoded(path)}")


def edit_all(
    bag: str, paths: Sequence[str], folder: str, changes: Changes
) -> None:
    """Notes what an editor makes of tag files, in a new folder."""
    os.mkdir(folder)
    for number, path in enumerate(paths):
        file = join(folder, f"{number}-{basename(path)}")
        edit(bag, path, file, changes)
    if not changes:
        raise BagError("nothing was changed")


def refuse_untold(bag: str, new: str) -> None:
    """Refuses a new bag, in which no fault was found, if it tells less of
    damage than the old one."""
    for path, algorithm in untold(bag, new):
        raise Refused(
            f"{encoded(path)} isn't there with its {algorithm} checksum, and"
            " with this change nothing would say so: restore it first",
            1,
        )


def keep_text(bag: str, changes: Changes) -> None:
    """Keeps what was written by an editor, and doesn't come into the bag."""
    for path, text in changes.items():
        kept = kept_of(bag)
        write_synced(kept, text or b"")
        say(f"what was written into {encoded(path)} is {shown(kept)}")


def change(bag: str, paths: Sequence[str], given: Optional[Changes]) -> int:
    """Changes tag files, as is given or else by an editor."""
    place, changes = Beside(bag, "edit"), dict(given or {})
    if given and not lexists(place.path):
        if all(content_at(join(bag, it)) == given[it] for it in given):
            return show(check(bag, Asked()))

    def make(work: str) -> None:
        if not given:
            edit_all(bag, paths, place.text, changes)
        build(bag, work, changes)

    def look(work: str) -> None:
        refuse_untold(bag, work)

    words = [*paths, *([] if given else ["by an editor"])]
    status = 1
    try:
        status = replaced(bag, "edit", words, make, look)
    finally:
        if status != 0 and not given:
            keep_text(bag, changes)
    return status


def run(words: Sequence[str]) -> int:
    """Does what the command `edit` is asked for, and says its status."""
    asked = read("edit", words, 2, MANY)
    source, names = getattr(asked, "from"), asked.operands[1:]
    if source and (asked.remove or len(names) > 1):
        raise Refused("it takes a bag, paths in it, and at most one option")
    bag, paths = folder_of(asked.operands[0]), list(map(path_in_bag, names))
    for path in paths:
        if path.split("/")[0] == "data":
            raise Refused(f"{shown(path)} is no tag file")
    needed()
    with reading(bag):
        if source:
            return change(bag, paths, {paths[0]: content_of(source)})
        gone: Changes = dict.fromkeys(paths)
        return change(bag, paths, gone if asked.remove else None)
