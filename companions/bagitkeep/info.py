"""`bagit-keep info`: what the tag files of a bag say, and its seal."""
import json
import os
import sys
from typing import Any, Dict, Iterator, List, Optional, Sequence

from . import tags, usage
from .bagit import Bag, content_of, reading
from .messages import Refused, printable, shown
from .seal import payload_of, seal_of


def manifests_of(bag: Bag) -> Iterator[Dict[str, Any]]:
    """Each manifest, and how many paths it names: None if `bagit` doesn't
    have its algorithm."""
    for name in sorted(os.listdir(bag.path)):
        found = tags.MANIFEST_NAME.fullmatch(name)
        path = os.path.join(bag.path, name)
        if found is None or not os.path.isfile(path):
            continue
        is_tag, algorithm = found[1] is not None, found[2]
        count: Optional[int] = None
        if algorithm in tags.HEX_DIGITS:
            with reading(path):
                is_old = bag.version == "0.97"
                count = len(
                    tags.entries_of(
                        content_of(path), algorithm, is_tag, is_old
                    )
                )
        yield {"file": name, "algorithm": algorithm, "entries": count}


def description_of(directory: str) -> Dict[str, Any]:
    """What is written of a bag; or a BagError."""
    bag = Bag(directory)
    with reading(bag.path):
        files, size = payload_of(bag.path)
        return {
            "bag": directory,
            "version": bag.version,
            "encoding": bag.encoding,
            "elements": [list(element) for element in bag.elements()],
            "manifests": list(manifests_of(bag)),
            "files": files,
            "bytes": size,
            "seal": seal_of(bag.path),
        }


def text_of(description: Dict[str, Any]) -> str:
    """The same for people, with nothing that a terminal obeys."""
    rows = [
        ("bag", shown(description["bag"])),
        ("version", description["version"]),
        ("encoding", description["encoding"]),
        ("payload", "files: {files}, bytes: {bytes}".format(**description)),
        ("seal", description["seal"]),
    ]
    for manifest in description["manifests"]:
        count = manifest["entries"]
        what = "not read" if count is None else f"entries: {count}"
        rows.append((manifest["file"], what))
    lines = [f"{name}: {printable(text)}" for name, text in rows]
    return "\n".join([*lines, "", *lines_of(description["elements"])]) + "\n"


def lines_of(elements: List[List[str]]) -> Iterator[str]:
    """The elements as bag-info.txt has them."""
    for label, value in elements:
        first, *others = map(printable, value.split("\n"))
        yield f"{printable(label)}: {first}"
        yield from (f"    {line}" for line in others)


def run(words: Sequence[str]) -> int:
    """Does what the command `info` is asked for, and says its status."""
    asked = usage.read("info", words)
    description = description_of(asked.operands[0])
    if sys.stdout is None:
        raise Refused("standard output is closed", 3)
    if asked.json:
        sys.stdout.write(json.dumps(description) + "\n")
    else:
        text = text_of(description)
        sys.stdout.buffer.write(text.encode("utf-8", "backslashreplace"))
    return 0
