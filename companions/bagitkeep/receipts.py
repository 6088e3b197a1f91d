"""The receipt of a deposit: what came, what was found, what became of it."""
import html
import json
import os
import re
from os.path import splitext
from typing import Any, Dict, Iterable, Iterator, List, Optional, Tuple

from . import __version__, tags
from .bagit import Bag
from .info import description_of
from .files import sha256_of
from .lines import FAULTS, Fault, encoded, template
from .members import Member, folder_content, folders_of, key_of
from .messages import printable
from .places import place_text
from .program import find
from .received import enter

SHOWN = 3
WEAK = {"md5", "sha1"}
DEVICES = "con prn aux nul com[1-9] lpt[1-9]".replace(" ", "|")
NOT_IN_WINDOWS = re.compile(
    rf'[<>:"\\|?*\x00-\x1f]|[ .]$|^(?:{DEVICES})(?:\.|$)', re.IGNORECASE
)

Remark = Tuple[str, List[str]]
"""What people should know, and of which paths."""


def text_of(remark: Remark) -> str:
    """A remark with the first of its paths."""
    text, paths = remark
    if not paths:
        return text
    more = ", .." if len(paths) > SHOWN else ""
    first = ", ".join(map(encoded, paths[:SHOWN]))
    return f"{text}: {len(paths)} ({first}{more})"


def of_manifests(bag: Bag, files: List[str]) -> Iterator[Remark]:
    """What manifests leave open."""
    to_fetch = list(bag.files_to_be_fetched())
    if to_fetch:
        yield "files that fetch.txt names", to_fetch
    kinds = [it for it in map(tags.MANIFEST_NAME.fullmatch, files) if it]
    if not {it[2] for it in kinds if not it[1]} - WEAK:
        yield "no payload manifest but of MD5 or SHA-1", []
    if not any(it[1] for it in kinds):
        yield "no tag manifest, so no tag file was compared", []
        return
    named = bag.tagfile_entries()
    begins = "data/", "tagmanifest-"
    others = [it for it in files if not it.startswith(begins)]
    others = [it for it in others if it not in named]
    if others:
        yield "tag files that no tag manifest names", others


def of_names(members: List[Member], files: List[str]) -> Iterator[Remark]:
    """What names and folders say."""
    filled = {folder for path in files for folder in folders_of(path)}
    folders = [it.path for it in members if it.is_folder]
    paths = [it.path for it in members]
    seen: Dict[str, str] = {}
    found = {
        "bags in the bag": [it for it in files if it.endswith("/bagit.txt")],
        "empty folders": [it for it in folders if it not in filled],
        "names that Windows refuses": list(filter(refused_by_windows, paths)),
        "names that differ by case or normal form alone": [
            it for it in paths if seen.setdefault(key_of(it), it) != it
        ],
    }
    return ((text, paths) for text, paths in found.items() if paths)


def refused_by_windows(path: str) -> bool:
    """Whether the last part of a path is no name there."""
    return NOT_IN_WINDOWS.search(path.rpartition("/")[2]) is not None


def explained_faults(faults: Iterable[Fault]) -> List[Dict[str, str]]:
    """Faults, each with what it means and what to do."""
    found = []
    for fault in faults:
        _, means, asks = FAULTS[fault.code]
        found.append({"fault": str(fault), "means": means, "to_do": asks})
    return found


def description(path: str, is_valid: bool) -> Tuple[Dict[str, Any], List[str]]:
    """What a receipt says of a bag that can be opened, and remarks: what a
    check passes over, and people should know. Files are called compared only
    where the check says that all were."""
    bag, known = Bag(path), description_of(path)
    members = folder_content(path).members
    files = [it.path for it in members if not it.is_folder]
    tag_files = [it for it in files if not it.startswith("data/")]
    labels = {label.lower(): value for label, value in known["elements"][::-1]}
    compared = {it["file"]: it["entries"] for it in known["manifests"]}
    remarks = [*of_manifests(bag, files), *of_names(members, files)]
    return {
        "external_identifier": labels.get("external-identifier"),
        "announced": labels.get("payload-oxum"),
        "files": known["files"],
        "bytes": known["bytes"],
        "compared": compared if is_valid else {},
        "tag_files": {
            it: sha256_of(os.fsencode(os.path.join(path, it)))
            for it in tag_files
        },
        "seal": known["seal"],
        "version": known["version"],
    }, [text_of(it) for it in remarks]


def versions() -> Dict[str, Any]:
    """Which programs judged."""
    bagit = find()
    digest = bagit and sha256_of(os.fsencode(bagit))
    return {"bagit-keep": __version__, "bagit_sha256": digest}


def page_of(receipt: Dict[str, Any]) -> str:
    """A receipt as a page to be printed and signed."""
    title = f"Receipt {receipt['number']}: {receipt['decision']}"
    known = {key: it for key, it in receipt.items() if it is not None}
    return template("receipt.html").format(
        title=html.escape(title),
        says=html.escape(printable(sentence_of(receipt))),
        body=shown_value(known),
    )


def sentence_of(receipt: Dict[str, Any]) -> str:
    """What became of a deposit, for whoever made it."""
    came = f"{receipt['arrived']['name']} came at {receipt['received']}, and"
    if receipt["folder"] is None:
        return f"{came} is refused: {receipt['why']}. It is left as it came."
    bag = receipt["bag"]
    return (
        f"{came} is a valid bag (RFC 8493; files: {bag['files']}, bytes:"
        f" {bag['bytes']}): bagit read each file, and compared it with the"
        " digests that came with the bag."
    )


def shown_value(value: Any) -> str:
    """A value of a receipt as a part of a page."""
    if isinstance(value, dict):
        rows = (
            f"<tr><th>{html.escape(printable(key.replace('_', ' ')))}</th>"
            f"<td>{shown_value(it)}</td></tr>\n"
            for key, it in value.items()
        )
        return f"<table>\n{''.join(rows)}</table>"
    if isinstance(value, list):
        return "".join(f"<p>{shown_value(it)}</p>\n" for it in value) or "none"
    return "-" if value is None else html.escape(printable(str(value)))


def page_path(path: str) -> str:
    """Where the page of a receipt is."""
    return f"{splitext(path)[0]}.html"


def publish(
    receipt: Dict[str, Any], path: str, register: Optional[str]
) -> None:
    """Writes a receipt, and its page, and has a register note both. What a
    killed process has written of it has to be the same."""
    content = (json.dumps(receipt, indent=1) + "\n").encode()
    page = page_of(receipt).encode("utf-8", "backslashreplace")
    place_text(page, page_path(path))
    place_text(content, path)
    if register is not None:
        enter(register, content, page)
