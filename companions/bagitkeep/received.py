"""The receipts of a register: what it says of deposits that were received.

Each is a file, and a page of it to print and sign. The register has the
digests of both, so that a bit that changes there is an error by name.
"""
import hashlib
import json
import os
from contextlib import closing, suppress
from dataclasses import dataclass
from os.path import join
from typing import Any, Dict, Iterator, List, Optional

from .files import read_bytes, text_of
from .lines import encoded
from .messages import Refused
from .news import of_no_bag
from .register import Register, path_of, take


@dataclass(frozen=True)
class Noted:
    """A receipt that the register has noted, and of which bag it is. `says`
    is what is in the file, or None where that isn't what was noted; `altered`
    are those of its two files of which that holds."""

    number: str
    bag: Optional[int]
    says: Optional[Dict[str, Any]]
    altered: List[bytes]


def noted_in(register: Register) -> Iterator[Noted]:
    """The receipts of a register, in the order in which they came."""
    for row in register.rows("events", "kind = 'received'"):
        data = json.loads(row["data"])
        path = path_in(register.folder, data["number"])
        page = path[:-len(".json")] + b".html"
        digests = {path: data["sha256"], page: data["page"]}
        found = {it: noted_content(it, sum) for it, sum in digests.items()}
        content = found[path]
        says = None if content is None else json.loads(content)
        altered = [it for it, what in found.items() if what is None]
        yield Noted(data["number"], row["bag"], says, altered)


def noted_content(path: bytes, digest: str) -> Optional[bytes]:
    """What a file has, or None where it hasn't this digest."""
    with suppress(OSError):
        content = read_bytes(path)
        if hashlib.sha256(content).hexdigest() == digest:
            return content
    return None


def path_in(folder: bytes, number: str) -> bytes:
    """Where a register has the receipt of a number."""
    return join(folder, b"receipts", os.fsencode(f"{number}.json"))


def look(register: Register) -> None:
    """Finds the receipts that were altered or aren't there."""
    wrong = {text_of(it) for one in noted_in(register) for it in one.altered}
    of_no_bag(register, "receipt", wrong)


def place_of(register: Register, folder: str) -> bytes:
    """The path of a folder by the names that the register has of its stores,
    which may be links."""
    path = os.fsencode(folder)
    for store in register.setting("stores"):
        real = os.path.realpath(path_of(store))
        if path.startswith(join(real, b"")):
            return path_of(store) + path[len(real):]
    return path


def refuse_kept(register: Register, folder: str, seal: str = "") -> None:
    """Refuses the path of a bag that the register has, unless it has this
    seal."""
    path = place_of(register, folder)
    found = register.rows("bags", "path = ? AND is_kept", text_of(path))
    if found and found[0]["seal"] != seal:
        text = f"{encoded(path)} is in the register already: see retire"
        raise Refused(text, 3)


def enter(folder: str, content: bytes, page: bytes) -> None:
    """Notes a receipt and its page in the register of a folder, and takes in
    the bag that was received, unless that was done."""
    receipt, bag = json.loads(content), None
    number = receipt["number"]
    with closing(Register(os.fsencode(folder))) as register:
        with register.changing():
            noted = register.rows("events", "kind = 'received'")
            if any(json.loads(it["data"])["number"] == number for it in noted):
                return
            if receipt["folder"] is not None:
                known = receipt["bag"]
                values = {it: known[it] for it in ("seal", "files", "bytes")}
                refuse_kept(register, receipt["folder"], known["seal"])
                path = text_of(place_of(register, receipt["folder"]))
                bag = take(register, path, **values, read=receipt["received"])
            register.note(
                "received", bag, number=number, decision=receipt["decision"],
                sha256=hashlib.sha256(content).hexdigest(),
                page=hashlib.sha256(page).hexdigest(),
            )
