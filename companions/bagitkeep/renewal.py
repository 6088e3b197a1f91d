"""`bagit-keep renew`: a bag of a register is renewed, and its new seal taken
if it is still the bag that it was.

Payload manifests that stay pin the payload, as a full check has compared it
with them. So manifests may come or go, but not both at once.
"""
import hashlib
import json
import os
import subprocess
from contextlib import closing
from dataclasses import dataclass
from os.path import join
from typing import Dict, List, Sequence, Set

from . import tags
from .bagit import content_of, reading
from .elements import key_of
from .errors import BagError
from .files import absolute
from .keeping import accept
from .lines import encoded
from .mending import is_old
from .messages import Refused
from .register import Register, Row, alone
from .runs import find_renew
from .seal import seal_by, sums_of
from .usage import read

INFO = "bag-info.txt"
ASKS = "--set=", "--unset=", "--append="


def labels_in(words: Sequence[str]) -> Set[bytes]:
    """The labels that a renewal by these words may change."""
    found = {key_of("Payload-Oxum")}
    for word in words:
        asks = next((it for it in ASKS if word.startswith(it)), "")
        found.add(key_of(word[len(asks):].partition("=")[0]))
    return found


@dataclass(frozen=True)
class Standing:
    """What of a bag with this seal has to be the same after a renewal: tag
    files and payload manifests, by their digests, and elements."""

    seal: str
    files: Dict[str, str]
    manifests: Dict[str, str]
    elements: List[tags.Element]

    def why_not(self, before: "Standing") -> str:
        """Why this isn't the bag that it was; else the empty text."""
        ours, theirs = self.manifests, before.manifests
        if ours.keys() - theirs.keys() and theirs.keys() - ours.keys():
            return "payload manifests came, and others went"
        for name in sorted(ours.keys() & theirs.keys()):
            if ours[name] != theirs[name]:
                return f"{name} was altered"
        for name in sorted(self.files.keys() | before.files.keys()):
            if self.files.get(name) != before.files.get(name):
                return f"{encoded(os.fsencode(name))} was altered"
        is_same = self.elements == before.elements
        return "" if is_same else f"other elements of {INFO} were altered"


def standing(bag: str, words: Sequence[str]) -> Standing:
    """What has to be the same after a renewal by these words; or a
    BagError."""
    labels, is_to_change = labels_in(words), "--to-1.0" in words
    files, manifests = {}, {}
    with reading(bag):
        sums, old = sums_of(bag), is_old(bag)

        def content(name: str) -> bytes:
            found = content_of(join(bag, name))
            if hashlib.sha512(found).hexdigest() != sums[os.fsencode(name)]:
                raise ValueError(f"{name} was altered meanwhile")
            return found

        for path, digest in sums.items():
            name = os.fsdecode(path)
            kind = tags.MANIFEST_NAME.fullmatch(name)
            if kind and not kind[1] and kind[2] in tags.HEX_DIGITS:
                if is_to_change:
                    found = tags.entries_of(content(name), kind[2], False, old)
                    digest = json.dumps(sorted(found.items()))
                manifests[name] = digest
            elif not (kind and kind[1] or name == INFO):
                files[name] = digest
        info = content(INFO) if os.fsencode(INFO) in sums else b""
        elements = tags.elements_of(info, old)
    if is_to_change:
        files.pop("bagit.txt", None)
    stay = [it for it in elements if key_of(it[0]) not in labels]
    return Standing(seal_by(sums), files, manifests, stay)


def renew(register: Register, path: bytes, words: List[str]) -> int:
    """Renews a bag that is as the register has it, and accepts it."""
    row, bag = register.kept_at(path), os.fsdecode(path)
    before = standing(bag, words)
    if before.seal != row["seal"]:
        raise BagError("it isn't as the register has it")
    program = find_renew()
    if program is None:
        raise Refused("there is no program bagit-renew", 3)
    asked = [program, *words, "--", bag]
    ended = subprocess.run(asked, check=False, stdin=subprocess.DEVNULL)
    if ended.returncode != 0:
        return ended.returncode if ended.returncode in (1, 2) else 3

    def look(values: Row) -> None:
        counts = "files", "bytes"
        after = standing(bag, words)
        why = after.why_not(before)
        if after.seal != values["seal"]:
            why = "its tag files were altered after the check"
        elif any(values[it] != row[it] for it in counts):
            why = "its payload has other files or bytes"
        if why:
            raise BagError(f"it isn't the bag that was renewed: {why}")

    said = {"by": "bagit-keep renew", "why": f"renewed by: {' '.join(words)}"}
    return accept(register, path, said, look)


def run(words: Sequence[str]) -> int:
    """Does what the command is asked for, and says its status."""
    end = words.index("--") if "--" in words else len(words)
    asked = read("renew", words[:end], 2, 2)
    folder, path = map(absolute, asked.operands)
    options = list(words[end:][1:])
    if {it.partition("=")[0] for it in options} >= {"--add", "--drop"}:
        raise Refused("--add comes first, and --drop by another command")
    with alone(folder, b"asked"), closing(Register(folder)) as register:
        try:
            return renew(register, path, options)
        except BagError as error:
            text = f"{encoded(path)}: {error}: see accept"
            raise Refused(text, 3) from error
