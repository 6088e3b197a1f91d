"""`bagit-keep receive`: what somebody sends becomes a bag of a store, once a
full check of it has found no fault."""
import argparse
import json
import os
import re
import stat
from contextlib import ExitStack, closing, suppress
from dataclasses import dataclass, field
from datetime import datetime, timezone
from os.path import dirname, isdir, join, lexists, realpath
from typing import IO, Any, Dict, List, Optional, Sequence, Tuple

from . import receipts, tags
from .archives import (
    OTHER, decompress, form_of, may_be_tar, tar_content, understood,
    zip_content,
)
from .bagit import absolute
from .beside import show
from .errors import BagError
from .fetch import fetch_into
from .files import digests_of, place, sync_folder, write_synced
from .lines import encoded
from .members import (
    Content, Limits, Unfit, folder_content, refuse_path, refuse_twice,
    room_in, unpack,
)
from .messages import Refused, say, shown
from .places import Work, refuse_there, work_at, work_path
from .program import Asked, needed, read_profile
from .received import refuse_kept
from .register import Register
from .runs import BagReport, check
from .seal import seal_of
from .serialization import asked_by
from .usage import number, read

ASIDE = ("__macosx", ".ds_store", "thumbs.db", "desktop.ini")
"""What macOS and Windows add at the top, by names in lower case."""
OF_TARS = {
    "cut-off": "is cut off",
    "damaged": "is damaged",
    "twice": "is there twice",
    "special": "is a link, a device or else no plain file",
    "name": "has a name that no bag has",
}
"""Why bagit doesn't read what is in a .tar, and never will."""


Stamp = Tuple[int, ...]
"""The size of a file, and what changes if another takes its place."""


@dataclass
class Case:
    """A deposit: what is asked for, and what is known of it by now."""

    asked: argparse.Namespace
    path: str
    store: str
    profile: Optional[bytes]
    files: ExitStack
    number: str
    begun: str
    file: Optional[IO[bytes]] = None
    form: str = "folder"
    stamp: Optional[Stamp] = None
    sums: Dict[str, str] = field(default_factory=dict)
    failed: int = 0
    remarks: List[str] = field(default_factory=list)

    @property
    def name(self) -> str:
        return shown(self.path)

    @property
    def receipt_path(self) -> str:
        """Where the receipt comes. The page comes beside it."""
        if self.asked.receipt is not None:
            return absolute(self.asked.receipt)
        folder = join(self.store, ".receipts")
        if self.asked.register is not None:
            folder = join(absolute(self.asked.register), "receipts")
        return join(folder, f"{self.number}.json")

    def refuse_name(self, name: str) -> None:
        """Refuses a bag's name that is taken, also of one in the register."""
        folder = join(self.store, name)
        refuse_there(folder)
        if self.asked.register is not None:
            with closing(Register(os.fsencode(self.asked.register))) as there:
                refuse_kept(there, folder)


def digest_of(word: str) -> Tuple[str, str]:
    """The algorithm and the digest that the sender says."""
    name, _, digest = word.lower().partition(":")
    name = name.replace("-", "")
    is_hex = re.fullmatch("[0-9a-f]+", digest)
    if not is_hex or len(digest) != tags.HEX_DIGITS.get(name):
        raise argparse.ArgumentTypeError(f"not ALGORITHM:DIGEST: {word}")
    return name, digest


def stamp_of(found: os.stat_result) -> Stamp:
    return found.st_size, found.st_dev, found.st_ino, found.st_mtime_ns


def encoding_of(word: str) -> str:
    try:
        b"a".decode(word)
    except (LookupError, ValueError) as error:
        raise argparse.ArgumentTypeError(f"no encoding: {word}") from error
    return word


def is_name(name: str) -> bool:
    """Whether a bag may have this name: it isn't hidden, nor an option."""
    return not name.startswith((".", "-")) and name.isprintable()


def folder_name_of(word: str) -> str:
    if "/" in word or not is_name(word):
        raise argparse.ArgumentTypeError(f"no name for a bag: {word}")
    return word


def read_words(words: Sequence[str]) -> argparse.Namespace:
    """The words, where those that belong together are together."""
    asked = read(
        "receive", words, 2, 2, digest=digest_of, names=encoding_of,
        max_files=number(), max_bytes=number(), **{"as": folder_name_of},
    )
    asked.name = getattr(asked, "as")
    if asked.allow and not asked.fetch:
        raise Refused("--allow goes with --fetch")
    if asked.receipt is not None and asked.receipt.endswith(".html"):
        raise Refused("the receipt is JSON, and the page comes beside it")
    if asked.receipt is not None and asked.register is not None:
        raise Refused("the receipt is kept in the register, or by --receipt")
    return asked


def case_of(asked: argparse.Namespace, stack: ExitStack) -> Case:
    """What is to be received, and of which bytes it is."""
    path, store = [realpath(it) for it in asked.operands]
    if not isdir(store):
        raise Refused(f"{shown(store)} isn't a folder")
    if f"{store}/".startswith(f"{path}/"):
        raise Refused("the store lies in the deposit")
    needed()
    if asked.register is not None:
        Register(os.fsencode(asked.register)).close()
    now = datetime.now(timezone.utc)
    case = Case(
        asked, path, store, read_profile(asked.profile), stack,
        f"{now:%Y%m%d-%H%M%S}-{os.urandom(3).hex()}",
        f"{now:%Y-%m-%dT%H:%M:%SZ}",
    )
    if not isdir(path):
        number = os.open(path, os.O_RDONLY | os.O_NONBLOCK)
        case.file = stack.enter_context(open(number, "rb"))
        if not stat.S_ISREG(os.fstat(number).st_mode):
            raise Refused(f"{case.name} is neither a file nor a folder", 3)
        case.form, case.stamp = form_of(case.file), stamp_of(os.fstat(number))
        wanted = asked.digest[:1] if asked.digest else ()
        case.sums = digests_of(case.file, {"sha256", *wanted})
    elif asked.digest:
        raise Refused("a folder has no digest")
    return case


def content_of(case: Case, work: Work, limits: Limits) -> Content:
    """What the deposit has. Nothing of it is written by then, but the .tar
    that a compressed one has."""
    if case.file is None or case.stamp is None:
        return folder_content(case.path, limits)
    size = case.stamp[0]
    with understood():
        if case.form == "zip":
            return zip_content(case.file, size, case.asked.names, limits)
        tar = work.at("deposit.tar")
        if case.form == "tar":
            os.symlink(case.path, tar)
        else:
            room = room_in(case.store, None, None).bytes
            decompress(case.form, case.file, size, tar, room)
            limits.bytes = min(
                limits.bytes, room_in(case.store, None, None).bytes
            )
        file = case.files.enter_context(open(tar, "rb"))
        is_named = case.form == "tar" and case.path.endswith(".tar")
        if not (is_named or may_be_tar(file)):
            raise Unfit(OTHER)
        refuse_unread(case, check(tar, Asked()))
        return tar_content(file, limits)


def refuse_unread(case: Case, report: BagReport) -> None:
    """Refuses a .tar that bagit can't read. Its faults are those of the bag
    that is unpacked."""
    unread = report.unread
    if unread is None or unread.cause == "no-base":
        return
    why = OF_TARS.get(unread.cause)
    path = encoded(unread.path) if unread.path else "it"
    if why is None:
        raise Refused(f"{case.name}: {path} is unread: {unread.cause}", 3)
    raise Unfit(f"bagit can't read it: {path} {why}")


def arrange(case: Case, content: Content) -> Tuple[str, str]:
    """The bag's name, and which folder of the content is the bag: the empty
    text where that is all. Sets aside what systems add."""
    if case.file is None:
        return str(case.asked.name or os.path.basename(case.path)), ""
    tops: Dict[str, bool] = {}
    kept, aside = [], []
    for it in content.members:
        top, slash, _ = it.path.partition("/")
        if top.lower() in ASIDE:
            aside.append(top)
        elif it.path or not it.is_folder:
            kept.append(it)
            tops[top] = tops.get(top, False) or bool(slash) or it.is_folder
    if aside:
        names = " and ".join(map(encoded, dict.fromkeys(aside)))
        case.remarks.append(f"set aside {names}: {len(aside)}")
    content.members = kept
    if len(tops) == 1 and all(tops.values()):
        (top,) = tops
        return str(case.asked.name or top), top
    if case.asked.name is None:
        raise Unfit(why_no_bag(tops))
    case.remarks.append("it has no folder at its top")
    return str(case.asked.name), ""


def why_no_bag(tops: Dict[str, bool]) -> str:
    """What to do about a deposit that hasn't one folder at its top."""
    text = "it hasn't one folder at its top"
    if not tops:
        return "it has no files"
    if tops.get("bagit.txt") is False:
        return f"{text}: --as gives its name"
    names = receipts.text_of(("files and folders there", list(tops)))
    return f"{text} ({names}): ask for one that has"


def compare_digest(case: Case) -> None:
    """Compares the digest that the sender says with that of the file."""
    if case.asked.digest:
        algorithm, digest = case.asked.digest
        if case.sums[algorithm] != digest:
            found = case.sums[algorithm]
            raise Unfit(f"its {algorithm} is {found}, not {digest}")


def take_in(case: Case, work: Work) -> str:
    """Unpacks the deposit into the work's folder `bag`; gives its name."""
    compare_digest(case)
    limits = room_in(case.store, case.asked.max_files, case.asked.max_bytes)
    content = content_of(case, work, limits)
    for it in content.members:
        if it.path or not it.is_folder:
            refuse_path(it.path)
    name, top = arrange(case, content)
    if case.file is not None:
        refuse_twice(content.members)
    if not is_name(name):
        raise Unfit(
            f"{encoded(name)} is no name for a bag: --as gives another"
        )
    case.refuse_name(name)
    os.mkdir(work.at("in"))
    with understood():
        unpack(content, work.at("in"))
    case.remarks += content.remarks
    if case.stamp and stamp_of(os.stat(case.path)) != case.stamp:
        raise Refused(f"{case.name} was altered meanwhile", 3)
    os.rename(join(work.at("in"), top), work.at("bag"))
    if case.asked.fetch:
        fetched = fetch_into(
            work.at("bag"), case.asked.allow, limits.bytes, work
        )
        case.failed = fetched.failed
        case.remarks += [f"files fetched: {fetched.kept}", *fetched.wrong]
    return name


def judge(case: Case, work: Work, folder: str) -> BagReport:
    """Has bagit check a bag in full, and by the profile."""
    return check(folder, asked_by(case.profile, case.form, work))


def receipt_of(case: Case, why: Optional[str]) -> Dict[str, Any]:
    """The receipt of a deposit that is refused, so far."""
    said = case.asked.digest
    return {
        "number": case.number,
        "received": case.begun,
        "decision": "refused",
        "why": why,
        "folder": None,
        "arrived": {
            "name": os.path.basename(case.path),
            "form": case.form,
            "bytes": case.stamp and case.stamp[0],
            **case.sums,
        },
        "said_by_the_sender": ":".join(said) if said else None,
        "remarks": case.remarks,
        "versions": receipts.versions(),
    }


def full_receipt(case: Case, work: Work, report: BagReport) -> Dict[str, Any]:
    """The receipt of a deposit that was checked."""
    is_valid = report.status == 0
    receipt = receipt_of(case, None if is_valid else why_of(report))
    receipt["faults"] = receipts.explained_faults(report.faults)
    receipt["profile_not_checked"] = report.unchecked
    try:
        known, remarks = receipts.description(work.at("bag"), is_valid)
        receipt["bag"] = known
        case.remarks += remarks
    except BagError:
        if is_valid:
            raise
    if report.unchecked:
        text = "keys of the profile that weren't checked"
        case.remarks.append(receipts.text_of((text, report.unchecked)))
    if is_valid:
        with_remarks = " with remarks" * bool(case.remarks)
        receipt["decision"] = f"accepted{with_remarks}"
    return receipt


def why_of(report: BagReport) -> str:
    """How a check ended, without the name that the bag had meanwhile."""
    return report.result.partition(" ")[2]


def publish(case: Case, receipt: Dict[str, Any]) -> str:
    """Writes the receipt, and the page; says where it is."""
    path = case.receipt_path
    if case.asked.receipt is None:
        os.makedirs(dirname(path), exist_ok=True)
        sync_folder(dirname(dirname(path)))
    receipts.publish(receipt, path, case.asked.register)
    return shown(path)


def receive(case: Case, work: Work) -> int:
    """Receives a deposit; gives the status."""
    left = left_receipt(case, work)
    if left is not None:
        return go_on(case, work, left)
    work.clear()
    for path in case.receipt_path, receipts.page_path(case.receipt_path):
        refuse_there(path)
    try:
        name = take_in(case, work)
        report = judge(case, work, work.at("bag"))
    except Unfit as why:
        where = publish(case, receipt_of(case, str(why)))
        text = f"{case.name} is refused: {why} (receipt: {where})"
        raise Refused(text, why.status) from why
    receipt = full_receipt(case, work, report)
    for remark in case.remarks:
        say(f"remark: {remark}")
    if report.status != 0:
        print(f"{case.name} is refused (receipt: {publish(case, receipt)})")
        print(*report.faults, f"{case.name} {why_of(report)}", sep="\n")
        return 3 if case.failed else report.status
    receipt["folder"] = join(case.store, name)
    draft = work.at("receipt.part")
    write_synced(draft, json.dumps(receipt).encode())
    os.rename(draft, work.at("receipt.json"))
    accept(work, receipt["folder"])
    return accepted(case, work, receipt)


def accept(work: Work, target: str) -> None:
    """Gives the bag its name. From then on the work is kept until the receipt
    has its own."""
    work.keep = True
    try:
        place(work.at("bag"), target)
    except OSError:
        work.keep = not lexists(work.at("bag"))
        raise


def accepted(case: Case, work: Work, receipt: Dict[str, Any]) -> int:
    """Publishes the receipt of a bag that has its name."""
    where = publish(case, receipt)
    work.keep = False
    folder = shown(receipt["folder"])
    print(f"{folder} is {receipt['decision']} (receipt: {where})")
    return 0


def left_receipt(case: Case, work: Work) -> Optional[Dict[str, Any]]:
    """The receipt that a killed process left, if it had given the bag its
    name."""
    with suppress(OSError, ValueError, LookupError, TypeError):
        with open(work.at("receipt.json"), "rb") as file:
            receipt = json.loads(file.read())
        is_there = lexists(work.at("bag"))
        if not is_there and dirname(receipt["folder"]) == case.store:
            case.number = str(receipt["number"])
            return dict(receipt)
    return None


def go_on(case: Case, work: Work, left: Dict[str, Any]) -> int:
    """Publishes a receipt that was left, if the bag is still valid, and what
    it was."""
    work.keep = True
    try:
        compare_digest(case)
    except Unfit as why:
        text = f"{case.name} was received, and isn't what was sent: {why}"
        raise Refused(text, why.status) from why
    report = judge(case, work, left["folder"])
    if report.status != 0 or seal_of(left["folder"]) != left["bag"]["seal"]:
        show(report)
        raise Refused(
            f"{shown(left['folder'])} was received, and altered"
            f" before its receipt was written; remove {work.path}",
            3,
        )
    return accepted(case, work, left)


def run(words: Sequence[str]) -> int:
    """Does what the command is asked for, and says its status."""
    asked = read_words(words)
    with ExitStack() as stack:
        case = case_of(asked, stack)
        key = case.sums.get("sha256", case.path)
        path = work_path(case.store, "receiving", key, asked.name or "")
        status = receive(case, stack.enter_context(work_at(path)))
    return status
