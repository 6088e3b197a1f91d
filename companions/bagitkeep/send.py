"""`bagit-keep send`: a bag, packed as a .tar that is checked."""
import hashlib
import os
import stat
import tarfile
from os.path import basename, join, realpath
from typing import IO, Optional, Sequence, cast

from .bagit import absolute
from .beside import show
from .files import digests_of, place
from .members import ANY_BYTES, Unfit, folder_content, refuse_twice
from .messages import Refused, printable, say, shown
from .places import refuse_there, work_at, work_path
from .program import read_profile
from .runs import check
from .seal import seal_by, seal_of
from .serialization import asked_by
from .trees import settle
from .usage import read


class Summed:
    """A file that is read once, with the SHA-512 of what was read."""

    def __init__(self, file: IO[bytes]) -> None:
        self.file, self.sum = file, hashlib.sha512()

    def read(self, size: int) -> bytes:
        piece = self.file.read(size)
        self.sum.update(piece)
        return piece


def pack(bag: str, path: str) -> str:
    """Writes a .tar of a bag, and syncs it: in the format of GNU tar, in which
    each reader takes a name byte by byte (some compose names of pax). Gives
    the seal of the bag that is in there."""
    members = folder_content(bag).members
    try:
        refuse_twice(members)
    except Unfit as why:
        say(f"`bagit-keep receive` won't take it: {why}")
    members.sort(key=lambda it: os.fsencode(it.source))
    with open(path, "xb") as file:
        with tarfile.open(
            fileobj=file, mode="w", format=tarfile.GNU_FORMAT
        ) as tar:
            tar.addfile(header_of(basename(bag), os.stat(bag)))
            found = {it.path: add(tar, bag, it.path) for it in members}
        file.flush()
        settle(file.fileno())
    sums = {it.encode("utf-8", ANY_BYTES): sum for it, sum in found.items()}
    return seal_by({it: sum for it, sum in sums.items() if sum is not None})


def add(tar: tarfile.TarFile, bag: str, path: str) -> Optional[str]:
    """Adds a file or a folder of a bag; gives the SHA-512 of a tag file."""
    flags = os.O_RDONLY | os.O_NOFOLLOW | os.O_NONBLOCK
    number = os.open(join(bag, path), flags)
    try:
        header = header_of(f"{basename(bag)}/{path}", os.fstat(number))
        if header.isdir():
            tar.addfile(header)
            return None
        with open(number, "rb", closefd=False) as file:
            if path.startswith("data/"):
                tar.addfile(header, file)
                return None
            summed = Summed(file)
            tar.addfile(header, cast(IO[bytes], summed))
            return summed.sum.hexdigest()
    finally:
        os.close(number)


def header_of(name: str, found: os.stat_result) -> tarfile.TarInfo:
    """What a .tar says of a file or a folder, which is nobody's."""
    header = tarfile.TarInfo(name)
    header.mode = stat.S_IMODE(found.st_mode) & 0o777
    header.mtime = int(found.st_mtime)
    if stat.S_ISDIR(found.st_mode):
        header.type = tarfile.DIRTYPE
    else:
        header.size = found.st_size
    return header


def send(bag: str, path: str, profile: Optional[bytes]) -> int:
    """Packs a bag as a file of this path; gives the status."""
    folder, name = os.path.split(path)
    with work_at(work_path(folder, "sending", name)) as work:
        work.clear()
        refuse_there(path)
        packed = work.at("packed.tar")
        asked, seal = asked_by(profile, "tar", work), seal_of(bag)
        report = check(bag, asked)
        if report.status != 0:
            return show(report)
        is_same = pack(bag, packed) == seal
        there = check(packed, asked)
        if there.status != 0 or not is_same:
            raise Refused(f"what was packed isn't the bag: {there.result}", 3)
        with open(packed, "rb") as file:
            digest = digests_of(file, ["sha256"])["sha256"]
        place(packed, path)
    print(f"{report.result}\n{digest}  {printable(path)}")
    return 0


def run(words: Sequence[str]) -> int:
    """Does what the command is asked for, and says its status."""
    asked = read("send", words, 2, 2)
    if not asked.operands[1].endswith(".tar"):
        raise Refused("it takes a bag, and a file whose name ends with .tar")
    bag = realpath(asked.operands[0])
    path = absolute(asked.operands[1])
    if any("\ud800" <= it <= "\udfff" for it in basename(bag)):
        raise Refused(f"{shown(bag)}: the bag's name isn't UTF-8", 3)
    if f"{realpath(path)}/".startswith(f"{bag}/"):
        raise Refused("the file would be in the bag")
    return send(bag, path, read_profile(asked.profile))
