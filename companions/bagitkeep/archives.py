"""What a .tar or a .zip has.

Of a .tar `bagit` has read each header before: what readers of archive files
would read differently it hasn't read. Of a .zip that is Unfit here.
"""
import os
import stat
import struct
import subprocess
import tarfile
import time
import zipfile
import zlib
from contextlib import contextmanager, suppress
from lzma import LZMAError
from typing import IO, Iterator, List, Optional, Sequence

from .files import PIECE
from .lines import encoded
from .members import ANY_BYTES, Content, Limits, Member, Unfit
from .messages import first_line

MOST_TIMES = 1000
TOO_DENSE = f"it is compressed more than {MOST_TIMES:,} times"
TOO_BIG = "it and its files, unpacked, have more bytes than there may be"
AFTER_END = "something comes after its end"
BEFORE_BEGIN = "something stands before the archive's first member"
OTHER = "it is not a folder, .tar or .zip"

BROKEN = (
    tarfile.TarError, zipfile.BadZipFile, zlib.error, LZMAError, struct.error,
    EOFError, ValueError, LookupError, ArithmeticError, RuntimeError,
)

FORMS = {
    b"PK\3\4": "zip",
    b"PK\5\6": "zip",
    b"\x1f\x8b": "tar.gz",
    b"BZh": "tar.bz2",
    b"\xfd7zXZ\0": "tar.xz",
    b"\x28\xb5\x2f\xfd": "tar.zst",
}
"""How files begin; all others are read as a .tar."""

TOOLS = {"tar.gz": "gzip", "tar.bz2": "bzip2", "tar.xz": "xz",
         "tar.zst": "zstd"}
"""What unpacks a compressed .tar."""

PLAIN = (tarfile.REGTYPE, tarfile.AREGTYPE, tarfile.DIRTYPE)
METHODS = (
    zipfile.ZIP_STORED, zipfile.ZIP_DEFLATED, zipfile.ZIP_BZIP2,
    zipfile.ZIP_LZMA,
)


@contextmanager
def understood() -> Iterator[None]:
    """Makes Unfit of what isn't as its format has it. An error of the system
    has a number, and stays one."""
    try:
        yield
    except (*BROKEN, OSError) as error:
        if isinstance(error, OSError) and error.errno is not None:
            raise
        raise Unfit(f"it can't be read: {error}") from error


def form_of(file: IO[bytes]) -> str:
    """The form of a file, by how it begins."""
    file.seek(0)
    begin = file.read(6)
    file.seek(0)
    found = (form for mark, form in FORMS.items() if begin.startswith(mark))
    return next(found, "tar")


def may_be_tar(file: IO[bytes]) -> bool:
    """Whether a file begins as a .tar does: by a header, also a damaged one,
    or by zeros."""
    begin = file.read(tarfile.BLOCKSIZE)
    file.seek(0)
    if begin[257:262] == b"ustar":
        return True
    try:
        tarfile.TarInfo.frombuf(begin, "utf-8", ANY_BYTES)
    except tarfile.HeaderError:
        return len(begin) == tarfile.BLOCKSIZE and not begin.strip(b"\0")
    return True


def run_into(
    words: Sequence[str], file: IO[bytes], most: int, of: int, why: str
) -> str:
    """Has a program, which reads the open file `of`, write into a file, at
    most so many bytes, or else it is Unfit; gives what it says on its
    standard error."""
    left = most
    pipe = subprocess.PIPE
    with subprocess.Popen(words, stdin=of, stdout=pipe, stderr=pipe) as ran:
        assert ran.stdout is not None and ran.stderr is not None
        try:
            while piece := ran.stdout.read(PIECE):
                left -= len(piece)
                if left < 0:
                    raise Unfit(why)
                file.write(piece)
            said = ran.stderr.read()
        except BaseException:
            ran.kill()
            raise
    if ran.returncode != 0:
        raise Unfit(
            first_line(said) or f"{words[0]} ended with {ran.returncode}"
        )
    return said.decode("utf-8", "replace")


def decompress(
    form: str, file: IO[bytes], size: int, to: str, room: int
) -> None:
    """Writes the .tar that a file of this form and size has. That takes half
    of the room at most, as its files have to fit beside it."""
    most, why = size * MOST_TIMES, TOO_DENSE
    if room // 2 < most:
        most, why = room // 2, TOO_BIG
    number = file.fileno()
    os.lseek(number, 0, os.SEEK_SET)
    with open(to, "xb") as tar:
        words = [TOOLS[form], "-dqc"]
        run_into(words, tar, most, number, why)


def tar_content(file: IO[bytes], limits: Limits) -> Content:
    """What a .tar has."""
    tar = tarfile.open(
        fileobj=file, mode="r:", encoding="utf-8", errors=ANY_BYTES
    )
    members = [limits.count(tar_member(it)) for it in tar]
    if why := wrong_end(file, tar.offset):
        raise Unfit(why)

    def open_member(member: Member) -> IO[bytes]:
        file = tar.extractfile(member.source)
        assert file is not None
        return file

    return Content(members, open_member)


def wrong_end(file: IO[bytes], at: int) -> Optional[str]:
    """What is wrong with the end of a .tar, if its last header ends there."""
    file.seek(at)
    begin = file.read(tarfile.BLOCKSIZE)
    if len(begin) < tarfile.BLOCKSIZE:
        return "it is cut off"
    if begin.strip(b"\0"):
        return f"the header at byte {at} is damaged"
    while piece := file.read(PIECE):
        if piece.strip(b"\0"):
            return AFTER_END
    return None


def tar_member(it: tarfile.TarInfo) -> Member:
    """A member of a .tar, or Unfit."""
    if it.issparse() or it.type not in PLAIN:
        what = "a hard link" if it.islnk() else "no plain file"
        raise Unfit(f"{encoded(it.name)} is {what}")
    path = bare(it.name, it.isdir())
    return Member(path, it.isdir(), it.size, it.mtime, it)


def bare(path: str, is_folder: bool) -> str:
    """A path without one `./` in front, and without a folder's slash."""
    if is_folder:
        path = path[:-1] if path.endswith("/") else path
        return "" if path == "." else path.removeprefix("./")
    return path.removeprefix("./")


def zip_content(
    file: IO[bytes], size: int, names: Optional[str], limits: Limits
) -> Content:
    """What a .zip has."""
    if not zipfile.is_zipfile(file):
        raise Unfit("it is cut off, or its end is damaged")
    packed = zipfile.ZipFile(file)
    file.seek(-22 - len(packed.comment), os.SEEK_END)
    if file.read(4) != b"PK\5\6":
        raise Unfit(AFTER_END)
    infos = packed.infolist()
    if min([it.header_offset for it in infos], default=packed.start_dir) != 0:
        raise Unfit(BEFORE_BEGIN)
    refuse_overlaps(infos)
    if sum(it.file_size for it in infos) > size * MOST_TIMES:
        raise Unfit(TOO_DENSE)
    members = [limits.count(zip_member(it, names)) for it in infos]
    remarks = zip_remarks(infos, names) if names else []
    return Content(members, lambda it: packed.open(it.source), remarks)


def refuse_overlaps(infos: List[zipfile.ZipInfo]) -> None:
    """Each file has bytes of its own."""
    end = 0
    for it in sorted(infos, key=lambda it: it.header_offset):
        if it.header_offset < end:
            raise Unfit(f"{encoded(it.orig_filename)} lies in another file")
        end = it.header_offset + 30 + it.compress_size


def zip_member(it: zipfile.ZipInfo, names: Optional[str]) -> Member:
    """A member of a .zip, or Unfit."""
    name = zip_name(it, names)
    is_folder, kind = name.endswith("/"), stat.S_IFMT(it.external_attr >> 16)
    why = None
    if kind not in (0, stat.S_IFREG, stat.S_IFDIR):
        why = "a link" if stat.S_ISLNK(kind) else "a device or a pipe"
    elif it.flag_bits & 0x2041:
        why = "encrypted"
    elif it.compress_type not in METHODS:
        why = f"compressed by the unknown method {it.compress_type}"
    elif it.file_size > MOST_TIMES * max(it.compress_size, 1):
        why = f"compressed more than {MOST_TIMES:,} times"
    elif is_folder and it.file_size:
        why = f"a folder of {it.file_size} bytes"
    elif "\\" in name and it.create_system != 3:
        why = "written with a backslash: --names, as of cp850, reads a slash"
    if why is not None:
        raise Unfit(f"{encoded(name)} is {why}")
    when = None
    with suppress(ValueError, OverflowError):
        when = time.mktime((*it.date_time, 0, 0, -1))
    return Member(bare(name, is_folder), is_folder, it.file_size, when, it)


def zip_name(it: zipfile.ZipInfo, names: Optional[str]) -> str:
    """The name of a file in a .zip. One that isn't marked as UTF-8 is taken
    for it too, or for what `names` says, by which `\\` is a slash."""
    name = it.orig_filename
    if not it.flag_bits & 0x800:
        raw = name.encode("cp437")
        try:
            name = raw.decode(names or "utf-8")
        except UnicodeDecodeError as error:
            raise Unfit(
                f"{encoded(raw)} isn't {names or 'UTF-8'}: ask which encoding"
                " it is, such as cp850, and give it by --names"
            ) from error
    return name.replace("\\", "/") if names else name


def zip_remarks(infos: List[zipfile.ZipInfo], names: str) -> List[str]:
    """How names were read, where it isn't as they are written."""
    raw = [it for it in infos if not it.flag_bits & 0x800]
    coded = sum(not it.orig_filename.isascii() for it in raw)
    slashed = sum("\\" in it.orig_filename for it in infos)
    remarks = [f"names read as {names}: {coded}"] if coded else []
    return remarks + ([f"names read with / for \\: {slashed}"] * bool(slashed))
