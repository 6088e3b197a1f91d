"""Files: read, written so that they are on the disk, named, and locked."""
import ctypes
import errno
import fcntl
import hashlib
import os
import shutil
import stat
from contextlib import contextmanager, suppress
from typing import (
    IO, Callable, Dict, Iterable, Iterator, NoReturn, Optional, Tuple, Union,
)

from .errors import BagError
from .messages import first_line, shown

Path = Union[str, bytes]
PIECE = 1 << 20
THE_SAME_FOLDER, ONTO_NOTHING = -100, 1
EXCLUSIVE = fcntl.LOCK_EX | fcntl.LOCK_NB
NO_LOCKS = (errno.ENOSYS, errno.ENOLCK, errno.EOPNOTSUPP, errno.EINVAL)
"""The errors of a file system that has no locks."""
NO_LINKS = (errno.ENOSYS, errno.EPERM, errno.EOPNOTSUPP, errno.EMLINK)


def text_of(path: bytes) -> str:
    """A path in JSON: a byte that isn't UTF-8 is one of U+DC80 to U+DCFF."""
    return path.decode("utf-8", "surrogateescape")


def random_name() -> bytes:
    return os.urandom(8).hex().encode()


@contextmanager
def naming(path: Path) -> Iterator[None]:
    """Has an error say which file it is of."""
    try:
        yield
    except OSError as error:
        file = error.filename or path
        raise OSError(error.errno, error.strerror, file) from error


def absolute(name: Path) -> bytes:
    """The absolute path; links are followed only if a `..` may come after
    one."""
    path = os.fsencode(name)
    if b".." in path.split(b"/"):
        return os.path.realpath(path)
    return os.path.abspath(path)


def identity(path: Path) -> Optional[Tuple[int, int]]:
    """What the system knows a file or a folder by, if it is there."""
    with suppress(OSError):
        found = os.stat(path)
        return found.st_dev, found.st_ino
    return None


def is_within(inner: Path, outer: Path) -> bool:
    """Whether a path leads to a folder, or below it, also by links and
    mounts."""
    path, folder = [os.path.realpath(os.fsencode(it)) for it in (inner, outer)]
    mark = identity(folder)
    while path != folder and (mark is None or identity(path) != mark):
        if path == os.path.dirname(path):
            return False
        path = os.path.dirname(path)
    return True


def opened(path: Path) -> IO[bytes]:
    """Opens a file to read. A pipe isn't waited for, nor a link followed."""
    flags = os.O_RDONLY | os.O_NOFOLLOW | os.O_NONBLOCK
    file = open(os.open(path, flags), "rb")
    if not stat.S_ISREG(os.fstat(file.fileno()).st_mode):
        file.close()
        raise OSError(0, "it isn't a file", path)
    return file


def read_bytes(path: Path) -> bytes:
    with naming(path), open(path, "rb") as file:
        return file.read()


def digests_of(file: IO[bytes], algorithms: Iterable[str]) -> Dict[str, str]:
    """The digests of all bytes of a file."""
    sums = {it: hashlib.new(it, usedforsecurity=False) for it in algorithms}
    file.seek(0)
    while piece := file.read(PIECE):
        for it in sums.values():
            it.update(piece)
    return {name: it.hexdigest() for name, it in sums.items()}


def sha256_of(path: Path) -> str:
    with naming(path), open(path, "rb") as file:
        return digests_of(file, ["sha256"])["sha256"]


def files_below(
    place: bytes, skipped: Iterable[bytes] = ()
) -> Iterator["os.DirEntry[bytes]"]:
    """All that is below a folder but for folders; no link is followed, and
    folders of these paths are passed over."""
    folders, others = [place], set(skipped)
    while folders:
        with os.scandir(folders.pop()) as entries:
            for entry in entries:
                if not entry.is_dir(follow_symlinks=False):
                    yield entry
                elif entry.path not in others:
                    folders.append(entry.path)


def write_synced(path: Path, content: bytes) -> None:
    """Writes a file that isn't there."""
    with naming(path), open(path, "xb") as file:
        file.write(content)
        file.flush()
        os.fsync(file)


def sync_folder(path: Path) -> None:
    """Syncs a folder's names, where its file system can."""
    folder = os.open(path, os.O_RDONLY | os.O_DIRECTORY)
    try:
        with naming(path):
            os.fsync(folder)
    except OSError as error:
        if error.errno not in (errno.EINVAL, errno.ENOTSUP):
            raise
    finally:
        os.close(folder)


@contextmanager
def whole(folder: bytes) -> Iterator[bytes]:
    """A folder that gets its name once it is whole. Of several processes that
    make it the first one's stands, as a folder isn't renamed onto one that
    isn't empty."""
    draft = b"%s.%s" % (folder, random_name())
    os.mkdir(draft)
    try:
        yield draft
        sync_folder(draft)
        os.rename(draft, folder)
        sync_folder(os.path.dirname(folder) or b".")
    except OSError:
        if not os.path.isdir(folder):
            raise
    finally:
        shutil.rmtree(draft, ignore_errors=True)


def give_name(old: Path, new: Path) -> None:
    """Gives a file or a folder its name, which nothing may have by then."""
    call = getattr(ctypes.CDLL(None, use_errno=True), "renameat2", None)
    names, number = (os.fsencode(old), os.fsencode(new)), errno.ENOSYS
    if call is not None:
        here, number = THE_SAME_FOLDER, 0
        if call(here, names[0], here, names[1], ONTO_NOTHING) != 0:
            number = ctypes.get_errno()
    if number in (errno.ENOSYS, errno.EINVAL, errno.EOPNOTSUPP):
        name_by_look(old, new)
    elif number:
        raise OSError(number, os.strerror(number), new)


def name_by_look(old: Path, new: Path) -> None:
    """The same where the system has no such call: a file by a link, which
    replaces nothing; a folder, or where there are no links, after a look."""
    if os.path.lexists(new):
        raise FileExistsError(errno.EEXIST, os.strerror(errno.EEXIST), new)
    if not os.path.isdir(old):
        try:
            os.link(old, new)
            os.unlink(old)
            return
        except OSError as error:
            if error.errno not in NO_LINKS:
                raise
    os.rename(old, new)


def place(old: str, new: str) -> None:
    """Gives a file or a folder its name, which nothing may have by then, and
    syncs both folders."""
    give_name(old, new)
    for path in {os.path.dirname(new), os.path.dirname(old)}:
        sync_folder(path)


def has_lock(lock: Callable[..., None], *words: object) -> Optional[bool]:
    """Whether this call locks; None where the system has no locks."""
    try:
        lock(*words)
    except OSError as error:
        return None if error.errno in NO_LOCKS else False
    return True


def refuse_claim(claim: str, busy: str) -> NoReturn:
    """Refuses what another process has claimed."""
    who = first_line(read_bytes(claim))
    raise BagError(
        f"{busy}, by {shown(claim)}: {who}. If it isn't, remove that file"
    )


@contextmanager
def locked(is_locked: Optional[bool], claim: str, busy: str) -> Iterator[None]:
    """Refuses what isn't locked. Where the system has no locks a file stands
    for one, that names host and process, unless this process has made it.
    Nobody can say whether one on another host is at work."""
    if is_locked is False:
        raise BagError(busy)
    who, is_claimed = f"{os.uname().nodename} {os.getpid()}\n".encode(), False
    try:
        if is_locked is None:
            write_synced(claim, who)
            is_claimed = True
    except FileExistsError:
        if read_bytes(claim) != who:
            refuse_claim(claim, busy)
    try:
        yield
    finally:
        with suppress(FileNotFoundError):
            if is_claimed:
                os.unlink(claim)
