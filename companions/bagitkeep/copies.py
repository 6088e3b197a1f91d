"""Copies of a bag, out of which its files are restored."""
import errno
import os
import tarfile
from contextlib import ExitStack, contextmanager, suppress
from dataclasses import dataclass, field
from os.path import isdir, join, realpath
from typing import IO, Dict, Iterator, List, Optional, Sequence, Set, Tuple

from .archives import BROKEN, wrong_end
from .errors import BagError
from .files import digests_of, opened
from .lines import encoded
from .messages import say, shown
from .seal import sums_of, tag_files
from .trees import copied

NO_ROOM = {errno.ENOSPC, errno.EDQUOT, errno.EFBIG, errno.EROFS}
NO_FILE = {0, errno.ELOOP, errno.EISDIR}
"""The errors where something is there, and is no file."""

Sums = Dict[str, str]
"""The digests of a file, by algorithms, or of files, by paths."""

Members = Dict[str, List[tarfile.TarInfo]]
"""What a .tar has, by paths in the bag."""


@dataclass
class Copy:
    """A copy of a bag: a folder, or a .tar of one. `why` says why it isn't
    read whole, if it isn't; `others` are the algorithms by which its file
    hasn't the digest that was looked for, by paths; `unread` are paths."""

    path: str
    tar: Optional[tarfile.TarFile] = None
    members: Members = field(default_factory=dict)
    why: Optional[str] = None
    others: Dict[str, List[str]] = field(default_factory=dict)
    unread: Set[str] = field(default_factory=set)

    def streams(self, path: str) -> Iterator[Tuple[IO[bytes], float]]:
        """The files that it has at this path, with their times."""
        if self.tar is None:
            stream = opened(join(self.path, path))
            yield stream, os.fstat(stream.fileno()).st_mtime
            return
        for member in self.members.get(path, []):
            content = self.tar.extractfile(member)
            if content is not None:
                yield content, member.mtime

    def has(self, path: str, sums: Sums, to: str) -> bool:
        """Whether it has a file with these digests, which is copied then."""
        self.others.pop(path, None)
        with self.trying(path):
            for stream, time in self.streams(path):
                with stream:
                    found = copied(stream, to, sums)
                    if found == sums:
                        os.utime(to, (time, time))
                        return True
                os.unlink(to)
                wrong = [it for it in sums if found[it] != sums[it]]
                self.others[path] = wrong
        with suppress(FileNotFoundError):
            os.unlink(to)
        return False

    @contextmanager
    def trying(self, path: str) -> Iterator[None]:
        """Says that a file isn't read, if it is there."""
        try:
            yield
        except (FileNotFoundError, NotADirectoryError):
            pass
        except (OSError, tarfile.TarError, KeyError) as error:
            number = error.errno if isinstance(error, OSError) else None
            if number in NO_ROOM:
                raise
            if number not in NO_FILE:
                self.unread.add(path)
            say(f"{shown(self.path)}: {encoded(path)} isn't read: {error}")

    def contents(self, path: str) -> Iterator[Tuple[bytes, float]]:
        """What the files that it has at this path have, with their times."""
        with self.trying(path):
            for stream, time in self.streams(path):
                with stream:
                    yield stream.read(), time

    def tag_files(self) -> Set[str]:
        """The paths of its tag files."""
        if self.tar is None:
            place = join(os.fsencode(self.path), b"")
            return {os.fsdecode(it) for it in tag_files(place)}
        return {
            path for path, members in self.members.items()
            if not path.startswith("data/")
            if not all(it.isdir() for it in members)
        }

    def has_sum(self, path: str, sum: str) -> Optional[bool]:
        """Whether it has a file of this SHA-512; None if it isn't read."""
        found = None
        with self.trying(path):
            for stream, _ in self.streams(path):
                with stream:
                    found = digests_of(stream, ["sha512"])["sha512"] == sum
                if found:
                    return True
        return found


def members_of(
    tar: tarfile.TarFile, file: IO[bytes]
) -> Tuple[Members, Optional[str]]:
    """What a .tar has, and why that isn't all, if it isn't."""
    found: Members = {}
    try:
        for member in tar:
            path = member.name.removeprefix("./").partition("/")[2]
            found.setdefault(path, []).append(member)
        return found, wrong_end(file, tar.offset)
    except (*BROKEN, OSError) as error:
        return found, str(error)


@contextmanager
def copy_at(path: str) -> Iterator[Copy]:
    """The copy at a path. A BagError where there is none."""
    with ExitStack() as stack:
        copy = Copy(path)
        if isdir(path):
            names = set(os.listdir(path))
        else:
            file = stack.enter_context(opened(realpath(path)))
            try:
                tar = tarfile.open(fileobj=file, mode="r:")
            except BROKEN as error:
                text = f"neither a folder nor a .tar ({error})"
                raise BagError(text) from error
            copy.tar = stack.enter_context(tar)
            copy.members, copy.why = members_of(tar, file)
            names = {it.partition("/")[0] for it in copy.members}
        if not names & {"bagit.txt", "data"}:
            why = "it has neither bagit.txt nor data"
            if copy.tar is not None:
                why += " in a folder at its top: unpack it, and give that bag"
            raise BagError(copy.why or why)
        yield copy


def copies_at(paths: Sequence[str], stack: ExitStack) -> List[Copy]:
    """The copies at these paths that can be used; of others is said why they
    can't be, or not whole."""
    copies = []
    for path in paths:
        try:
            copies.append(stack.enter_context(copy_at(path)))
        except OSError as error:
            say(f"{shown(path)} isn't used: {error.strerror or error}")
        except BagError as error:
            say(f"{shown(path)} isn't used: {error}")
        else:
            if copies[-1].why is not None:
                say(f"{shown(path)} isn't read whole: {copies[-1].why}")
    return copies


def differences(sums: Sums, copy: Copy) -> Iterator[str]:
    """How a copy's tag files differ from those of a bag, which have these
    SHA-512, by their paths."""
    name, theirs = shown(copy.path), copy.tag_files()
    for path in sorted({*sums, *theirs}):
        if path not in sums:
            yield f"{name} has {encoded(path)}, and the bag hasn't"
        elif path in theirs and copy.has_sum(path, sums[path]) is False:
            yield f"{name} has another {encoded(path)}"
        elif path not in theirs and copy.why is None:
            yield f"{name} has no {encoded(path)}"


def say_differences(bag: str, copies: List[Copy]) -> None:
    """Says how the tag files of copies differ from a bag's."""
    sums = {os.fsdecode(path): sum for path, sum in sums_of(bag).items()}
    for copy in copies:
        try:
            for text in differences(sums, copy):
                say(text)
        except (*BROKEN, OSError) as error:
            say(f"{shown(copy.path)} isn't compared: {error}")
