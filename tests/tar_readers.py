"""Changes archives of valid bags, and compares what bagit reads of each with what other programs unpack. tests/tars.py calls it."""
import os
import posixpath
import random
import shutil
import subprocess
import tarfile
import unicodedata
from pathlib import Path
from typing import Dict, List, Optional, Set

from tar_bags import Wrong, headers, sealed, write

Files = Dict[str, bytes]
OTHERS = (["bsdtar", "-xof"], ["busybox", "tar", "-xof"])
"""Readers that may complain of what is valid, as busybox does of headers without a magic."""


def unpacked_by(command: List[str], archive: str, folder: str) -> Optional[Files]:
    """The files that a program unpacks into a folder, or none where it complains."""
    target = Path(folder)
    shutil.rmtree(target, ignore_errors=True)
    target.mkdir()
    ended = subprocess.run([*command, os.path.abspath(archive)], cwd=target, capture_output=True, check=False)
    for path, folders, _ in os.walk(target):
        for name in folders:
            os.chmod(os.path.join(path, name), 0o755)
    if ended.returncode or ended.stderr and command[0] != "tar":
        return None
    files = [file for file in target.rglob("*") if file.is_file() and not file.is_symlink()]
    for file in files:
        file.chmod(0o644)
    return {str(file.relative_to(target)): file.read_bytes() for file in files}


def unpacked_by_python(archive: str) -> Optional[Files]:
    """The files that Python unpacks, or none where it complains."""
    found: Files = {}
    try:
        with tarfile.open(archive, "r:", errors="surrogateescape") as tar:
            for info in tar:
                if info.isreg() or info.islnk():
                    file = tar.extractfile(info)
                    if file is None:
                        return None
                    found[posixpath.normpath(info.name)] = file.read()
                elif not info.isdir():
                    return None
    except (tarfile.TarError, KeyError, OSError, ValueError):
        return None
    return found


def changed(draw: random.Random, archive: bytes) -> bytes:
    """The archive with one change."""
    places = headers(archive)
    deed = draw.choice(("field", "field", "field", "out", "again", "swap", "bit", "cut"))
    at = draw.choice(places)
    block = bytearray(archive[at:at + 512])
    if deed == "field":
        spot = draw.choice((draw.randrange(345), draw.randrange(100, 160), draw.randrange(512)))
        block[spot] = draw.choice((0, 0x20, 0x2F, 0x30, 0x37, 0x80, block[spot] ^ 1, draw.randrange(256)))
        return archive[:at] + sealed(bytes(block)) + archive[at + 512:]
    if deed == "bit":
        spot = draw.randrange(512)
        block[spot] ^= 1 << draw.randrange(8)
        return archive[:at] + bytes(block) + archive[at + 512:]
    if deed == "cut":
        return archive[:draw.randrange(len(archive))]
    first = draw.choice((at, draw.randrange(0, len(archive), 512)))
    if deed == "out":
        return archive[:first] + archive[first + 512 * draw.choice((1, 1, 2, 3)):]
    if deed == "again":
        return archive[:first] + archive[at:at + 512] + archive[first:]
    low, high = sorted((first, draw.choice(places)))
    if low + 512 > high:
        return archive[:low]
    return archive[:low] + archive[high:high + 512] + archive[low + 512:high] + archive[low:low + 512] + archive[high + 512:]


def is_valid_bag(program: str, files: Files) -> bool:
    """Whether files that were unpacked are in one folder, and that is a valid bag."""
    tops = {path.split("/")[0] for path in files}
    if len(tops) != 1 or any("/" not in path for path in files):
        return False
    ended = subprocess.run([program, "--validate", "by-tar/" + tops.pop()], capture_output=True, check=False)
    return ended.returncode == 0


def same_to_readers(program: str, archive: str, content: bytes) -> None:
    """What bagit calls valid GNU tar and Python unpack alike, as one valid bag; bsdtar and busybox, where they are, complain or unpack the
    same."""
    write(archive, content)
    by_tar = unpacked_by(["tar", "--no-same-owner", "-xf"], archive, "by-tar")
    by_python = unpacked_by_python(archive)
    if by_tar is None or by_python is None:
        raise Wrong(f"{archive} is valid, and {'GNU tar' if by_tar is None else 'Python'} complains")
    if by_tar != by_python:
        raise Wrong(f"{archive} is valid, and GNU tar and Python unpack other files: {sorted(by_tar)} and {sorted(by_python)}")
    if not is_valid_bag(program, by_tar):
        raise Wrong(f"{archive} is valid, and GNU tar unpacks no valid bag")
    for command in OTHERS:
        other = unpacked_by(command, archive, "by-another") if shutil.which(command[0]) else None
        if other is not None and not alike(by_tar, other):
            raise Wrong(f"{archive} is valid, and {command[0]} unpacks other files: {sorted(by_tar)} and {sorted(other)}")


def composed(files: Files) -> Dict[str, Set[bytes]]:
    """The contents of each file, by its path in composed form."""
    contents: Dict[str, Set[bytes]] = {}
    for path, content in files.items():
        contents.setdefault(unicodedata.normalize("NFC", path), set()).add(content)
    return contents


def alike(files: Files, other: Files) -> bool:
    """Whether another reader unpacked the same files. bsdtar composes names that come in records, so that of two files whose names differ by
    their form alone the later one is left."""
    wanted, found = composed(files), composed(other)
    return wanted.keys() == found.keys() and all(found[path] <= wanted[path] for path in wanted)


def verdicts(program: str, archives: List[bytes]) -> List[str]:
    """The last line of the report of each archive, without its name."""
    names = [f"{number}.tar" for number in range(len(archives))]
    for name, content in zip(names, archives):
        write(name, content)
    ended = subprocess.run([program, "--validate", "--tar", *names], capture_output=True, text=True, check=False)
    last = {name: line for line in ended.stdout.splitlines() for name in [line.split(" ")[0]] if name.endswith(".tar")}
    missing = [name for name in names if name not in last]
    if missing:
        raise Wrong(f"no verdict on {missing[0]}: {ended.stderr}")
    return [last[name].split(" ", 1)[1] for name in names]


def compare(program: str, archives: List[bytes], count: int) -> str:
    """Compares readers over so many changed archives, and says how many were valid."""
    draw = random.Random(80)
    every = [changed(draw, archives[number % len(archives)]) for number in range(count)]
    told = verdicts(program, every)
    valid = [content for content, verdict in zip(every, told) if verdict == "is valid"]
    for number, content in enumerate(valid):
        same_to_readers(program, f"valid-{number}.tar", content)
    if not count // 20 <= len(valid) <= count * 19 // 20:
        raise Wrong(f"{len(valid)} of {count} changed archives are valid, which shows little")
    return f"{len(valid)} of {count} changed archives are valid, and the same to GNU tar and Python"
