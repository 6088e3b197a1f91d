"""Packs bags into tar files, and compares what bagit says of each with what it says of the folder. tests/tars.sh calls it."""
import gzip
import os
import random
import re
import shutil
import subprocess
import sys
import tarfile
from pathlib import Path
from typing import Dict, List, Optional, Tuple

from tar_bags import LONG, SHORT, SPLIT, Wrong, digest, good_bag, headers, manifest, member, put, random_bag, room_for, sealed
from tar_bags import write, writers
from tar_readers import compare, same_to_readers, verdicts

DEPTHS = ((), ("--completeness-only",), ("--fast",), ("--declaration-only",), ("--clashes",))
Report = Tuple[List[str], int]


def run(program: str, *words: str) -> Tuple[List[str], int, str]:
    """The lines and the status of a check, and its errors."""
    ended = subprocess.run([program, "--validate", *words], capture_output=True, text=True, check=False)
    return ended.stdout.splitlines(), ended.returncode, ended.stderr


def report(program: str, *words: str) -> Report:
    lines, status, errors = run(program, *words)
    if errors:
        raise Wrong(f"{words}: {errors}")
    return lines, status


def same_report(program: str, archives: List[str], *options: str) -> List[str]:
    """Each archive's report is that of the folder d, but for the name; the lines of the folder's."""
    lines, status = report(program, *options, "d")
    wanted = [line for name in archives for line in (*lines[:-1], f"{name}{lines[-1][1:]}")]
    found, ended = report(program, *options, "--tar", *archives)
    if (found, ended) != (wanted, status):
        other = next((pair for pair in zip(found, wanted) if pair[0] != pair[1]), (found[-1:], wanted[-1:]))
        raise Wrong(f"{options} {archives}: {ended}, {other[0]!r}, of the folder {status}, {other[1]!r}")
    return lines


def same_everywhere(program: str, archives: List[str], draw: random.Random) -> int:
    """Each archive's report is that of the folder, at each depth, from a fault on, up to some, and in parts."""
    for depth in DEPTHS:
        lines = same_report(program, archives, *depth)[:-1]
        if lines:
            same_report(program, [draw.choice(archives)], *depth, "--after", draw.choice(lines))
            same_report(program, archives, *depth, "--max-faults", str(draw.randint(1, len(lines))))
    parts = draw.choice((2, 3, 5))
    for archive in archives:
        for number in range(1, parts + 1):
            same_report(program, [archive], "--part", f"{number}/{parts}")
    return len(archives)


def pack_all(names: Tuple[str, ...]) -> List[str]:
    """The folder d, packed by each writer that has room for these names."""
    found = []
    for number, writer in enumerate(writers()):
        if set(names) <= set(writer.names):
            archive = f"d{number}.tar"
            Path(archive).unlink(missing_ok=True)
            writer.pack(archive)
            found.append(archive)
    return found


def see_writers(program: str) -> str:
    draw, packed, bags = random.Random(1), 0, 0
    for seed in range(6):
        names = (LONG, SPLIT, SHORT)[seed // 2]
        random_bag(seed, names)
        packed += same_everywhere(program, pack_all(names), draw)
        bags += 1
    return f"{packed} archives of {bags} bags by {len(writers())} writers"


def small_bag() -> None:
    """A valid bag of two files, one of whose names is long."""
    files = {"data/a": b"a" * 600, "data/" + "l" * 120: b"b"}
    tags = {"bagit.txt": b"BagIt-Version: 1.0\nTag-File-Character-Encoding: UTF-8\n", "manifest-md5.txt": manifest("md5", files)}
    put({**files, **tags})


def packed_small(form: str) -> bytes:
    small_bag()
    subprocess.run(["tar", f"--format={form}", "-b", "1", "-cf", "small.tar", "d"], check=True)
    return Path("small.tar").read_bytes()


def see_cuts(program: str) -> str:
    """An archive that is cut off is never a bag, but after its two blocks of zeros."""
    count = 0
    for form in "gnu", "pax":
        whole = packed_small(form) + bytes(1024)
        end = len(whole) - 1024
        cuts = sorted({*range(0, len(whole) + 1, 512), *range(100, len(whole), 777), end - 1, end + 1})
        for cut, verdict in zip(cuts, verdicts(program, [whole[:cut] for cut in cuts])):
            if not re.fullmatch("is valid" if cut >= end else r"unread \S+ cut-off, faults: 0", verdict):
                raise Wrong(f"{form}, cut off after {cut} of {end} bytes: {verdict}")
        count += len(cuts)
    return f"{count} cut off"


def flipped(whole: bytes, at: int) -> List[bytes]:
    """The archive with each bit of a header flipped in turn."""
    changed = []
    for bit in range(512 * 8):
        spot = at + bit // 8
        changed.append(whole[:spot] + bytes([whole[spot] ^ 1 << bit % 8]) + whole[spot + 1:])
    return changed


def see_bits(program: str) -> str:
    """With a bit of a header flipped an archive is a bag only where GNU tar and Python unpack it."""
    count, valid = 0, 0
    for form, kind in ("gnu", b"L"), ("gnu", tarfile.REGTYPE), ("pax", b"x"), ("ustar", tarfile.DIRTYPE):
        whole = packed_small("gnu" if form == "ustar" else form)
        at = next(at for at in headers(whole) if whole[at + 156:at + 157] == kind)
        every = flipped(whole, at)
        for verdict, changed in zip(verdicts(program, every), every):
            if verdict == "is valid":
                valid += 1
                same_to_readers(program, "flipped.tar", changed)
            elif " unread " not in f" {verdict}":
                raise Wrong(f"{form}, a flipped bit of {kind!r}: {verdict}")
        count += len(every)
    return f"{count} flipped bits, of which {valid} change no bag"


def altered(archive: bytes, at: int, spot: int, text: bytes) -> bytes:
    """The archive with a text in the header at a place, whose checksum is mended."""
    block = archive[at:at + spot] + text + archive[at + spot + len(text):at + 512]
    return archive[:at] + sealed(block) + archive[at + 512:]


def end_of(*members: bytes) -> bytes:
    return b"".join(members) + bytes(1024)


def old(archive: bytes, at: int) -> bytes:
    """The archive with an old header at a place: its flag is NUL, and it has no magic."""
    return altered(altered(archive, at, 156, b"\0"), at, 257, bytes(8))


DECLARED = member("d/bagit.txt", b"BagIt-Version: 1.0\nTag-File-Character-Encoding: UTF-8\n")
FILE = member("d/data/a", b"a")
LONG_NAME = "d/data/" + "l" * 120 + "/"
LONG_FOLDER = member(LONG_NAME, kind=tarfile.DIRTYPE)
LONG_OLD_FOLDER = old(LONG_FOLDER, len(LONG_FOLDER) - 512)
LONG_LINK = member("././@LongLink", b"d/data/a\0", kind=tarfile.GNUTYPE_LONGLINK)
EMPTY, FOLDER = member("d/data/e"), member("d/data/f/", kind=tarfile.DIRTYPE)
LINK = member("d/data/h", kind=tarfile.LNKTYPE, link="d/data/a")
DEEP = f"d/data/{'/'.join(['n' * 200] * 21)}"[:4095]
"""A path for which systems have just room."""


def record(text: bytes) -> bytes:
    """A record of an extended header, which begins with its own length."""
    size = next(n for n in range(len(text), len(text) + 12) if n == len(str(n)) + len(text) + 2)
    return b"%d %s\n" % (size, text)


def extended(text: bytes, behind: bytes = b"") -> bytes:
    """An extended header of one record, and what stands behind its data."""
    whole, end = member("d/PaxHeaders/a", record(text), kind=tarfile.XHDTYPE), 512 + len(record(text))
    return whole[:end] + behind + whole[end + len(behind):]


REFUSED = {
    "a-symbolic-link": (end_of(DECLARED, member("d/data/s", kind=tarfile.SYMTYPE, link="a")), "d/data/s special"),
    "a-device": (end_of(DECLARED, member("d/data/null", kind=tarfile.CHRTYPE)), "d/data/null special"),
    "a-pipe": (end_of(DECLARED, member("d/data/pipe", kind=tarfile.FIFOTYPE)), "d/data/pipe special"),
    "a-link-to-a-later-file": (end_of(member("d/data/h", kind=tarfile.LNKTYPE, link="d/data/a"), FILE), "d/data/h special"),
    "a-link-out-of-the-bag": (end_of(FILE, member("d/data/h", kind=tarfile.LNKTYPE, link="/etc/passwd")), "d/data/h special"),
    "an-absolute-path": (end_of(member("/d/data/a", b"a")), "/d/data/a name"),
    "a-path-above-the-archive": (end_of(member("../d/data/a", b"a")), "../d/data/a name"),
    "a-path-above-the-bag": (end_of(FILE, member("d/../a", b"a")), "d/../a name"),
    "an-empty-component": (end_of(FILE, member("d//a", b"a")), "d//a name"),
    "two-folders-at-the-top": (end_of(FILE, member("e/data/a", b"a")), "e/data/a no-base"),
    "a-file-at-the-top": (end_of(member("a", b"a")), "a no-base"),
    "nothing": (end_of(), "- no-base"),
    "a-file-twice": (end_of(FILE, FILE), "d/data/a twice"),
    "a-file-and-a-folder": (end_of(FILE, member("d/data/a", kind=tarfile.DIRTYPE)), "d/data/a/ twice"),
    "a-file-on-the-way": (end_of(FILE, member("d/data/a/b", b"b")), "d/data/a/b twice"),
    "a-folder-and-a-file": (end_of(member("d/data/a/b", b"b"), FILE), "d/data/a twice"),
    "no-end": (DECLARED + FILE, "- cut-off"),
    "one-block-of-zeros": (DECLARED + FILE + bytes(512), "- cut-off"),
    "a-block-of-zeros-inside": (DECLARED + bytes(512) + end_of(FILE), "- damaged"),
    "no-archive": (b"\xff" * 2048, "- damaged"),
    "a-prefix-by-GNU's-magic": (end_of(altered(DECLARED, 0, 345, b"x")), "d/bagit.txt damaged"),
    "records-behind-the-data": (end_of(extended(b"comment=x", record(b"path=d/data/b")), FILE), "d/PaxHeaders/a damaged"),
    "a-key-after-a-blank": (end_of(extended(b" path=d/data/b"), FILE), "d/PaxHeaders/a damaged"),
    "an-empty-key": (end_of(extended(b"=x"), FILE), "d/PaxHeaders/a damaged"),
    "a-sparse-file-of-Solaris": (end_of(extended(b"SUN.holesdata= 0 1"), FILE), "d/PaxHeaders/a special"),
    "two-names-of-an-old-folder": (end_of(FILE, LONG_OLD_FOLDER), LONG_NAME + " damaged"),
    "a-sparse-file-by-GNU's-magic": (end_of(altered(FILE, 0, 386, b"0")), "d/data/a damaged"),
    "another-size-by-GNU's-magic": (end_of(altered(FILE, 0, 483, b"00000000002")), "d/data/a damaged"),
    "an-empty-file-with-a-link": (end_of(FILE, altered(EMPTY, 0, 157, b"d/data/a")), "d/data/e damaged"),
    "an-empty-file-with-a-long-link": (end_of(FILE, LONG_LINK, EMPTY), "d/data/e damaged"),
    "an-empty-file-with-a-link-in-a-record": (end_of(FILE, extended(b"linkpath=d/data/a"), EMPTY), "d/data/e damaged"),
    "an-old-flag-and-a-slash": (end_of(FILE, altered(FOLDER, 0, 156, b"\0")), "d/data/f/ name"),
    "another-size-in-a-record": (end_of(extended(b"size=2"), FILE), "d/data/a damaged"),
    "no-size-but-in-a-record": (end_of(extended(b"size=1"), EMPTY, bytes(512)), "d/data/e damaged"),
    "a-link-with-a-size": (end_of(FILE, extended(b"size=0"), altered(LINK, 0, 124, b"00000000001")), "d/data/h damaged"),
    "a-drive": (end_of(member("C:/data/a", b"a")), "C:/data/a name"),
    "a-drive-before-a-name": (end_of(member("z:d/data/a", b"a")), "z:d/data/a name"),
    "a-backslash-at-the-top": (end_of(member("\\/data/a", b"a")), "\\/data/a name"),
    "a-long-component": (end_of(FILE, member(f"d/data/{'n' * 256}", b"a")), f"d/data/{'n' * 256} name"),
    "a-long-path": (end_of(FILE, member(DEEP + "n", b"a")), DEEP + "n name"),
    "a-link-of-a-long-path": (end_of(FILE, member(DEEP + "n", kind=tarfile.LNKTYPE, link="d/data/a")), DEEP + "n name"),
    "a-long-record": (end_of(extended(b"comment=" + b"x" * 1_000_000), FILE), "d/PaxHeaders/a damaged"),
}
"""Archives that hold no bag, with the member and the cause that are named."""


def see_refused(program: str) -> str:
    for title, (archive, _) in REFUSED.items():
        write(f"{title}.tar", archive)
    by_tar = {"from-within": (["-C", "d", "."], r"\S+ no-base"), "sparse": (["-S", "d"], "d/data/hole special")}
    by_tar["sparse-by-pax"] = (["--format=pax", "-S", "d"], r"\S+ special")
    by_tar["the-name-of-a-volume"] = (["--label=volume", "d"], "volume special")
    small_bag()
    with open("d/data/hole", "wb") as hole:
        hole.truncate(1 << 20)
    wanted = {title: re.escape(cause) for title, (_, cause) in REFUSED.items()}
    for title, (words, cause) in by_tar.items():
        subprocess.run(["tar", "-cf", f"{title}.tar", *words], check=True)
        wanted[title] = cause
    for title, cause in wanted.items():
        lines, status, errors = run(program, "--tar", f"{title}.tar")
        if status != 3 or len(lines) != 1 or not re.fullmatch(rf"{title}\.tar unread {cause}, faults: 0", lines[0]):
            raise Wrong(f"{title}: {status}, {lines}, {errors!r}, and not {cause}")
    return f"{len(wanted)} refused by name"


def see_no_archives(program: str) -> str:
    """What is no tar file is named on the standard error; and an archive that is taken for a folder."""
    write("d.tar.gz", gzip.compress(packed_small("gnu")))
    wanted: Dict[Tuple[str, ...], str] = {
        ("--tar", "d.tar.gz"): "bagit: d.tar.gz: gzip, unpack it first\n",
        ("--tar", "d"): r"bagit: d: .*folder.*\n",
        ("--tar", "gone.tar"): r"bagit: gone\.tar: not there\n",
        ("small.tar",): r"bagit: small\.tar: .*--tar.*\n",
    }
    for words, told in wanted.items():
        lines, status, errors = run(program, *words)
        if status != 3 or not re.fullmatch(told, errors):
            raise Wrong(f"{words}: {status}, {lines}, {errors!r}, and not {told}")
    return f"{len(wanted)} no archives"


def sized(archive: bytes) -> bytes:
    """The archive with a record before a file, that has the size of its header."""
    at = next(at for at in headers(archive) if archive[at + 124:at + 136] == b"%011o\0" % 600)
    return archive[:at] + extended(b"size=600") + archive[at:]


def see_kept(program: str) -> str:
    """Hard links are files, a folder may come twice, and what follows the end isn't looked at. Device numbers may be blank, an old folder
    may be known by a slash, and a record may say a header's size again."""
    small_bag()
    os.link("d/data/a", "d/data/linked")
    Path("d/manifest-md5.txt").write_bytes(Path("d/manifest-md5.txt").read_bytes() + manifest("md5", {"data/linked": b"a" * 600}))
    pack = ["tar", "-b", "1", "-cf"]
    subprocess.run([*pack, "linked.tar", "d"], check=True)
    subprocess.run([*pack, "twice.tar", "d", "--no-recursion", "d", "d/data"], check=True)
    write("e.tar", end_of(member("e/data/a", b"other")))
    write("joined.tar", Path("linked.tar").read_bytes() + Path("e.tar").read_bytes())
    write("odd-end.tar", Path("linked.tar").read_bytes() + b"odd")
    write("blank.tar", altered(Path("linked.tar").read_bytes(), 0, 329, b" " * 16))
    write("sized.tar", sized(Path("linked.tar").read_bytes()))
    write("old.tar", old(Path("linked.tar").read_bytes(), 0))
    with tarfile.open("linked.tar") as tar:
        if not any(info.islnk() for info in tar):
            raise Wrong("GNU tar wrote no hard link")
    archives = ["linked.tar", "twice.tar", "joined.tar", "odd-end.tar", "blank.tar", "sized.tar", "old.tar"]
    same_everywhere(program, archives, random.Random(2))
    return f"{len(archives)} with links and more"


def with_hole(form: int, size: int) -> Optional[str]:
    """The folder d with a file of so many bytes, all of them a hole, in an archive that has the same hole."""
    archive = f"hole-{form}.tar"
    with tarfile.open(archive, "w", format=form) as tar:
        info = tar.gettarinfo("d/data/large")
        head = info.tobuf(form)
    with open(archive, "wb") as file:
        file.write(head)
        file.seek(len(head) + (size + 511) // 512 * 512)
        for path in sorted(Path("d").rglob("*.txt")):
            file.write(member(str(path), path.read_bytes()))
        file.write(bytes(1024))
    return archive


def see_large(program: str) -> str:
    """A file of more than 8 GiB, whose size has no room in a header of POSIX's; what follows it is read at its place."""
    size = (8 << 30) + 5
    if not room_for(2 * size):
        return "no room for 8 GiB, even in holes"
    put({"bagit.txt": b"BagIt-Version: 1.0\nTag-File-Character-Encoding: UTF-8\n",
         "bag-info.txt": f"Payload-Oxum: {size}.1\n".encode(), "manifest-md5.txt": f"{digest('md5', b'')}  data/large\n".encode()})
    with open("d/data/large", "wb") as file:
        file.truncate(size)
    shutil.rmtree("d/data/empty")
    archives = [name for form in (tarfile.GNU_FORMAT, tarfile.PAX_FORMAT) for name in [with_hole(form, size)] if name]
    for depth in ("--completeness-only",), ("--fast",):
        if same_report(program, archives, *depth)[-1] != f"d {'agrees with its oxum' if depth[0] == '--fast' else 'is complete'}":
            raise Wrong("a bag with a file of 8 GiB isn't complete")
    return "8 GiB in two archives"


def see_readers(program: str) -> str:
    draw = random.Random(3)
    archives: List[bytes] = []
    for names in SHORT, LONG:
        put(good_bag(draw, names, most=1024))
        archives.extend(Path(name).read_bytes() for name in pack_all(names))
    for content, verdict in zip(archives, verdicts(program, archives)):
        if verdict != "is valid":
            raise Wrong(f"a good archive {verdict}")
        same_to_readers(program, "good.tar", content)
    return compare(program, archives, 600)


def main() -> None:
    program = sys.argv[1]
    checks = (see_writers, see_cuts, see_bits, see_refused, see_no_archives, see_kept, see_large, see_readers)
    for check in checks:
        print(check(program), flush=True)


if __name__ == "__main__":
    main()
