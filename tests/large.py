"""Large bags: what is written of each, and that it takes a time in proportion. tests/large.sh calls it."""
import json
import os
import pathlib
import re
import shutil
import subprocess
import sys
import tempfile
from dataclasses import dataclass
from typing import Dict, Iterator, List, Tuple

EMPTY = "d41d8cd98f00b204e9800998ecf8427e"
OF_A = "0cc175b9c0f1b6a831c399e269772661"
OF_B = "92eb5ffee6ae2fec3ad71c777531578f"
SHA1_OF_A = "86f7e437faa5a7fce15d1ddcb9eaeaea377667b8"

# The digests of a million letters `a`, as FIPS 180 and others publish them.
OF_A_MILLION = {
    "md5": "7707d6ae4e027c70eea2a935c2296f21",
    "sha1": "34aa973cd4c4daa4f61eeb2bdbad27316534016f",
    "sha256": "cdc76e5c9914fb9281a1c7e284d73e67f1809a48a497200e046d39ccc7112cd0",
    "sha512": "e718483d0ce769644e2e42c7bc15b4638e1f98b13b2044285632a803afa973eb"
              "de0ff244877ea60a4cb0432ce577c31beb009c5c2c49aa2e4eadb217ad8cc09b",
}

FULL, COMPLETE, FAST = ["--validate", "--clashes"], ["--validate", "--completeness-only", "--clashes"], ["--validate", "--fast"]


class Wrong(Exception):
    """What is written isn't what should be, or it takes too long."""


@dataclass(frozen=True)
class Row:
    """A bag of a size: its payload files, which hold `a`, its tag files, the words of its check, and the report.

    Of a path or a line with `#` or `~` there are as many as the size says, one after the other, before what stands next. `#` stands for
    a number from 10000 on, `~` for each of these numbers in an order that jumps, `@` for a number from 2 on, and `&` for one that goes on
    where that ends.
    """

    title: str
    size: int
    files: Tuple[str, ...]
    tag_files: Dict[str, Tuple[str, ...]]
    words: List[str]
    report: Tuple[str, ...]


ROWS = (
    Row("sizes after the first", 20_000, (),
        {"bag-info.txt": ("Payload-Oxum: 0.0", "Payload-Oxum: 0.#"), "manifest-sha256.txt": ()},
        FAST, ("303 oxum-again bag-info.txt - @ 0.#",)),
    Row("files to fetch, half of which one manifest doesn't name, and all of which another one doesn't", 10_000, (),
        {"fetch.txt": ("", "u:v - data/a#", "u:v - data/b#"), "manifest-md5.txt": (f"{EMPTY}  data/b#",), "manifest-sha1.txt": ()},
        COMPLETE, ("405 fetch-not-in-manifest fetch.txt md5 @ data/a#", "405 fetch-not-in-manifest fetch.txt sha1 @ data/a#",
                   "405 fetch-not-in-manifest fetch.txt sha1 & data/b#", "601 payload-file-missing data/b# md5 - -")),
    Row("paths in an order that jumps, each of which is named again thousands of lines below", 20_000, (),
        {"manifest-md5.txt": ("", f"{EMPTY}  data/~", f"{OF_A}  data/~")},
        COMPLETE, ("508 named-again manifest-md5.txt md5 & data/~", "601 payload-file-missing data/# md5 - -")),
    Row("files that no manifest names, and others that aren't there", 4_000, ("data/a#",),
        {"manifest-md5.txt": (f"{EMPTY}  data/b#",)},
        COMPLETE, ("603 payload-file-not-listed data/a# md5 - -", "601 payload-file-missing data/b# md5 - -")),
    Row("names that clash", 2_000, ("data/\u00e9#", "data/e\u0301#"),
        {"manifest-md5.txt": (f"{OF_A}  data/\u00e9#", f"{OF_A}  data/e\u0301#")},
        COMPLETE, ("604 name-clash data/%C3%A9# - - data/e%CC%81#",)),
    Row("files that are right", 4_000, ("data/#",), {"manifest-md5.txt": (f"{OF_A}  data/~",)}, FULL, ()),
    Row("files that aren't", 4_000, ("data/#",), {"manifest-md5.txt": (f"{OF_B}  data/#",)},
        FULL, (f"701 payload-sum-differs data/# md5 - {OF_B}:{OF_A}",)),
)


def lines(line: str, size: int) -> Iterator[str]:
    """The line once, or once for each number."""
    if "#" not in line and "~" not in line:
        yield line
        return
    for place in range(size):
        yield (line.replace("#", str(10_000 + place)).replace("~", str(10_000 + place * 1103 % size))
               .replace("@", str(2 + place)).replace("&", str(2 + size + place)))


def text_of(parts: Tuple[str, ...], size: int) -> str:
    """These lines, each with its end."""
    return "".join(f"{line}\n" for part in parts for line in lines(part, size))


def put(path: str, text: str) -> None:
    """Writes a file of the bag d."""
    place = pathlib.Path("d", path)
    place.parent.mkdir(parents=True, exist_ok=True)
    place.write_bytes(text.encode())


def put_letters(parts: Tuple[str, ...], size: int) -> None:
    """Files of d that hold `a`: names of one file, which take less time than as many files."""
    pathlib.Path("letter").write_text("a")
    for path in (path for part in parts for path in lines(part, size)):
        os.link("letter", f"d/{path}")


def make_bag(row: Row, size: int) -> None:
    """The bag of a row, d."""
    shutil.rmtree("d", ignore_errors=True)
    os.makedirs("d/data")
    put("bagit.txt", "BagIt-Version: 1.0\nTag-File-Character-Encoding: UTF-8\n")
    put_letters(row.files, size)
    for path, parts in row.tag_files.items():
        put(path, text_of(parts, size))


def seconds_of(program: str, words: List[str], wanted: str) -> float:
    """How long a command takes of a processor, which has to write this."""
    with tempfile.TemporaryFile() as out:
        with subprocess.Popen([program, *words, "d"], stdout=out) as at_work:
            _, ended, used = os.wait4(at_work.pid, 0)
            at_work.returncode = os.waitstatus_to_exitcode(ended)
        out.seek(0)
        found = out.read().decode()
    status = 1 if " faults: " in wanted.splitlines()[-1] else 0
    if (at_work.returncode, found) != (status, wanted):
        raise Wrong(f"{' '.join(words)[:200]}: status {at_work.returncode}, written: {found[:300]}, wanted: {wanted[:300]}")
    return used.ru_utime + used.ru_stime


def in_proportion(title: str, size: int, seconds) -> None:
    """A command takes less than eight times as long for four times as much, in one of three tries: others may be at work."""
    for _ in range(3):
        few, many = seconds(size), seconds(4 * size)
        if many < 8 * max(few, 0.01):
            return
    raise Wrong(f"{title}: {few:.2f} seconds for {size}, and {many:.2f} for {4 * size}")


def check(program: str, row: Row) -> None:
    """A bag's report is the row's."""
    def seconds(size: int) -> float:
        make_bag(row, size)
        report = text_of(row.report, size)
        count = report.count("\n")
        return seconds_of(program, row.words, report + (f"d has faults: {count}\n" if count else "d is valid\n"))
    in_proportion(row.title, row.size, seconds)


def check_million(program: str) -> None:
    """A file of a million bytes, by four algorithms."""
    manifests = {f"manifest-{alg}.txt": (f"{digest}  data/a",) for alg, digest in OF_A_MILLION.items()}
    make_bag(Row("", 0, (), manifests, FULL, ()), 0)
    put("data/a", "a" * 1_000_000)
    seconds_of(program, FULL, "d is valid\n")


def make(program: str, size: int) -> float:
    """Makes a bag of files in two folders, and reads its manifests."""
    shutil.rmtree("d", ignore_errors=True)
    os.makedirs("d/d/a")
    os.mkdir("d/d/b")
    put_letters(("d/a/#", "d/b/#"), size)
    took = seconds_of(program, ["--md5", "--sha1"], "d made\n")
    for alg, digest in ("md5", OF_A), ("sha1", SHA1_OF_A):
        wanted = text_of((f"{digest}  data/d/a/#", f"{digest}  data/d/b/#"), size)
        if pathlib.Path(f"d/manifest-{alg}.txt").read_text() != wanted:
            raise Wrong(f"the manifest of {size} files by {alg} is another")
    return took


def renew(renewing: str, size: int) -> float:
    """Appends elements, also such that are folded over lines, to a bag that has none."""
    make_bag(Row("", 0, (), {"manifest-md5.txt": ()}, [], ()), 0)
    words = [word for line in lines("Label=value #", size) for word in ("--append", line)]
    took = seconds_of(renewing, words, "d renewed\n")
    wanted = text_of(("Label: value #", "Payload-Oxum: 0.0"), size)
    if pathlib.Path("d/bag-info.txt").read_text() != wanted:
        raise Wrong(f"{size} elements are written otherwise")
    return took


def by_profile(program: str, size: int) -> float:
    """A profile of many labels of a hundred values, and of as many patterns: one value isn't allowed, and one file."""
    labels = list(lines("Label-#", size))
    values = [f"value {number}" for number in range(100)]
    profile = {
        "BagIt-Profile-Info": {"BagIt-Profile-Identifier": "urn:p"},
        "Bag-Info": {label: {"values": values} for label in labels},
        "Tag-Files-Allowed": list(lines("#/*", size)),
    }
    pathlib.Path("profile.json").write_text(json.dumps(profile))
    info = ("BagIt-Profile-Identifier: urn:p", "Label-#: value 99", f"{labels[-1]}: other")
    make_bag(Row("", 0, (), {"bag-info.txt": info, "manifest-md5.txt": ()}, [], ()), size)
    put(f"{10_000 + size - 1}/x", "")
    put("x", "")
    return seconds_of(program, ["--validate", "--profile", "profile.json"],
                      f"804 value-not-allowed bag-info.txt - {size + 2} {labels[-1]}:other\n"
                      "810 tag-file-not-allowed x - - -\nd has faults: 2\n")


def by_stars(program: str, size: int) -> float:
    """Patterns of many stars, of which one matches the long path, one fails at its end, and one at its beginning."""
    path = "/".join(["a" * 200] * 15)
    for begin, end, matches in ("", "", True), ("", "*b", False), ("b", "", False):
        profile = {
            "BagIt-Profile-Info": {"BagIt-Profile-Identifier": "urn:p"},
            "Tag-Files-Allowed": [begin + "*a" * size + end],
        }
        pathlib.Path("profile.json").write_text(json.dumps(profile))
        make_bag(Row("", 0, (), {"bag-info.txt": ("BagIt-Profile-Identifier: urn:p",), "manifest-md5.txt": ()}, [], ()), 0)
        put(path, "")
        wanted = "d is valid\n" if matches else f"810 tag-file-not-allowed {path} - - -\nd has faults: 1\n"
        took = seconds_of(program, ["--validate", "--profile", "profile.json"], wanted)
    return took


def go_down(depth: int) -> None:
    """Makes a folder d below the one above, so often, and goes into the last."""
    for _ in range(depth):
        os.mkdir("d")
        os.chdir("d")


def check_deep(program: str) -> None:
    """A file 1,500 folders down is read; 3,000 folders are more than the system takes as a path."""
    top = os.getcwd()
    make_bag(Row("", 0, (), {"manifest-md5.txt": (f"{OF_A}  data/" + "d/" * 1_500 + "x",)}, [], ()), 0)
    os.chdir("d/data")
    go_down(1_500)
    pathlib.Path("x").write_text("a")
    below = os.open(".", os.O_RDONLY)
    os.chdir(top)
    seconds_of(program, FULL, "d is valid\n")
    os.fchdir(below)
    go_down(1_500)
    os.chdir(top)
    ended = subprocess.run([program, *FULL, "d"], capture_output=True, text=True, check=False)
    if (ended.returncode, ended.stdout) != (3, "d unread - device, faults: 0\n") or not re.fullmatch(
            r"bagit: d/data/[d/]+: File name too long \(os error 36\)\n", ended.stderr):
        raise Wrong(f"3,000 folders: {ended.returncode}, {ended.stdout}, {ended.stderr[-100:]}")
    subprocess.run(["rm", "-rf", "d"], check=True)


def main(program: str, renewing: str) -> int:
    """All of it."""
    try:
        for row in ROWS:
            check(program, row)
        check_million(program)
        check_deep(program)
        in_proportion("makings", 2_000, lambda size: make(program, size))
        in_proportion("renewals", 1_000, lambda size: renew(renewing, size))
        in_proportion("profiles", 500, lambda size: by_profile(program, size))
        in_proportion("stars", 500, lambda size: by_stars(program, size))
    except Wrong as wrong:
        print(wrong)
        return 1
    print(f"{len(ROWS) + 4} kinds of large bags, each of two sizes, a file of a million bytes, and folders 1,500 deep")
    return 0


if __name__ == "__main__":
    sys.exit(main(*sys.argv[1:]))
