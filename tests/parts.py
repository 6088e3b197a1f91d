"""Generates bags, checks each in parts, and compares the parts with one check. tests/parts.sh calls it."""
import hashlib
import pathlib
import random
import re
import shutil
import subprocess
import sys

ALGORITHMS = ("md5", "sha1", "sha256")
NAMES = ("a", "b", "c d", "%", "é", "e\u0301", "it's", "z\n", "-n", "ü" * 40)
DONE = re.compile(r"d part (\d+) of (\d+) (done|rest done), files: (\d+), bytes: (\d+)(, clashes)?, faults: (\d+)")
COUNTS = dict.fromkeys(("bags", "parts", "cursors", "stops", "altered"), 0)


class Wrong(Exception):
    """What isn't as it should be."""


def run(program, *words):
    ended = subprocess.run([program, "--validate", *words, "d"], capture_output=True, text=True, check=False)
    if ended.stderr:
        raise Wrong(f"{words}: {ended.stderr}")
    return ended.stdout.splitlines(), ended.returncode


def spelled(path):
    """A path as a manifest of version 1.0 has it."""
    return path.replace("%", "%25").replace("\n", "%0A").replace("\r", "%0D")


def make_bag(seed):
    """A bag with some payload files, of which some aren't as the manifests say, and sometimes with other faults."""
    draw = random.Random(seed)
    bag = pathlib.Path("d")
    shutil.rmtree(bag, ignore_errors=True)
    (bag / "data").mkdir(parents=True)
    paths = {f"data/{folder}{name}" for folder in ("", "one/", "z/y/") for name in NAMES if draw.random() < 0.4}
    files = {path: draw.randbytes(draw.choice((0, 1, 3, 70_000, 400_000))) for path in sorted(paths)}
    for path, content in files.items():
        (bag / path).parent.mkdir(parents=True, exist_ok=True)
        (bag / path).write_bytes(content)
    version = draw.choice(("1.0", "1.0", "0.97"))
    encoding = draw.choice(("UTF-8", "UTF-8", "ISO-8859-1"))
    (bag / "bagit.txt").write_text(f"BagIt-Version: {version}\nTag-File-Character-Encoding: {encoding}\n")
    if draw.random() < 0.5:
        (bag / "bag-info.txt").write_text(draw.choice((" orphan\n", "Payload-Oxum: 3.1\n", "Contact-Name: Ann\n")))
    if draw.random() < 0.3:
        (bag / "notes.txt").write_text("notes\n")
    for algorithm in draw.sample(ALGORITHMS, draw.randint(1, 2)):
        lines = []
        for path, content in files.items():
            told = content if draw.random() < 0.7 else b"other"
            if draw.random() < 0.9:
                lines.append(f"{hashlib.new(algorithm, told).hexdigest()}  {spelled(path)}\n")
        if draw.random() < 0.3:
            lines.append(f"{hashlib.new(algorithm, b'').hexdigest()}  data/gone\n")
        (bag / f"manifest-{algorithm}.txt").write_text("".join(lines))
    if draw.random() < 0.5:
        told = [f"{hashlib.md5(b'x').hexdigest()}  {path.name}\n" for path in sorted(bag.glob("*.txt"))]
        (bag / "tagmanifest-md5.txt").write_text("".join(told))
    return draw


def listed():
    """The files of the bag and their bytes, as the system tells them."""
    files = [path for path in pathlib.Path("d").rglob("*") if path.is_file()]
    return len(files), sum(path.stat().st_size for path in files)


def check_part(program, number, parts, *words, how="done"):
    """The faults of a part, whose closing line must tell it, and whose status must be 1."""
    lines, status = run(program, "--part", f"{number}/{parts}", *words)
    ended = DONE.fullmatch(lines[-1]) if lines else None
    wanted = (str(number), str(parts), how, *map(str, listed()), ", clashes" if "--clashes" in words else None, str(len(lines) - 1))
    if status != 1 or not ended or ended.groups() != wanted:
        raise Wrong(f"part {number} of {parts} ends with {status} and {lines[-1:]}, wanted {wanted}")
    COUNTS["parts"] += 1
    return lines[:-1]


def go_on(program, number, parts, faults, draw):
    """A part goes on after one of its faults, and is stopped after some."""
    at = draw.randrange(len(faults))
    rest = check_part(program, number, parts, "--after", faults[at], how="rest done")
    if rest != faults[at + 1 :]:
        raise Wrong(f"part {number} of {parts} goes on otherwise after {faults[at]}")
    lines, status = run(program, "--part", f"{number}/{parts}", "--max-faults", str(at + 1))
    if status != 1 or lines != [*faults[: at + 1], f"d stopped, faults: {at + 1}"]:
        raise Wrong(f"part {number} of {parts} stops otherwise at {at + 1} faults: {lines}")
    COUNTS["cursors"] += 1
    COUNTS["stops"] += 1


def see_altered(program, parts):
    """A file that comes between two parts is seen by their closing lines."""
    before = run(program, "--part", f"1/{parts}")[0][-1]
    pathlib.Path("d/data/late").write_bytes(b"late")
    after = run(program, "--part", f"{parts}/{parts}")[0][-1]
    if DONE.fullmatch(before).group(4, 5) == DONE.fullmatch(after).group(4, 5):
        raise Wrong(f"a file was added between {before!r} and {after!r}")
    COUNTS["altered"] += 1


def try_bag(program, seed):
    draw = make_bag(seed)
    options = draw.choice(((), ("--clashes",)))
    whole, status = run(program, *options)
    verdict = whole[-1]
    parts = draw.choice((1, 2, 3, 5, 8, 41))
    numbers = list(range(1, parts + 1))
    draw.shuffle(numbers)
    found = {number: check_part(program, number, parts, *options) for number in numbers}
    joined = [line for number in range(1, parts + 1) for line in found[number]]
    wanted = "d is valid" if not joined else f"d has faults: {len(joined)}"
    if joined != whole[:-1] or verdict != wanted or status != (1 if joined else 0):
        raise Wrong(f"{parts} parts come to another report than one check")
    if not options:
        for number in numbers:
            if found[number]:
                go_on(program, number, parts, found[number], draw)
    see_altered(program, parts)
    COUNTS["bags"] += 1


def main(program, bags):
    for seed in range(int(bags)):
        try:
            try_bag(program, seed)
        except Wrong as wrong:
            sys.exit(f"bag {seed}: {wrong}")
    print(", ".join(f"{count} {name}" for name, count in COUNTS.items()))


if __name__ == "__main__":
    main(*sys.argv[1:])
