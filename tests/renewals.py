"""Generates bags, has each renewed, and compares what is left with the reference of renew.py. tests/renew.sh calls it.

usage: renewals.py BAGIT BAGIT_RENEW BAGS
"""
import os
import random
import re
import shutil
import subprocess
import sys
from pathlib import Path
from typing import NamedTuple

import renew
from renew import ALGORITHMS, BEGUN, Options, Refused, field

NAMES = ("a", "b", "c d", "%", "50%25", "é", "e\u0301", "it's", "z\n", "\r", "-n", "ü" * 40)
TAG_FILES = ("notes.txt", "manifest-SHA256.txt", "metadata/dc.xml", "metadata/deep/ü 100%.xml", "z/tagmanifest-md5.txt")
UNNAMEABLE = ("*star", " blank", "\ttab/in it", "50%0a", "notes/%0D%")
LABELS = ("Contact-Name", "contact-name", "External-Identifier", "External-identifier", "Bag-Size", "Ort", "Näme", "x")
VALUES = ("", "Ann", "A 2026/17", "=", "a: b", "50 %", "Zürich", "on two\nlines", "on\nthree\nlines", "\non the second")
BAD = (("", "x"), ("a:b", "x"), ("a ", "x"), ("Payload-Oxum", "1.1"), ("payload-oxum", ""), ("x", "\rb"), ("x", "a\n\nb"))
IN_THE_WAY = (BEGUN.decode(), f"{BEGUN.decode()}/a", "bag-info.txt/a", "tagmanifest-sha224.txt/a")
MODES = (0o644, 0o644, 0o600, 0o640, 0o664)
COUNTED = ("bags", "renewed", "of 0.97 that stay so", "of 0.97 to 1.0", "without reading the payload", "manifests printed")
OUTDATED = ("tagmanifest-sha3_256.txt", "tagmanifest-MD5.txt", "tagmanifest-.txt", "tagmanifest-a\n.txt")
REASONS = ("fault", "fetch.txt", "can't be named", "would be in no manifest", "would be out of date")
COUNTS = dict.fromkeys((*COUNTED, "refused", *REASONS), 0)


class Wrong(Exception):
    """What isn't as it should be."""


def demand(is_so, *what):
    if not is_so:
        raise Wrong(*what)


# ---- bags


def spelled(path, version):
    return renew.spelled(path.encode(), version).decode()


def manifest(draw, algorithm, files, version):
    """A manifest that is right, in any order and form."""
    end, mark, sums = draw.choice(("\n", "\n", "\r\n", "\r")), draw.choice(("  ", " *", "\t./", " ")), []
    for path, content in draw.sample([*files.items()], len(files)):
        digest = renew.hashlib.new(algorithm, content).hexdigest()
        sums.append((digest.upper() if draw.random() < 0.2 else digest) + mark + spelled(path, version))
    text = draw.choice(("", "", "\ufeff")) + end.join(sums) + draw.choice((end, end, end * 3))
    return text.encode()


def info(draw, version, oxum):
    """A bag-info.txt without a fault."""
    end, fold = draw.choice(("\n", "\n", "\r\n", "\r")), draw.choice(("\t", " ", " \t  "))
    elements = [(draw.choice(LABELS), draw.choice(VALUES)) for _ in range(draw.randrange(6))]
    if draw.random() < 0.7:
        elements.insert(draw.randrange(len(elements) + 1), (draw.choice(("Payload-Oxum", "payload-oxum")), oxum))
    colon = draw.choice((": ", ":\t", ":   ") if version == "1.0" else (": ", " : ", ":"))
    text = draw.choice(("", "\ufeff"))
    for label, value in elements:
        text += label + (colon if value else ":") + value.replace("\n", draw.choice(("", " ")) + end + fold) + end
    return (text + end * draw.randrange(2)).encode()


def make_bag(draw, top):
    """A bag without a fault in most cases."""
    version, files = draw.choice(("1.0", "0.97")), {}
    has_percent = version == "1.0" or draw.random() < 0.5
    names = [name for name in NAMES if has_percent or "%" not in name]
    for name in (f"data/{folder}{name}" for folder in ("", "one/", "z/y/") for name in names if draw.random() < 0.3):
        files[name] = draw.randbytes(draw.choice((0, 1, 3, 5000, 70_000)))
    payload = dict(files)
    for name in TAG_FILES:
        if draw.random() < 0.3 and (has_percent or "%" not in name):
            files[name] = draw.randbytes(9)
    if draw.random() < 0.03:
        files[draw.choice(UNNAMEABLE)] = b"x"
    if draw.random() < 0.03:
        files[draw.choice(OUTDATED)] = b"x"
    encoding = draw.choice(("UTF-8", "UTF-8", "utf-8"))
    files["bagit.txt"] = f"BagIt-Version: {version}\nTag-File-Character-Encoding: {encoding}\n".encode()
    algorithms = draw.sample(ALGORITHMS, draw.choice((1, 1, 2, 3)))
    for algorithm, named in shares(draw, payload, algorithms, version).items():
        files[f"manifest-{algorithm}.txt"] = manifest(draw, algorithm, named, version)
    if draw.random() < 0.7:
        files["bag-info.txt"] = info(draw, version, f"{sum(map(len, payload.values()))}.{len(payload)}")
    if draw.random() < 0.15 and payload:
        lines = [f"http://example.org/{number} - {spelled(path, version)}\n" for number, path in enumerate(payload)]
        files["fetch.txt"] = "".join(lines[:2]).encode()
    if draw.random() < 0.04:
        files[draw.choice(IN_THE_WAY)] = b"mine"
    if "bag-info.txt/a" in files:
        files.pop("bag-info.txt", None)
    add_tag_manifests(draw, version, files)
    if draw.random() < 0.15 and not any(name.startswith(BEGUN.decode()) for name in files):
        files[BEGUN.decode()] = b"begun"
    (top / "data").mkdir(parents=True)
    renew.write({name.encode(): content for name, content in files.items()}, top)
    for name in ("empty", "data/none/here"):
        if draw.random() < 0.2:
            (top / name).mkdir(parents=True)
    for name in files:
        if not name.startswith("data/"):
            (top / name).chmod(draw.choice(MODES))


def shares(draw, payload, algorithms, version):
    """What each payload manifest names: by 1.0 all, and by 0.97 each file is named by some, in half the bags all by one."""
    named, whole = {algorithm: dict(payload) for algorithm in algorithms}, draw.choice((None, algorithms[0]))
    for path in payload if version == "0.97" else ():
        for algorithm in draw.sample(algorithms, draw.randrange(len(algorithms))):
            if algorithm != whole:
                del named[algorithm][path]
    return named


def is_nameable(path, version):
    """Whether a manifest can name a path: by 0.97 what looks like an escaped end of a line is read as one."""
    return path[0] not in "*\t " and (version == "1.0" or not re.search("%0[AaDd]", path))


def add_tag_manifests(draw, version, files):
    """Some, none, or all, of any algorithms: each names all payload manifests, and of other tag files some."""
    named = {path: content for path, content in files.items() if not path.startswith("data/") and is_nameable(path, version)}
    free = [algorithm for algorithm in ALGORITHMS if f"tagmanifest-{algorithm}.txt/a" not in files]
    for algorithm in draw.sample(free, draw.choice((0, 1, 1, 2))):
        share = draw.choice((1, 1, 0.5))
        chosen = [path for path in named if path.startswith("manifest-") or draw.random() < share]
        some = {path: named[path] for path in chosen}
        files[f"tagmanifest-{algorithm}.txt"] = manifest(draw, algorithm, some, version)


def damage(draw, top):
    """One fault, of a payload file or another."""
    files = [path for path in sorted(renew.held(top)) if path != BEGUN]
    at = os.path.join(os.fsencode(top), draw.choice(files))
    if draw.random() < 0.2:
        os.unlink(at)
        return
    with open(at, "rb") as file:
        content = bytearray(file.read())
    if content:
        content[draw.randrange(len(content))] ^= draw.choice((1, 2, 32))
    with open(at, "wb") as file:
        file.write(content or b"x")


def draw_options(draw):
    def element():
        return draw.choice(BAD) if draw.random() < 0.02 else (draw.choice(LABELS), draw.choice(VALUES))

    counts = (0, 0, 0, 1, 1, 2, 3)
    return Options(
        add=tuple(draw.sample(ALGORITHMS, draw.choice((0, 1, 1, 2)))),
        drop=tuple(draw.sample(ALGORITHMS, draw.choice((0, 0, 1, 2)))),
        unset=tuple(draw.choice(LABELS) for _ in range(draw.choice(counts))),
        set=tuple(element() for _ in range(draw.choice(counts))),
        append=tuple(element() for _ in range(draw.choice(counts))),
        to_1_0=draw.random() < 0.4,
        unchecked=draw.random() < 0.4,
    )


# ---- what is left


class Look(NamedTuple):
    """All of a folder: the bytes of each file, what `stat` says of it, and the folders."""

    files: dict
    stats: dict
    folders: set

    def file(self, path):
        """A file as itself, so that one that was written anew is another."""
        return self.files[path], self.stats[path].st_ino, self.stats[path].st_mtime_ns, self.owned(path)

    def owned(self, path):
        """Its mode, owner and group."""
        return self.stats[path].st_mode, self.stats[path].st_uid, self.stats[path].st_gid

    def same(self):
        return {path: self.file(path) for path in self.files}, self.folders


def look(top):
    folders = {f"{folder}/{name}" for folder, names, _ in os.walk(top) for name in names}
    stats = renew.listed(top)
    return Look(renew.contents(top, stats), stats, folders)


class Programs(NamedTuple):
    bagit: str
    renewing: str

    def faults(self, top):
        """The report of a full check, a line for each fault, without its closing line."""
        ended = subprocess.run([self.bagit, "--validate", top], capture_output=True, check=False)
        lines = ended.stdout.decode().splitlines()
        demand(ended.returncode in (0, 1) and not ended.stderr and lines, f"a check ends with {ended}")
        demand(lines[-1] == f"{top} is valid" if ended.returncode == 0 else f"{top} has faults: ", lines[-1])
        return lines[:-1]

    def run(self, *words):
        ended = subprocess.run([self.renewing, *words], capture_output=True, check=False)
        return ended.returncode, ended.stdout, ended.stderr.decode()


def agree(programs, top):
    """Both call the bag valid, or neither does."""
    why, faults = renew.why_invalid(top), programs.faults(top)
    demand(bool(why) == bool(faults), f"the reference says {why}, and bagit {faults}")
    return faults


def refused_lines(programs, top, options, reasons):
    """The lines that may be said for these reasons, each with its status: of a bag's faults the first that counts."""
    reads = renew.reads_payload(renew.held(top), options)
    for reason in reasons:
        if reason == "fault":
            counted = [line for line in programs.faults(top) if reads or not line.startswith("701 ")]
            yield 1, f"{top} not renewed: fault {counted[0]}\n"
        else:
            yield 3, f"{top} not renewed: {reason}\n"


def check_refused(programs, top, options, reasons):
    before = look(top)
    for words in ([], ["--dry-run"], ["--quiet"]):
        status, said, complaint = programs.run(*options.words(), *words, top)
        lines = [*refused_lines(programs, top, options, reasons)]
        demand((status, said.decode()) in lines, f"{words}: it ends with {status}, {said}, and not as one of {lines}")
        demand(not complaint, complaint)
        demand(look(top).same() == before.same(), f"{words}: a bag that was refused was changed")
    COUNTS["refused"] += 1
    for name in REASONS:
        COUNTS[name] += any(reason.endswith(name) for reason in reasons)


def check_said(said, top, before, wanted):
    """What a dry run says would be put and removed: tag manifests may go first, and then be put."""
    lines = [line.removeprefix(f"{top} would ").split(" ") for line in said.decode().splitlines()]
    puts = sorted(path for verb, path in lines if verb == "put")
    removed = {path for verb, path in lines if verb == "remove"}
    gone = {field(path) for path in before.files if path not in wanted.files}
    may_go = gone | {field(path) for path in before.files if renew.is_tag_manifest(path)}
    demand(puts == sorted(map(field, wanted.put)), f"a dry run says {said}, and not that it would put {wanted.put}")
    demand(gone <= removed <= may_go, f"a dry run says {said}, and not that it would remove {gone}")
    demand(len(lines) == len(puts) + len(removed), f"a dry run says {said}")


def check_renewed(programs, top, options, wanted):
    """The renewed bag, byte for byte; of what wasn't written the very files, and a copy by hard links as it was."""
    before, faults = look(top), programs.faults(top)
    status, said, complaint = programs.run("--dry-run", *options.words(), top)
    demand((status, complaint) == (0, ""), f"a dry run ends with {status}, {said}, {complaint}")
    check_said(said, top, before, wanted)
    demand(look(top).same() == before.same(), "a dry run has changed the bag")
    shutil.rmtree("linked", ignore_errors=True)
    shutil.copytree(top, "linked", copy_function=os.link)
    ended = programs.run(*options.words(), top)
    demand(ended == (0, f"{top} renewed\n".encode(), ""), f"it ends with {ended}")
    check_left(before, look(top), wanted)
    demand(look("linked").same()[0] == before.same()[0], "a copy by hard links was touched")
    left = [line for line in faults if line.split()[3] in renew.algorithms_left(wanted.files, Options())]
    demand(agree(programs, top) == left, f"the renewed bag has other faults than {left}")
    COUNTS["renewed"] += 1


def check_left(before, after, wanted):
    for path in sorted({*after.files} | {*wanted.files}):
        there, right = after.files.get(path), wanted.files.get(path)
        demand(there == right, f"{path} is {there}, and should be {right}")
    for path in wanted.untouched(before.files):
        demand(after.file(path) == before.file(path), f"{path} was touched")
    for path in wanted.put:
        owned = before.owned(renew.owned_as(path, before.files))
        demand(after.owned(path) == owned, f"{path} has {after.owned(path)}, and should have {owned}")
    demand(after.folders == before.folders, "there are other folders")


def check_again(programs, top, options):
    """Asked again it makes the same bag."""
    wanted, first = renew.renewed(top, options), look(top)
    demand(wanted.files == first.files, "by the reference another renewal makes another bag")
    ended = programs.run("--quiet", *options.words(), top)
    demand(ended == (0, b"", ""), f"again it ends with {ended}")
    check_left(first, look(top), wanted)


def check_printed(programs, draw, top):
    """The manifest that is printed is the one that would be added; of a bag with a fault none is."""
    algorithm, before, faults = draw.choice(ALGORITHMS), look(top), programs.faults(top)
    wanted = (0, renew.manifest_of(algorithm, renew.payload_of(before.files), renew.known_version(before.files)), "")
    if faults:
        wanted = (1, b"", f"{top} not renewed: fault {faults[0]}\n")
    ended = programs.run("--print", algorithm, top)
    demand(ended == wanted, f"printing ends with {ended}, and should with {wanted}")
    demand(look(top).same() == before.same(), "printing has changed the bag")
    COUNTS["manifests printed"] += not faults


def try_bag(programs, seed):
    draw, top = random.Random(seed), "d"
    shutil.rmtree(top, ignore_errors=True)
    make_bag(draw, Path(top))
    is_damaged = draw.random() < 0.15
    if is_damaged:
        damage(draw, Path(top))
    demand(bool(agree(programs, top)) <= is_damaged, "a bag that was made for this has a fault")
    options = draw_options(draw)
    check_printed(programs, draw, top)
    COUNTS["bags"] += 1
    try:
        wanted = renew.renewed(top, options)
    except Refused as refused:
        check_refused(programs, top, options, refused.args)
        return
    before = renew.held(top)
    if renew.version_of(before) == "0.97":
        COUNTS["of 0.97 to 1.0" if options.to_1_0 else "of 0.97 that stay so"] += 1
    COUNTS["without reading the payload"] += not renew.reads_payload(before, options)
    check_renewed(programs, top, options, wanted)
    check_again(programs, top, options)


def main(bagit, renewing, bags):
    programs = Programs(bagit, renewing)
    for seed in range(int(bags)):
        try:
            try_bag(programs, seed)
        except Wrong as wrong:
            sys.exit(f"bag {seed}: {wrong}")
    print(", ".join(f"{count} {name}" for name, count in COUNTS.items()))
    sys.exit(int(bags) >= 100 and not all(COUNTS.values()))


if __name__ == "__main__":
    main(*sys.argv[1:])
