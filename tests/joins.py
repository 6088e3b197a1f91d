"""Joins reports of parts, whole ones and others, and compares what is written with one check. tests/joins.sh calls it."""
import json
import os
import pathlib
import random
import re
import resource
import shutil
import subprocess
import sys

from parts import Wrong, make_bag

MANY = 65_536
COUNTS = dict.fromkeys(("joined", "refused"), 0)
PROFILE = {
    "BagIt-Profile-Info": {"BagIt-Profile-Identifier": "urn:p"},
    "Bag-Info": {"Contact-Name": {"required": True}},
    "Data-Empty": True,
}


def run(program, *words, cwd=None):
    """Its output, its standard error and its status."""
    ended = subprocess.run([program, "--validate", *words], capture_output=True, cwd=cwd, check=False, timeout=600)
    return ended.stdout, ended.stderr.decode(), ended.returncode


def reports_of(program, parts, *words):
    """The files of the reports of all parts of a check of the folder d."""
    files = []
    for number in range(1, parts + 1):
        file = pathlib.Path(f"report {number}")
        file.write_bytes(run(program, *words, "--part", f"{number}/{parts}", "d")[0])
        files.append(file)
    return files


def without_keys(report):
    """A report without the lines about keys of a profile that aren't checked."""
    return re.sub(rb"\A(unchecked [^ \n]+\n)*", b"", report)


def joined_as_one(program, files, whole, status):
    """They are joined into this report, with this status."""
    answer = run(program, "--join", *files)
    if answer != (whole, "", status):
        raise Wrong(f"joined {[str(file) for file in files]}: {answer}, wanted {whole} and {status}")
    COUNTS["joined"] += 1


def refused(program, what, files, named=None, why=None):
    """They aren't joined: nothing is written, and one line names a report, this one if one is given, or a part."""
    out, err, status = run(program, "--join", *files)
    line = re.fullmatch(r"bagit: (\S+): (.+)\n", err) or re.fullmatch(r"bagit: (part \d+): (missing)\n", err)
    names = [spelled(file) for file in files] if named is None else [named if named.startswith("part ") else spelled(named)]
    if out or status != 3 or not line or (line[1] not in names and not (named is None and line[1].startswith("part "))):
        raise Wrong(f"{what}: {status}, written {out!r}, complained {err!r}, wanted of {names}")
    if why is not None and line[2] != why:
        raise Wrong(f"{what}: {err!r}, wanted {why}")
    COUNTS["refused"] += 1


def spelled(file):
    """A name as a field of a line has it."""
    return "".join(chr(byte) if 33 <= byte <= 126 and byte != 37 else f"%{byte:02X}" for byte in os.fsencode(file))


def join_bag(program, seed):
    """The parts of a generated bag, joined in some order."""
    draw = make_bag(seed)
    words = draw.choice(((), (), ("--clashes",), ("--profile", "p.json"), ("--profile", "p.json", "--clashes", "--quiet")))
    whole, _, status = run(program, *[word for word in words if word != "--quiet"], "d")
    for parts in (1, 2, 8):
        files = reports_of(program, parts, *words)
        draw.shuffle(files)
        joined_as_one(program, files, without_keys(whole), status)


def make_good():
    """A bag without faults."""
    shutil.rmtree("d", ignore_errors=True)
    pathlib.Path("d/data").mkdir(parents=True)
    pathlib.Path("d/bagit.txt").write_text("BagIt-Version: 1.0\nTag-File-Character-Encoding: UTF-8\n")
    pathlib.Path("d/data/a").write_text("a")
    pathlib.Path("d/manifest-md5.txt").write_text("0cc175b9c0f1b6a831c399e269772661  data/a\n")


def make_bad(count=40):
    """A bag of which many files aren't as its manifest says."""
    make_good()
    with open("d/manifest-md5.txt", "a", encoding="utf-8") as manifest:
        for number in range(count):
            pathlib.Path(f"d/data/f{number:03}").write_text("x" * 70_000 if number % 7 == 0 else "x")
            manifest.write(f"0cc175b9c0f1b6a831c399e269772661  data/f{number:03}\n")


def with_bytes(file, content):
    """A file with these bytes, beside the others."""
    other = pathlib.Path(f"changed {file}")
    other.write_bytes(content)
    return other


def refuse_wrong_sets(program, files):
    """Whole reports of one check, but not each once."""
    for number in range(1, len(files) + 1):
        others = files[: number - 1] + files[number:]
        refused(program, "a part left out", others, f"part {number}", "missing")
        refused(program, "a part twice", files + [files[number - 1]], str(files[number - 1]), "of a part that is given twice")


def refuse_cuts(program, files):
    """A report that is cut off, at each byte."""
    for place, file in enumerate(files):
        content = file.read_bytes()
        for length in range(len(content)):
            cut = with_bytes(file, content[:length])
            refused(program, f"cut at {length}", files[:place] + [cut] + files[place + 1 :], str(cut))


def refuse_lines(program, files):
    """A report of which a line was taken out, put in twice or moved, or that counts others."""
    for place, file in enumerate(files):
        lines = file.read_bytes().splitlines(keepends=True)
        changes = [lines[:at] + lines[at + 1 :] for at in range(len(lines))]
        changes += [lines[:at] + [lines[at]] + lines[at:] for at in range(len(lines))]
        changes += [lines[:at] + [lines[at + 1], lines[at]] + lines[at + 2 :] for at in range(len(lines) - 1)]
        closing = re.fullmatch(rb"(.*faults: )(\d+)\n", lines[-1])
        changes += [lines[:-1] + [b"%s%d\n" % (closing[1], int(closing[2]) + more)] for more in (-1, 1) if int(closing[2]) + more >= 0]
        changes += [lines + [b"d is valid\n"], lines + [b"\n"], [b"\n"] + lines, [b"x\n"] + lines, lines[:-1] + [b"0 " + lines[-1]]]
        for change in changes:
            changed = with_bytes(file, b"".join(change))
            refused(program, "another line", files[:place] + [changed] + files[place + 1 :], str(changed))


def refuse_bytes(program, files):
    """A report of a bag without faults that has another byte: of several parts none is joined with it."""
    draw = random.Random(7)
    for place, file in enumerate(files):
        content = file.read_bytes()
        for at in range(len(content)):
            byte = bytes([draw.choice([byte for byte in range(256) if byte != content[at]])])
            changed = with_bytes(file, content[:at] + byte + content[at + 1 :])
            refused(program, f"another byte at {at}", files[:place] + [changed] + files[place + 1 :])


def refuse_others(program):
    """Reports that are of another check, or of none."""
    make_bad()
    files = reports_of(program, 4)
    first = files[0]

    def report(name, *words, folder="d"):
        file = pathlib.Path(name)
        file.write_bytes(run(program, *words, folder)[0])
        return file

    refused(program, "another number", [*files[:3], report("of 5", "--part", "4/5")], "of 5", "of another number of parts")
    stopped = report("stopped", "--part", "2/4", "--max-faults", "1")
    refused(program, "stopped", [first, stopped, *files[2:]], "stopped", "stopped at a limit")
    line = files[1].read_text().splitlines()[0]
    refused(program, "resumed", [first, report("rest", "--part", "2/4", "--after", line), *files[2:]], "rest", "begins after a fault")
    refused(program, "not there", [first, report("unread", "--part", "2/4", folder="nowhere"), *files[2:]], "unread",
            "of a bag that was not read to its end")
    refused(program, "one check", [report("whole")], "whole", "not the report of a part")
    refused(program, "one check by a profile", [report("profiled", "--profile", "p.json")], "profiled", "not the report of a part")
    shutil.copytree("d", "e")
    refused(program, "another bag", [first, report("other bag", "--part", "2/4", folder="e"), *files[2:]], "other bag", "of another bag")
    shutil.rmtree("e")
    pathlib.Path("d/data/new").write_text("new")
    refused(program, "other files", [first, report("other files", "--part", "2/4"), *files[2:]], "other files", "of other files")
    pathlib.Path("d/data/new").unlink()
    refused(program, "clashes", [first, report("clashes", "--part", "2/4", "--clashes"), *files[2:]], "clashes")
    refused(program, "a profile", [first, report("profile", "--part", "2/4", "--profile", "p.json"), *files[2:]], "profile")
    pathlib.Path("q.json").write_text(json.dumps(PROFILE) + "\n")
    files = reports_of(program, 2, "--profile", "p.json")
    refused(program, "another profile", [files[0], report("profile q", "--part", "2/2", "--profile", "q.json")], "profile q")


def refuse_what_is_no_file(program):
    """What stands at a path isn't a report, or can't be read."""
    make_good()
    files = reports_of(program, 2)
    refused(program, "nothing", [files[0], "nothing"], "nothing", "not there")
    refused(program, "a folder", [files[0], "d"], "d", "a folder")
    os.mkfifo("pipe")
    refused(program, "a pipe", [files[0], "pipe"], "pipe", "not a regular file")
    refused(program, "a device", [files[0], "/dev/null"], "/dev/null", "not a regular file")
    if os.geteuid() != 0:
        files[1].chmod(0)
        refused(program, "no permission", files, str(files[1]), "permission denied")
        files[1].chmod(0o644)
    link = pathlib.Path("link")
    link.symlink_to(files[1])
    joined_as_one(program, [files[0], link], b"d is valid\n", 0)
    with open("/dev/full", "wb") as full:
        ended = subprocess.run([program, "--validate", "--join", *files], stdout=full, stderr=subprocess.PIPE, check=False)
    if (ended.returncode, ended.stderr) != (3, b"bagit: output refused\n"):
        raise Wrong(f"a full output: {ended}")


def join_within(program, files, room):
    """Joins them in so many KiB of address space: the status and the output."""
    def bounded():
        resource.setrlimit(resource.RLIMIT_AS, (room * 1024, room * 1024))
    ended = subprocess.run([program, "--validate", "--join", *files], preexec_fn=bounded,
                           stdout=subprocess.PIPE, stderr=subprocess.DEVNULL, check=False)
    return ended.returncode, ended.stdout


def least_room(program, files, wanted):
    """The least address space, in KiB, in which they are joined; to 64 KiB."""
    least, most = 0, 1 << 20
    if join_within(program, files, most) != wanted:
        raise Wrong(f"large reports: not joined in {most} KiB")
    while most - least > 64:
        middle = (least + most) // 2
        if join_within(program, files, middle) == wanted:
            most = middle
        else:
            least = middle
    return most


def closing(number, parts, faults):
    return f"d part {number} of {parts} done, files: 9, bytes: 99, faults: {faults}\n".encode()


def join_large(program):
    """Reports of many faults take no more memory than small ones."""
    def large(count):
        files = []
        for part in (1, 2):
            lines = [f"601 payload-file-missing data/{part}/{number:09} md5 - -\n".encode() for number in range(count)]
            file = pathlib.Path(f"large {part}")
            file.write_bytes(b"".join(lines) + closing(part, 2, count))
            files.append(file)
        whole = b"".join(without_closing(file) for file in files) + f"d has faults: {2 * count}\n".encode()
        COUNTS["joined"] += 1
        return least_room(program, files, (1, whole))
    small, much = large(10), large(10_000)
    if much > small + 512:
        raise Wrong(f"large reports take {much} KiB, small ones {small}")
    return small, much


def alter_while_written(program):
    """A report that is altered after it was seen to be whole: some faults are written, and no closing line."""
    files = [pathlib.Path("large 1"), pathlib.Path("large 2")]
    whole = b"".join(without_closing(file) for file in files)
    for change in (b"", b"x", closing(2, 2, 0)):
        content = files[1].read_bytes()
        with subprocess.Popen([program, "--validate", "--join", *files], stdout=subprocess.PIPE, stderr=subprocess.PIPE) as at_work:
            # The first bytes have come, so all reports were seen to be whole; the second isn't open yet, since a pipe holds little.
            out = at_work.stdout.read(1)
            files[1].write_bytes(content + change if change else content[:-1])
            out += at_work.stdout.read()
            err = at_work.stderr.read()
        files[1].write_bytes(content)
        if at_work.returncode != 3 or err != b"bagit: large%202: changed while it was read\n" or not whole.startswith(out):
            raise Wrong(f"altered meanwhile: {at_work.returncode}, {err}, {len(out)} bytes")
        COUNTS["refused"] += 1


def without_closing(file):
    return b"".join(file.read_bytes().splitlines(keepends=True)[:-1])


def join_many(program):
    """As many reports as there may be, named by their numbers."""
    folder = pathlib.Path("r")
    folder.mkdir()
    names = []
    for number in range(1, MANY + 1):
        name = f"{number:05}"
        (folder / name).write_bytes(closing(number, MANY, 0))
        names.append(name)
    answer = run(program, "--join", *names, cwd=folder)
    if answer != (b"d is valid\n", "", 0):
        raise Wrong(f"{MANY} reports: {answer}")
    COUNTS["joined"] += 1
    answer = run(program, "--join", *names[:-1], cwd=folder)
    if answer != (b"", f"bagit: part {MANY}: missing\n", 3):
        raise Wrong(f"{MANY} reports without the last: {answer}")
    COUNTS["refused"] += 1


def main(program, bags):
    pathlib.Path("p.json").write_text(json.dumps(PROFILE))
    for seed in range(bags):
        join_bag(program, seed)
    make_good()
    files = reports_of(program, 3)
    joined_as_one(program, files, b"d is valid\n", 0)
    refuse_wrong_sets(program, files)
    refuse_cuts(program, files)
    refuse_lines(program, files)
    refuse_bytes(program, files)
    make_bad(5)
    files = reports_of(program, 3)
    refuse_wrong_sets(program, files)
    refuse_cuts(program, files)
    refuse_lines(program, files)
    refuse_others(program)
    refuse_what_is_no_file(program)
    small, much = join_large(program)
    alter_while_written(program)
    join_many(program)
    print(f"{COUNTS['joined']} joined as one check, {COUNTS['refused']} refused; of {small} and {much} KiB")


if __name__ == "__main__":
    try:
        main(os.path.abspath(sys.argv[1]), int(sys.argv[2]))
    except Wrong as wrong:
        print(wrong)
        sys.exit(1)
