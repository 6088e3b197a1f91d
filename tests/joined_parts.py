"""Has generated bags checked in parts by `bagit-keep check`, and compares what it joins with one check; tests/parts.sh calls it. What
isn't whole, or is of two bags, is never joined."""
import json
import os
import pathlib
import random
import re
import shutil
import signal
import subprocess
import sys
import time

from parts import Wrong, make_bag

PROFILE = {
    "BagIt-Profile-Info": {"BagIt-Profile-Identifier": "https://example.org/p"},
    "Bag-Info": {"Source-Organization": {"required": True}},
    "Bag-Software-Agent": "any",
}
COUNTS = dict.fromkeys(("joined", "killed", "tasks", "altered", "files", "rejected"), 0)
REPORT, PARTS = pathlib.Path("report"), pathlib.Path("report.parts")
ALTERED = "{} was altered since the check began; remove report.parts to begin anew"


def start(*words, bagit=None, **how):
    environment = {**os.environ, "BAGIT": bagit or os.environ["BAGIT"]}
    pipes = {"stdout": subprocess.PIPE, "stderr": subprocess.PIPE, "text": True, "env": environment, **how}
    return subprocess.Popen([KEEP, "check", "--wait", "0", "--tries", "2", *words, "d", "report"], **pipes)


def check(*words, **how):
    """What `bagit-keep check` prints, and says, and its status."""
    process = start(*words, **how)
    printed, said = process.communicate(timeout=120)
    return printed, said, process.returncode


def wanted(*options):
    words = [os.environ["BAGIT"], "--validate", *options, "d"]
    whole = subprocess.run(words, capture_output=True, text=True, check=False)
    lines = [line for line in whole.stdout.splitlines(True) if not line.startswith("unchecked ")]
    return "".join(lines), whole.returncode


def is_joined(ended, what, *options):
    """Sees that a check ended as one check does, and left its report and nothing else."""
    printed, said, status = ended
    report, whole = wanted(*options)
    if status != whole or not REPORT.exists() or REPORT.read_text() != report or printed != report.splitlines(True)[-1]:
        raise Wrong(f"{what}: it ends with {status}: {printed}{said}")
    if [path.name for path in pathlib.Path().glob("report*")] != ["report"]:
        raise Wrong(f"{what}: it leaves {list(pathlib.Path().glob('report*'))}")
    REPORT.unlink()
    COUNTS["joined"] += 1


def is_refused(ended, what, message, refused=3):
    """Sees that a check ended without a report, by this status, and said this at last."""
    printed, said, status = ended
    last = said.splitlines()[-1] if said else ""
    if status != refused or printed or REPORT.exists() or last != f"bagit-keep: {message}":
        raise Wrong(f"{what}: it ends with {status}: {printed}{said}, and should say: {message}")


def has_task(ended, number, parts):
    printed, said, status = ended
    line = rf"d part {number} of {parts} done, files: \d+, bytes: \d+.*, faults: (\d+)\n"
    found = re.fullmatch(line, printed)
    if not found or status != min(1, int(found[1])):
        raise Wrong(f"task {number}/{parts} ends with {status}: {printed}{said}")
    COUNTS["tasks"] += 1


def do_tasks(numbers, parts, *options):
    for number in numbers:
        has_task(check("--task", f"{number}/{parts}", *options), number, parts)


def done_parts():
    return {path.stem for path in PARTS.glob("*.part")}


# ------------------------------------------------------------ what is joined


def kill(process, draw):
    """Kills a check, in one way or another; what it ran ends too."""
    way = draw.choice(("all", "it alone", "by TERM"))
    if way == "all":
        os.killpg(process.pid, signal.SIGKILL)
    else:
        process.send_signal(signal.SIGKILL if way == "it alone" else signal.SIGTERM)
    _, said = process.communicate(timeout=60)  # which comes once all of them have ended, as they hold standard error
    if process.returncode not in (0, 1, 3, -signal.SIGKILL, -signal.SIGTERM):
        raise Wrong(f"killed, it ends with {process.returncode}: {said}")
    if way != "by TERM":  # which it can't see: so a folder that isn't there yet under its name is left as it is
        for begun in pathlib.Path().glob("report.parts.*"):
            shutil.rmtree(begun)
    COUNTS["killed"] += 1


def go_on_killed(draw, parts, options):
    """Kills a check at any time, and goes on: a part that is done isn't checked again."""
    calls = pathlib.Path("calls")
    words = ("--jobs", str(draw.randint(1, 3)), "--parts", str(parts), *options)
    for _ in range(draw.randint(1, 3)):
        calls.write_text("")
        done = done_parts()
        process = start(*words, bagit=str(pathlib.Path("slow").resolve()), start_new_session=True)
        time.sleep(draw.uniform(0.1, 1.2))
        kill(process, draw)
        again = done & set(re.findall(r"--part (\d+)/", calls.read_text()))
        if again:
            raise Wrong(f"parts {again} are checked again, after {done} were done")
        if REPORT.exists():
            is_same = REPORT.read_text() == wanted(*options)[0]
            if not is_same or (PARTS / "asked").exists():
                raise Wrong("killed, it leaves another report, or parts with it that a later check would take")
            REPORT.unlink()
            shutil.rmtree(PARTS, ignore_errors=True)
    is_joined(check(*words, bagit=str(pathlib.Path("slow").resolve())), f"{words}, killed", *options)


def go_by_tasks(draw, parts, options):
    """Tasks in any order, and side by side; those that are missing are named."""
    numbers = list(range(1, parts + 1))
    draw.shuffle(numbers)
    half = numbers[: parts // 2]
    do_tasks(half, parts, *options)
    if half:
        missing = sorted(numbers[parts // 2 :])
        printed, said, status = check("--join", *options)
        found = re.fullmatch(rf"bagit-keep: of {parts} parts these aren't done: ([\d,-]+)\n", said)
        ranges = [list(map(int, one.split("-"))) for one in found[1].split(",")] if found else []
        named = [number for ends in ranges for number in range(ends[0], ends[-1] + 1)]
        if status != 3 or printed or named != missing:
            raise Wrong(f"without {missing} it ends with {status}: {said}")
    running = [(number, start("--task", f"{number}/{parts}", *options)) for number in numbers]
    for number, process in running:
        has_task((*process.communicate(timeout=120), process.returncode), number, parts)
    is_joined(check("--join", *options), f"{parts} tasks", *options)


def try_bag(seed):
    draw = make_bag(seed)
    options = draw.choice(((), ("--clashes",), ("--profile", "profile.json")))
    parts = draw.choice((1, 2, 3, 5))
    go_on_killed(draw, parts, options)
    go_by_tasks(draw, parts, options)


# ------------------------------------------------------------ what isn't


def good_bag():
    """A bag without faults in three parts, of which the first two are done."""
    for path in (pathlib.Path("d"), PARTS, pathlib.Path("away")):
        shutil.rmtree(path, ignore_errors=True)
    pathlib.Path("d/inner").mkdir(parents=True)
    for name in "abcdef":
        pathlib.Path("d/inner", name).write_text(name * 9)
    subprocess.run([os.environ["BAGIT"], "--md5", "d"], check=True, stdout=subprocess.DEVNULL)


def shell(text):
    subprocess.run(["bash", "-ec", text], check=True, stderr=subprocess.DEVNULL)


def see_altered():
    keeps = "touch -r {0} kept; {1}; touch -r kept {0}"
    file = "d/data/inner/b"
    ways = {
        keeps.format(file, f"printf X | dd conv=notrunc of={file}"): file,
        f"cp -p {file} d/data/inner/a2; mv d/data/inner/a2 d/data/inner/c": "d/data/inner/c",
        keeps.format("d/data/inner", "rm d/data/inner/a; printf aaaaaaaaa >d/data/inner/a"): "d/data/inner/a",
        "echo x >d/notes; rm d/notes": "d",
        "echo x >d/data/late": "d/data/late",
        "echo x >>d/data/inner/f": "d/data/inner/f",
        "rm d/data/inner/c": "d/data/inner/c",
        "cp -a d away; rm -r d; mv away d": "d/bag-info.txt",
        "mv d/data away; cp -a away d/data": "d/data/inner/a",
    }
    for way, where in ways.items():
        good_bag()
        do_tasks((1, 2), 3)
        shell(way)
        for words in (("--task", "3/3"), ("--jobs", "2")):
            printed, said, status = check(*words)
            is_refused((printed, said, status), (way, words), ALTERED.format(where))
        ended = check("--join")
        if ended[2] != 3 or ended[0] or REPORT.exists():
            raise Wrong(f"{way}, joined: {ended}")
        COUNTS["altered"] += 1


def see_exchanged():
    """The bag is exchanged only while one part is checked."""
    for way, back in (
        ("mv d away; mkdir d", "rmdir d; mv away d"),
        ("mv d away; cp -a away d", "rm -r d; mv away d"),
        ("mv d/data/inner/c away", "mv away d/data/inner/c"),
    ):
        good_bag()
        lines = ('[[ $* == *"--part 2/3"* ]] || exec "$REAL" "$@"', way, '"$REAL" "$@"', "status=$?", back, "exit $status")
        pathlib.Path("swapping").write_text("\n".join(("#!/bin/bash", *lines, "")))
        ended = check("--jobs", "1", "--parts", "3", bagit=f"{os.getcwd()}/swapping")
        if ended[2] != 3 or ended[0] or REPORT.exists() or "was altered since the check began" not in ended[1]:
            raise Wrong(f"{way}: it ends with {ended}")
        COUNTS["altered"] += 1


def faulty_bag():
    good_bag()
    for name in "ace":
        pathlib.Path("d/data/inner", name).write_text("other" * 3)


def is_not_joined(ended, what):
    """Sees that `bagit` joins nothing, and names a file."""
    printed, said, status = ended
    if status != 3 or printed or REPORT.exists() or not re.search(r"^bagit-keep: report\.parts isn't joined: .*\d\.part", said, re.M):
        raise Wrong(f"{what}: it ends with {ended}")


def see_files():
    """Files of parts that were cut, edited or exchanged are never joined; one that is removed is checked anew."""
    faulty_bag()
    do_tasks((3, 1, 2), 3)
    kept = pathlib.Path("kept_parts")
    shutil.rmtree(kept, ignore_errors=True)
    shutil.copytree(PARTS, kept)
    text = (kept / "2.part").read_bytes()
    lines = text.splitlines(True)
    edits = [text[:at] for at in (0, 9, len(text) // 2, len(text) - 1)]
    edits += [b"".join(lines[:at]) for at in range(1, len(lines))]
    edits += [b"".join(lines[:at] + lines[at + 1 :]) for at in range(len(lines))]
    edits += [text + lines[-1], text + lines[0], (kept / "1.part").read_bytes()]
    edits += [text.replace(*pair, 1) for pair in ((b"701", b"799"), (b"part 2", b"part 4"), (b"of 3", b"of 4"), (b"bytes: ", b"bytes: 1"))]
    edits += [re.sub(rb"faults: \d+", b"faults: 0", text)]
    for edited in edits:
        if edited == text:
            raise Wrong("an edit changes nothing")
        (PARTS / "2.part").write_bytes(edited)
        is_not_joined(check("--join"), edited)
        COUNTS["files"] += 1
    (PARTS / "2.part").unlink()
    is_joined(check("--jobs", "2"), "an edited part is checked anew")
    for old, new in (('"parts": 3', '"parts": 2'), ('"parts": 3', '"parts": 0'), ('"fingerprint": "', '"fingerprint": "0'), ("}", "")):
        do_tasks((1, 2, 3), 3)
        asked = (PARTS / "asked").read_text()
        (PARTS / "asked").write_text(asked.replace(old, new))
        ended = check("--join")
        if ended[0] or ended[2] not in (2, 3) or REPORT.exists():
            raise Wrong(f"asked for {new}: {ended}")
        shutil.rmtree(PARTS)
        COUNTS["files"] += 1


def see_others():
    """Parts of other options, another profile, another number or another folder."""
    good_bag()
    pathlib.Path("p.json").write_text(json.dumps(PROFILE))
    asked = ("--profile", "p.json")
    do_tasks((1, 2, 3), 3, *asked)
    other = "report.parts is of a check of {}; remove it to begin anew"
    for options, what in (((), "another profile"), (("--clashes", *asked), "other options"), (("--profile", "profile.json"), "another profile")):
        pathlib.Path("profile.json").write_text(json.dumps({**PROFILE, "Other": 1}))
        for words in (("--join",), ("--jobs", "2"), ("--task", "1/3")):
            is_refused(check(*words, *options), options, other.format(what), 2)
    is_refused(check("--jobs", "2", "--parts", "4", *asked), "four parts", other.format("3 parts, and not 4"), 2)
    pathlib.Path("another").write_text('#!/bin/bash\nexec "$REAL" "$@"\n')
    is_refused(check("--join", *asked, bagit=f"{os.getcwd()}/another"), "another bagit", other.format("another bagit"), 2)
    pathlib.Path("p.json").write_text(json.dumps({**PROFILE, "Bag-Info": {}}))
    is_refused(check("--join", *asked), "another profile", other.format("another profile"), 2)
    pathlib.Path("p.json").write_text(json.dumps(PROFILE))
    ended = check("--join", *asked)
    if ended[1] != "bagit-keep: unchecked Bag-Software-Agent\n":
        raise Wrong(f"it says of keys that aren't checked: {ended[1]}")
    is_joined(ended, "with a profile", *asked)
    pathlib.Path("none.json").write_text("[]")
    printed, said, status = check("--jobs", "2", "--profile", "none.json")
    if status != 2 or printed or not said.startswith("bagit-keep: bagit: ") or PARTS.exists():
        raise Wrong(f"no profile: {said}")
    COUNTS["rejected"] += 1
    is_refused(check("--join"), "no part", "report.parts isn't there: no part was checked")
    REPORT.write_text("kept")
    for words in (("--jobs", "2"), ("--task", "1/2"), ("--join",)):
        printed, said, status = check(*words)
        if status != 2 or REPORT.read_text() != "kept" or PARTS.exists():
            raise Wrong(f"{words}: a report that is there: {said}")
    REPORT.unlink()


def see_failures():
    """A program that is killed at one part, or writes something else; each is tried twice, and the part is checked at last."""
    faulty_bag()
    ended = 'echo "{} done, files: 10, bytes: 1, faults: 0"; exit 1'
    lines = {
        "killed": "kill -9 $$",
        "cut off": '"$REAL" "$@" | head -c 20; exit 1',
        "wrong": 'echo "d is valid"; exit 0',
        "of another bag": ended.format("e part 2 of 3"),
        "no part": '"$REAL" --validate d',
        "of another part": ended.format("d part 3 of 3"),
    }
    failing = f"{os.getcwd()}/failing"
    pathlib.Path("failing").write_text('#!/bin/bash\n[[ $* == *"--part 2/3"* ]] || exec "$REAL" "$@"\necho >>tries\n. ./way\n')
    for what, line in lines.items():
        pathlib.Path("way").write_text(f"{line}\n")
        pathlib.Path("tries").write_text("")
        ended = check("--jobs", "2", "--parts", "3", bagit=failing)
        is_refused(ended, what, "of 3 parts these aren't done: 2")
        if done_parts() != {"1", "3"} or pathlib.Path("tries").read_text() != "\n\n":
            raise Wrong(f"{what}: {done_parts()} are done")
    pathlib.Path("way").write_text('exec "$REAL" "$@"\n')
    is_joined(check("--jobs", "2", bagit=failing), "after failures")


def kill_at_end(when):
    """Has the parts joined by a check that is killed before its report has its name, or after."""
    program = (
        "import os, sys",
        "import bagitkeep.check as check",
        "place = check.place",
        "def kill(at, new): at == sys.argv[1] and os.path.basename(new) == 'report' and os.kill(os.getpid(), 9)",
        "def killed(old, new): kill('before', new); place(old, new); kill('after', new)",
        "check.place = killed",
        "sys.exit(check.run(sys.argv[2:]))",
    )
    words = [sys.executable, "-B", "-c", "\n".join(program), when, "--jobs", "2", "--parts", "3", "d", "report"]
    environment = {**os.environ, "PYTHONPATH": os.path.dirname(KEEP)}
    ended = subprocess.run(words, capture_output=True, text=True, check=False, env=environment)
    if ended.returncode != -signal.SIGKILL or not (PARTS / "3.part").exists() or REPORT.exists() != (when == "after"):
        raise Wrong(f"killed {when} its report has its name, it ends with {ended}")
    COUNTS["killed"] += 1


def see_left():
    """Parts are joined once: those whose report was written are no later check's."""
    faulty_bag()
    kill_at_end("before")
    is_joined(check("--join"), "killed before its report had its name")
    kill_at_end("after")
    printed, said, status = check("--jobs", "2")
    if status != 2 or printed or REPORT.read_text() != wanted()[0] or PARTS.exists():
        raise Wrong(f"parts that are left beside their report: it ends with {status}: {said}")
    REPORT.unlink()
    kill_at_end("after")
    REPORT.unlink()
    is_refused(check("--join"), "what was joined", "report.parts isn't there: no part was checked")
    is_joined(check("--jobs", "2"), "all anew")


def see_unprinted():
    """The closing line can't be printed: the report is there, and nothing that a later check would go on with."""
    good_bag()
    with open("/dev/full", "w") as full:
        ended = start("--jobs", "2", "--parts", "3", stdout=full)
        ended.communicate(timeout=60)
    if ended.returncode != 3 or REPORT.read_text() != wanted()[0] or PARTS.exists():
        raise Wrong(f"what it can't print: it ends with {ended.returncode}")
    REPORT.unlink()


def see_statuses():
    """A task over a damaged part ends with 1, also if that was checked before; one over a good part with 0."""
    good_bag()
    pathlib.Path("d/data/inner/a").write_text("X" * 9)
    files = [path for path in pathlib.Path("d").rglob("*") if path.is_file()]
    counts = f"files: {len(files)}, bytes: {sum(path.stat().st_size for path in files)}"
    for number, faults in (1, 1), (2, 0), (1, 1), (2, 0):
        wanted_line = f"d part {number} of 2 done, {counts}, faults: {faults}\n"
        ended = check("--task", f"{number}/2")
        if ended != (wanted_line, "", faults):
            raise Wrong(f"task {number}/2, with {faults} faults: it ends with {ended}")
        COUNTS["tasks"] += 1
    is_joined(check("--join"), "a damaged part and a good one")


def see_array():
    """Tasks of a job array, each with its number in its environment; one is cancelled, and the array is asked for it again."""
    faulty_bag()
    pathlib.Path("task").write_text(f'#!/bin/sh\nexec "{KEEP}" check --wait 0 --task "$SLURM_ARRAY_TASK_ID/8" d report\n')
    array = [(number, subprocess.Popen(["sh", "task"], env={**os.environ, "SLURM_ARRAY_TASK_ID": str(number)}, stdout=subprocess.DEVNULL)) for number in range(1, 9)]
    array[3][1].kill()
    for _, process in array:
        process.wait(timeout=300)
    missing = {str(number) for number in range(1, 9)} - done_parts()
    if missing - {"4"}:
        raise Wrong(f"of an array {missing} aren't done")
    for number in missing:
        is_refused(check("--join"), "a cancelled task", f"of 8 parts these aren't done: {number}")
        has_task(check("--task", f"{number}/8"), number, 8)
    is_joined(check("--join"), "a job array")


def main(program, keep, bags):
    global KEEP
    KEEP = keep
    os.environ["BAGIT"] = os.environ["REAL"] = program
    pathlib.Path("profile.json").write_text(json.dumps(PROFILE))
    for name, seconds in (("slow", 0.2),):
        text = f'#!/bin/sh\necho "$*" >>"{os.getcwd()}/calls"\nsleep {seconds}\nexec "$REAL" "$@"\n'
        pathlib.Path(name).write_text(text)
    for name in ("slow", "swapping", "failing", "another"):
        pathlib.Path(name).touch()
        pathlib.Path(name).chmod(0o755)
    try:
        for seed in range(int(bags)):
            try_bag(seed)
        for see in (see_altered, see_exchanged, see_files, see_others):
            see()
        for see in (see_failures, see_left, see_unprinted, see_statuses, see_array):
            see()
    except Wrong as wrong:
        sys.exit(f"{wrong}")
    print(", ".join(f"{count} {name}" for name, count in COUNTS.items()))


main(*sys.argv[1:])
