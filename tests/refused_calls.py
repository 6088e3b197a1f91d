"""Makes folders bags and checks bags, each call of the program refused in turn or killed, and looks at what is left and written.
tests/refused_calls.sh calls it, and says what is wanted.

usage: refused_calls.py PROGRAM

The current folder is an empty one. A folder as it is before a call is `pristine`, and `d` as it is after it.
"""
import hashlib
import os
import re
import shutil
import signal
import subprocess
import sys
import tarfile
from pathlib import Path
from typing import Callable, Dict, FrozenSet, List, NamedTuple, NoReturn, Optional, Tuple

from injections import injecting, injections, is_injected

SECONDS = 60
KILLED = 137
Tree = Dict[str, Optional[bytes]]
"""What stands in a folder, by path: the bytes of a file, None for a folder."""

DECLARATION = b"BagIt-Version: 1.0\nTag-File-Character-Encoding: UTF-8\n"
REFUSAL = re.compile(r"bagit(-renew)?: [^ ]+: (not there|not a folder|permission denied|.+ \(os error [0-9]+\))")
BY_DEVICE = re.compile(r"d(?:\.tar)? (unread .* device, faults: [0-9]+|not made: .* device)", re.M)
WHY = re.compile(r"bagit: d(?:\.tar|/[^ ]+)?: (.*)")
COMPLAINT = re.compile(r"bagit: (out of memory|output refused|profile unread)", re.M)
NOT_JOINED = re.compile(r"bagit: (p[12]: .+|out of memory|output refused)\n")
SAID = {
    "EIO": "Input/output error (os error 5)",
    "EACCES": "permission denied",
    "ENOSPC": "No space left on device (os error 28)",
    "EINTR": "Interrupted system call (os error 4)",
}
"""How the errors are said that may have the cause `device`."""
SAID_OF_TAR = {**SAID, "ENOMEM": "Cannot allocate memory (os error 12)"}
"""The same of a tar file, which is one device, whatever the system refuses of it."""

COUNTS = {"refused": 0, "killed": 0, "wrong": 0}


class Ended(NamedTuple):
    """How a run ended, and what it wrote; by this injection, if any."""

    status: int
    output: bytes
    failures: str
    injection: str = ""

    def is_killed(self) -> bool:
        return self.status == KILLED

    def lines(self) -> List[str]:
        """The lines of standard error that say why."""
        return [line for line in self.failures.splitlines() if REFUSAL.fullmatch(line)]

    def complaints(self) -> List[str]:
        """Its other lines."""
        return [line for line in self.failures.splitlines() if not REFUSAL.fullmatch(line)]


class Case(NamedTuple):
    """A run of the program: its words, what it writes and its status where no call is refused, and what looks at it."""

    words: List[str]
    whole: bytes
    status: int
    reasons: Callable[["Case", Ended], List[str]]

    def lines(self) -> bytes:
        """What it writes without the closing line."""
        return without_last(self.whole)


def without_last(text: bytes) -> bytes:
    """A text without its last line, which may be cut off."""
    return text[: text.rfind(b"\n", 0, max(len(text) - 1, 0)) + 1]


def tree_of(top: str) -> Tree:
    tree: Tree = {}
    for folder, folders, files in os.walk(top):
        below = folder[len(top) + 1 :]
        for name in folders:
            tree[os.path.join(below, name)] = None
        for name in files:
            with open(os.path.join(folder, name), "rb") as file:
                tree[os.path.join(below, name)] = file.read()
    return tree


def files_of(tree: Tree) -> Dict[str, bytes]:
    return {path: content for path, content in tree.items() if content is not None}


# ---- runs


def hang(number: int, frame: object) -> NoReturn:
    raise TimeoutError


def run(program: str, words: List[str], options: List[str], injection: str = "") -> Ended:
    """Runs the program under strace, which writes its calls to the file `calls`."""
    with open("output", "w+b") as output, open("failures", "w+b") as failures:
        strace = ["strace", "-f", "-o", "calls", *options, program, *words]
        with subprocess.Popen(strace, stdout=output, stderr=failures) as process:
            signal.alarm(SECONDS)
            try:
                status = process.wait()
            except TimeoutError:
                process.terminate()
                status = 124
            signal.alarm(0)
        output.seek(0)
        failures.seek(0)
        return Ended(KILLED if status == -signal.SIGKILL else status, output.read(), failures.read().decode(), injection)


def fresh(pristine: Tree, tree: Optional[Tree] = None) -> None:
    """Makes `d` what `pristine` is, unless this is what is there."""
    if tree != pristine:
        shutil.rmtree("d", ignore_errors=True)
        shutil.copytree("pristine", "d")


# ---- what is wrong


class Making:
    """What is left of a folder that is made a bag."""

    def __init__(self, pristine: Tree) -> None:
        self.pristine, self.files = pristine, files_of(pristine)
        self.known: Dict[FrozenSet[Tuple[str, Optional[bytes]]], bool] = {}

    def reasons(self, case: Case, ended: Ended) -> List[str]:
        tree, found = tree_of("d"), []
        if not self.keeps_all(tree):
            found.append("a file is lost, or stands twice")
        if not ended.is_killed() and not says_why(ended):
            found.append("standard error says something else of why")
        is_said = any(line.endswith(b" made") for line in ended.output.splitlines())
        if (ended.status == 0 or is_said) and not self.is_whole_bag(tree):
            found.append("made is reported of what is no whole bag")
        if ended.status == 0 and ended.output != case.whole:
            found.append("status 0 without the line")
        if ended.status == 1:
            found.append("status 1 of a making")
        if not self.comes_back():
            found.append("moved back, the folder is another")
        return found

    def keeps_all(self, tree: Tree) -> bool:
        """Whether the bytes of each file of the folder stand once, at a path where a step may have put them."""
        places = [[path, f".bagit-new/{path}", f"data/{path}"] for path in self.files]
        return all(sum(tree.get(at) == self.files[path] for at in (path, *others)) == 1 for path, *others in places)

    def is_whole_bag(self, tree: Tree) -> bool:
        """Whether the folder is a whole bag of all files, as the programs of coreutils see it; of one that was seen before, without
        them."""
        key = frozenset(tree.items())
        if key not in self.known:
            self.known[key] = self.is_payload(tree) and all(map(is_summed, ("sha256", "md5")))
        lines = [(tree.get(name) or b"").count(b"\n") for name in ("manifest-sha256.txt", "tagmanifest-md5.txt")]
        return self.known[key] and tree.get("bagit.txt") == DECLARATION and lines == [len(self.files), 4]

    def is_payload(self, tree: Tree) -> bool:
        return {path[5:]: content for path, content in tree.items() if path.startswith("data/")} == self.pristine

    def comes_back(self) -> bool:
        """Moves back what a making that didn't end has moved, as docs/RECOVERY.md says it, but that the tag files aren't kept."""
        top, new = Path("d"), Path("d/.bagit-new")
        try:
            if new.exists() or not (top / "w").exists():
                if not new.exists():
                    (top / "data").rename(new)
                    for form in ("bagit.txt", "bag-info.txt", "manifest-*.txt", "tagmanifest-*.txt"):
                        for path in top.glob(form):
                            path.unlink()
                for path in new.iterdir():
                    if not (top / path.name).exists():
                        path.rename(top / path.name)
                new.rmdir()
        except OSError:
            return False
        return tree_of("d") == self.pristine


def is_summed(algorithm: str) -> bool:
    words = [f"{algorithm}sum", "--check", "--strict", f"manifest-{algorithm}.txt", f"tagmanifest-{algorithm}.txt"]
    return subprocess.run(words, cwd="d", capture_output=True, check=False).returncode == 0


def says_why(ended: Ended) -> bool:
    """Whether standard error says why, if the cause is `device`, and else doesn't."""
    lines, error = ended.lines(), ended.injection.partition("error=")[2].partition(":")[0]
    by_device = [line for line in ended.output.decode().splitlines() if BY_DEVICE.fullmatch(line)]
    if not by_device:
        return not lines
    why = (SAID_OF_TAR if by_device[0].startswith("d.tar ") else SAID).get(error)
    match = WHY.fullmatch(lines[0]) if len(lines) == 1 else None
    return bool(why and match and match[1] == why)


class Checking:
    """What a check of a bag writes, and that it alters nothing."""

    def __init__(self, pristine: Tree) -> None:
        self.pristine = pristine

    def reasons(self, case: Case, ended: Ended) -> List[str]:
        found = []
        if ended.is_killed():
            if not case.whole.startswith(ended.output):
                found.append("what a killed check wrote is no first part of the report")
        else:
            if not self.answers(case, ended):
                found.append("something else is written")
            if not says_why(ended):
                found.append("standard error says something else of why")
        if tree_of("d") != self.pristine:
            found.append("the folder was changed")
        return found

    def answers(self, case: Case, ended: Ended) -> bool:
        """Whether an answer is one that a refused call may have."""
        if (ended.status, ended.output) == (case.status, case.whole):
            return True
        if ended.status != 3:
            return False
        if complaints := ended.complaints():
            # The output was refused, or nothing could be begun.
            return any(map(COMPLAINT.match, complaints)) and case.whole.startswith(ended.output)
        front = without_last(ended.output)
        closing = ended.output[len(front) :].decode().removesuffix("\n")
        form = f"{re.escape(case.words[-1])} unread .*, faults: {front.count(10)}"
        return case.lines().startswith(front) and bool(re.fullmatch(form, closing))


def reasons_of_joining(case: Case, ended: Ended) -> List[str]:
    found = []
    is_front = case.whole.startswith(ended.output)
    if ended.is_killed():
        if not is_front:
            found.append("what was written is no first part of the report")
    elif ended.status == 3:
        if not is_front or ended.output == case.whole:
            found.append("something else is written")
        if not NOT_JOINED.fullmatch(ended.failures):
            found.append("standard error says something else of why")
    elif (ended.status, ended.failures, ended.output) != (case.status, "", case.whole):
        found.append("something else is written")
    return found


# ---- what is tried


def say_wrong(what: str, reasons: List[str], ended: Ended) -> None:
    for reason in reasons:
        said = f"status {ended.status}, written: {ended.output[:300]!r}, complained: {ended.failures[:300]}"
        print(f"{what}: {reason}; {said}", flush=True)
        COUNTS["wrong"] += 1


def reasons_of(case: Case, ended: Ended, is_kill: bool) -> List[str]:
    """What is wrong with a run of which a call was refused, or which was killed at one."""
    found = [] if is_injected(Path("calls").read_text("latin-1")) else ["no call was refused"]
    if ended.status == 124:
        return [*found, "the run hangs"]
    if ended.status not in (0, 1, 3) and not (is_kill and ended.is_killed()):
        return [*found, "another status"]
    return [*found, *case.reasons(case, ended)]


def in_turn(program: str, case: Case) -> None:
    """Refuses each call of the program in turn, and kills it at each."""
    pristine, title = tree_of("pristine"), " ".join(case.words)
    fresh(pristine)
    ended = run(program, case.words, [])
    if (ended.status, ended.output) != (case.status, case.whole):
        say_wrong(title, ["without a refusal"], ended)
        sys.exit(1)
    tries = list(injections(Path("calls").read_text("latin-1").splitlines()))
    if not tries:
        sys.exit(f"{title}: it has no calls")
    for injection in tries:
        is_kill = ":signal=KILL" in injection
        fresh(pristine, tree_of("d"))
        ended = run(program, case.words, injecting(injection), injection)
        COUNTS["killed" if is_kill else "refused"] += 1
        say_wrong(f"{title} ({injection})", reasons_of(case, ended, is_kill), ended)


def see_synced(program: str, words: List[str]) -> None:
    """Which folders were synced, and how often. (A folder that was renamed since has its old name.)"""
    fresh(tree_of("pristine"))
    run(program, words, ["-y", "-e", "trace=fsync,fdatasync"])
    paths = re.findall(r"\(\d+<([^>)]*)", Path("calls").read_text("latin-1"))
    folders = [os.path.relpath(path) for path in paths if not os.path.isfile(path)]
    print(
        f"synced: {len(paths) - len(folders)} files, and folders {len(folders)} times: d {folders.count('d')},"
        f" d/.bagit-new {folders.count('d/.bagit-new')}"
    )
    if not paths or len(folders) > 10 or os.path.relpath(paths[-1]) != "d":
        print("folders are synced too often, or the base folder not at last")
        COUNTS["wrong"] += 1


def see_as_found(program: str) -> None:
    """The line of a fault is written before the next file is opened."""
    other = hashlib.md5(b"other").hexdigest()
    manifest = f"{other}  data/a\n{other}  data/b\n".encode()
    Path("found/data").mkdir(parents=True)
    for path, content in {"bagit.txt": DECLARATION, "data/a": b"a", "data/b": b"b", "manifest-md5.txt": manifest}.items():
        Path("found", path).write_bytes(content)
    run(program, ["--validate", "found"], ["-e", "trace=openat,write"])
    calls = Path("calls").read_text("latin-1")
    steps = re.findall(r'(openat|write)\((?:[^"]*"found/|1, "701 payload-sum-differs )data/([ab])["\\ ]', calls)
    if steps != [("openat", "a"), ("write", "a"), ("openat", "b"), ("write", "b")]:
        print(f"lines aren't written as their faults are found: {steps}")
        COUNTS["wrong"] += 1


def make_folder() -> None:
    """A folder to be made a bag, which has a `data` of its own, with files in folders, and no two files of the same bytes."""
    for folder in "data/inner", "letters":
        Path("pristine", folder).mkdir(parents=True)
    large = os.urandom(200_000)
    for path, content in {"data/inner/x": b"one", "data/y": b"two", "letters/z": b"three", "w": large}.items():
        Path("pristine", path).write_bytes(content)


def damage(top: Path) -> str:
    """Damages a bag, in `pristine`, and says what is found; `d` is that bag before."""
    for path, text in ("data/w", b"x"), ("data/extra", b"x"):
        with open(f"pristine/{path}", "ab") as file:
            file.write(text)
    Path("pristine/data/letters/z").unlink()
    sums = {}
    for name in "md5", "sha256":
        told = [line.split("  ") for line in (top / f"manifest-{name}.txt").read_text().splitlines()]
        now = hashlib.new(name, Path("pristine/data/w").read_bytes()).hexdigest()
        sums[name] = "".join(it for it, path in told if path == "data/w") + f":{now}"
    return f"""\
304 oxum-differs bag-info.txt - 1 200011.4:200008.4
603 payload-file-not-listed data/extra md5 - -
603 payload-file-not-listed data/extra sha256 - -
601 payload-file-missing data/letters/z md5 - -
601 payload-file-missing data/letters/z sha256 - -
701 payload-sum-differs data/w md5 - {sums['md5']}
701 payload-sum-differs data/w sha256 - {sums['sha256']}
801 profile-identifier bag-info.txt - - urn:p
802 label-required bag-info.txt - - Source-Organization
"""


def try_damaged(program: str) -> None:
    """A bag with several faults, by a profile; in a tar file; and the reports of its parts, joined."""
    faults = damage(Path("d"))
    identifier = '"BagIt-Profile-Info":{"BagIt-Profile-Identifier":"urn:p"}'
    Path("profile.json").write_text(f'{{{identifier},"Bag-Info":{{"Source-Organization":{{"required":true}}}}}}\n')
    report = f"{faults}d has faults: 9\n".encode()
    complete = "".join(faults.splitlines(True)[:5]) + "d has faults: 5\n"
    pristine = tree_of("pristine")
    looked = Checking(pristine).reasons
    in_turn(program, Case(["--validate", "--profile", "profile.json", "d"], report, 1, looked))
    in_turn(program, Case(["--validate", "--completeness-only", "d"], complete.encode(), 1, looked))
    fresh(pristine)
    with tarfile.open("d.tar", "w") as archive:
        archive.add("d")
    without_profile = "".join(faults.splitlines(True)[:7]) + "d.tar has faults: 7\n"
    in_turn(program, Case(["--validate", "--tar", "d.tar"], without_profile.encode(), 1, looked))
    for part in 1, 2:
        words = [program, "--validate", "--profile", "profile.json", "--part", f"{part}/2", "d"]
        with open(f"p{part}", "wb") as file:
            if subprocess.run(words, stdout=file, check=False).returncode != 1:
                sys.exit(f"part {part} ends otherwise")
    in_turn(program, Case(["--validate", "--join", "p2", "p1"], report, 1, reasons_of_joining))


def main(program: str) -> None:
    signal.signal(signal.SIGALRM, hang)
    make_folder()
    making = ["--md5", "--sha256", "--contact-name", "Ann", "d"]
    in_turn(program, Case(making, b"d made\n", 0, Making(tree_of("pristine")).reasons))
    see_synced(program, ["--md5", "--sha256", "d"])
    see_as_found(program)
    # The bag that was made, without a fault, and with several.
    shutil.rmtree("pristine")
    shutil.copytree("d", "pristine")
    in_turn(program, Case(["--validate", "d"], b"d is valid\n", 0, Checking(tree_of("pristine")).reasons))
    fresh(tree_of("pristine"))
    try_damaged(program)
    print(f"killed {COUNTS['killed']} times")
    print(f"{COUNTS['refused']} calls refused, {COUNTS['wrong']} wrong")
    sys.exit(COUNTS["wrong"] > 0)


if __name__ == "__main__":
    main(*sys.argv[1:])
