#!/usr/bin/env python3
"""What tests/bag_life.sh runs: `bagit-keep make`, `edit`, `repack` and `restore`, over the built programs.

usage: tests/bag_life.py

The variables BAGIT and BAGIT_RENEW name the programs, and SMALL_DISK a small disk that may be filled, if there is one. What
a bag has to be follows from how it is made here, by digests of Python's hashlib.
"""
import errno
import fcntl
import hashlib
import io
import os
import random
import shutil
import signal
import subprocess
import sys
import tarfile
import tempfile
import time
import unittest
from contextlib import suppress
from os.path import join, lexists
from pathlib import Path
from unittest.mock import patch

ROOT = Path(__file__).resolve().parents[1]
sys.path.insert(0, str(ROOT / "companions"))

from bagitkeep import commands, edit, make, repack, restore  # noqa: E402, F401  so that who is forked needs no file of them
from bagitkeep.program import MARK  # noqa: E402

NAMES = ["-x", "new\nline", "back\\slash", "50%25 %", "caf\u00e9", "--from", "\x1b[2J", "d is valid", " ", "a" * 250]
KILLS, NOBODY = 20, 65534
# In the environment of a program that a command starts: which command that is.
STARTED_BY = "BAG_LIFE_STARTED_BY"
STEPS = "rename", "unlink", "rmdir"
counts = {"kills": 0, "steps": 0}


def digest(content, algorithm):
    return hashlib.new(algorithm, content).hexdigest()


def spelled(path):
    return path.replace("%", "%25").replace("\n", "%0A").replace("\r", "%0D")


def content_of(folder):
    """The files of a folder, with what they have; folders without files are left out."""
    found = {}
    for above, _, names in os.walk(folder):
        for name in names:
            path = join(above, name)
            is_link = os.path.islink(path)
            found[os.path.relpath(path, folder)] = os.readlink(path).encode() if is_link else Path(path).read_bytes()
    return found


def is_at_work(command):
    """Whether a program that this command has started is still there. What is to stop it, in its guard's time, isn't meant."""
    for file in Path("/proc").glob("[0-9]*/environ"):
        with suppress(OSError):
            marks = file.read_bytes()
            if f"{STARTED_BY}={command}.".encode() in marks and MARK.encode() in marks:
                return True
    return False


class Ended:
    """How a command ended, and what it wrote."""

    def __init__(self, status, out, said):
        self.status, self.out, self.said = status, out, said

    def __str__(self):
        return f"{self.status}\n{self.out}{self.said}"


class Life(unittest.TestCase):
    def setUp(self):
        folder = tempfile.TemporaryDirectory()
        self.addCleanup(folder.cleanup)
        self.folder = os.path.realpath(folder.name)
        os.chdir(self.folder)

    # What is run.

    def begin(self, words, user=None, steps=0, locks=None, **environment):
        """Begins a command in a process of its own: as another user, killed before its step of this number, or where a lock is this error."""
        out, said = tempfile.TemporaryFile(), tempfile.TemporaryFile()
        sys.stdout.flush()
        number = os.fork()
        if number == 0:
            with suppress(BaseException):
                os.dup2(os.open(os.devnull, os.O_RDONLY), 0)
                os.dup2(out.fileno(), 1)
                os.dup2(said.fileno(), 2)
                os.environ.update({**environment, STARTED_BY: f"{os.getpid()}."})
                if user is not None:
                    os.setgroups([])
                    os.setgid(user)
                    os.setuid(user)
                    tempfile.tempdir = "/tmp"
                    if not os.access(sys.executable, os.X_OK):
                        sys.executable = shutil.which("python3", path="/usr/bin:/bin")
                if steps:
                    self.die_at(steps)
                if locks:
                    fcntl.flock = self.refusing(locks)
                sys.argv = ["bagit-keep", *words]
                sys.stdout = io.TextIOWrapper(io.FileIO(1, "w", closefd=False), encoding="utf-8")
                sys.stderr = io.TextIOWrapper(io.FileIO(2, "w", closefd=False), encoding="utf-8")
                commands.run()
            os._exit(99)
        return number, out, said

    def die_at(self, steps):
        """Has this process killed before its step of this number."""
        left = steps

        def dying(call):
            def called(*words, **how):
                nonlocal left
                left -= 1
                if left == 0:
                    os.kill(os.getpid(), signal.SIGKILL)
                return call(*words, **how)

            return called

        for name in STEPS:
            setattr(os, name, dying(getattr(os, name)))

    def refusing(self, error):
        def refused(*words):
            raise OSError(error, os.strerror(error))

        return refused

    def end(self, begun):
        number, *files = begun
        status = os.waitstatus_to_exitcode(os.waitpid(number, 0)[1])
        while status == -signal.SIGKILL and is_at_work(number):
            time.sleep(0.01)
        texts = []
        for file in files:
            file.seek(0)
            texts.append(file.read().decode("utf-8", "backslashreplace"))
            file.close()
        self.assertNotIn("Traceback", texts[1])
        return Ended(status, *texts)

    def run_it(self, *words, **how):
        return self.end(self.begin(words, **how))

    def ends(self, status, *words, **how):
        ended = self.run_it(*words, **how)
        self.assertEqual(ended.status, status, str(ended))
        return ended

    def again(self, *words):
        """A command that was killed is asked again. What it has started may hold its lock for a moment."""
        for _ in range(100):
            ended = self.run_it(*words)
            if "another process" not in ended.said:
                return ended
            time.sleep(0.02)
        self.fail(str(ended))

    # What is there.

    def new_folder(self, name="d", names=NAMES):
        for path in [*names, "in/deep/file", "b"]:
            file = Path(name, path)
            file.parent.mkdir(parents=True, exist_ok=True)
            file.write_bytes(os.fsencode(f"{path} of {name}"))
        return content_of(name)

    def new_bag(self, name="d", names=NAMES, algorithms=("md5", "sha256"), version="1.0"):
        """A bag of a new folder, whose tag files are written here."""
        files = {f"data/{path}": content for path, content in self.new_folder(name, names).items()}
        shutil.rmtree(name)
        size = sum(map(len, files.values()))
        files["bagit.txt"] = f"BagIt-Version: {version}\nTag-File-Character-Encoding: UTF-8\n".encode()
        files["bag-info.txt"] = f"Contact-Name: Ann\nPayload-Oxum: {size}.{len(files) - 1}\nX: y\n".encode()
        files["meta/notes.xml"] = b"notes"
        self.write(name, files, algorithms)
        return content_of(name)

    def write(self, name, files, algorithms=("md5", "sha256")):
        """Writes the files of a bag, with its manifests."""
        files = dict(files)
        for kind in "manifest", "tagmanifest":
            files.update({f"{kind}-{it}.txt": self.manifest(files, it, kind == "manifest") for it in algorithms})
        for path, content in files.items():
            file = Path(name, path)
            file.parent.mkdir(parents=True, exist_ok=True)
            file.write_bytes(content)

    def manifest(self, files, algorithm, is_of_payload):
        """The manifest of the payload files among these, or the tag manifest of the others."""
        return "".join(
            f"{digest(content, algorithm)}  {spelled(path)}\n"
            for path, content in files.items()
            if path.startswith("data/") == is_of_payload
        ).encode()

    def assert_valid(self, name):
        ended = subprocess.run([os.environ["BAGIT"], "--validate", "--", name], capture_output=True, text=True)
        self.assertEqual((ended.returncode, ended.stdout.count("\n")), (0, 1), ended.stdout)

    def payload(self, name):
        return {path[5:]: content for path, content in content_of(name).items() if path.startswith("data/")}

    def left_beside(self, name="d"):
        """What is beside a bag, without what is kept of it. Killed at its last step, a command leaves an empty folder."""
        left = {it for it in os.listdir() if it.startswith(f"{name}.") and not it.startswith(f"{name}.kept.")}
        return sorted(it for it in left if it != f"{name}.new" or os.listdir(it))

    def all_contents(self, name="d"):
        """What files of the bag and beside it have."""
        return {
            content
            for it in os.listdir()
            if it == name or it.startswith(f"{name}.")
            for content in (content_of(it).values() if os.path.isdir(it) else [Path(it).read_bytes()])
        }


class Scenario:
    """A command, over what it is given: `words` are its arguments, `before` is what files had, and `wanted` says what is there once
    it has been done."""

    def __init__(self, test, names=NAMES):
        self.test, self.names = test, names
        for name in os.listdir():
            shutil.rmtree(name) if os.path.isdir(name) else os.unlink(name)
        self.words = self.begin()
        self.before = content_of("d")

    def begin(self):
        raise NotImplementedError

    def check(self):
        raise NotImplementedError

    def assert_done(self):
        self.test.assert_valid("d")
        self.test.assertEqual(self.test.left_beside(), [])
        self.check()

    def assert_kept(self):
        """Nothing is lost, however far it came."""
        missing = set(self.before.values()) - self.test.all_contents()
        self.test.assertFalse(missing)


class Makes(Scenario):
    def begin(self):
        self.test.new_folder("d", [*self.names, "data/inner", "bag-info.txt"])
        os.mkdir("d/empty")
        return ["make", "d", "--label=List=a", "--label", "List=b", "--label", "Contact-Name=Ann", "--algorithms", "md5,sha256"]

    def check(self):
        files = content_of("d")
        payload = {path[5:]: content for path, content in files.items() if path.startswith("data/")}
        self.test.assertEqual(payload, self.before)
        info = files["bag-info.txt"].decode().splitlines()
        size = sum(map(len, self.before.values()))
        wanted = ["List: a", "List: b", "Contact-Name: Ann", f"Payload-Oxum: {size}.{len(self.before)}"]
        self.test.assertEqual(info, wanted)
        manifests = {f"{kind}-{it}.txt" for kind in ("manifest", "tagmanifest") for it in ("md5", "sha256")}
        tag_files = {path for path in files if not path.startswith("data/")}
        self.test.assertEqual(tag_files, manifests | {"bagit.txt", "bag-info.txt"})


class Edits(Scenario):
    def begin(self):
        self.test.new_bag(names=self.names)
        size = self.test.payload("d")
        self.new = f"Contact-Name: Eve\nPayload-Oxum: {sum(map(len, size.values()))}.{len(size)}\n".encode()
        Path("new").write_bytes(self.new)
        return ["edit", "d", "bag-info.txt", "--from", "new"]

    def check(self):
        files = content_of("d")
        for path, content in {**self.before, "bag-info.txt": self.new}.items():
            if not path.startswith("tagmanifest-"):
                self.test.assertEqual(files.pop(path), content)
        for path in list(files):
            name, old = f"  bag-info.txt\n", self.before[path].decode()
            algorithm = path[12:-4]
            sums = digest(self.before["bag-info.txt"], algorithm), digest(self.new, algorithm)
            self.test.assertEqual(files.pop(path).decode(), old.replace(sums[0] + name, sums[1] + name))


class Repacks(Scenario):
    def begin(self):
        self.test.new_bag(names=self.names)
        self.test.new_bag("e", ["of e"])
        return self.asks()

    def check(self):
        wanted = self.wanted(self.test.payload("before"), self.test.payload("e"))
        self.test.assertEqual(self.test.payload("d"), wanted)
        files = content_of("d")
        for path in "meta/notes.xml", "bagit.txt":
            self.test.assertEqual(files[path], self.before[path])
        size = sum(map(len, wanted.values()))
        info = f"Contact-Name: Ann\nPayload-Oxum: {size}.{len(wanted)}\nX: y\n"
        self.test.assertEqual(files["bag-info.txt"].decode(), info)
        for algorithm in "md5", "sha256":
            lines = {f"{digest(content, algorithm)}  data/{spelled(path)}" for path, content in wanted.items()}
            self.test.assertEqual(set(files[f"manifest-{algorithm}.txt"].decode().split("\n")) - {""}, lines)

    def assert_done(self):
        Path("before").mkdir()
        for path, content in self.before.items():
            Path("before", path).parent.mkdir(parents=True, exist_ok=True)
            Path("before", path).write_bytes(content)
        super().assert_done()


class Adds(Repacks):
    def asks(self):
        return ["repack", "d", "add", "e", "--to", "data/in/%0A"]

    def wanted(self, old, added):
        return {**old, **{f"in/%0A/{path}": content for path, content in added.items()}}


class Removes(Repacks):
    def asks(self):
        return ["repack", "d", "remove", "data/in", "data/b"]

    def wanted(self, old, added):
        return {path: content for path, content in old.items() if path != "b" and not path.startswith("in/")}


class Renames(Repacks):
    def asks(self):
        return ["repack", "d", "rename", "data/in", "data/new\n/%"]

    def wanted(self, old, added):
        return {f"new\n/%{path[2:]}" if path.startswith("in/") else path: content for path, content in old.items()}


class Restores(Scenario):
    def begin(self):
        self.test.new_bag(names=self.names)
        for copy in "worse", "c":
            shutil.copytree("d", copy)
        Path("worse/data/b").write_bytes(b"")
        self.good = content_of("d")
        Path("d/data/b").write_bytes(b"B")
        Path("d/manifest-md5.txt").write_bytes(b"no manifest\n")
        Path("d/tagmanifest-sha256.txt").write_bytes(self.good["tagmanifest-sha256.txt"].replace(b" bag-info.txt", b" bag-inbo.txt"))
        os.unlink("d/bagit.txt")
        shutil.rmtree("d/data/in")
        for name in self.names:
            os.unlink(join("d/data", name))
        return ["restore", "d", "--from", "worse", "--from", "c"]

    def check(self):
        self.test.assertEqual(content_of("d"), self.good)


COMMANDS = Makes, Edits, Adds, Restores
SCENARIOS = *COMMANDS, Removes, Renames


class EachCommand(Life):
    """What holds of each of them."""

    def test_does_what_it_is_asked_for(self):
        for kind in SCENARIOS:
            with self.subTest(kind.__name__):
                scenario = kind(self)
                self.ends(0, *scenario.words)
                scenario.assert_done()
                scenario.assert_kept()

    def test_killed_at_any_moment(self):
        for kind in COMMANDS:
            with self.subTest(kind.__name__):
                scenario = kind(self)
                begun = time.monotonic()
                self.ends(0, *scenario.words)
                seconds = time.monotonic() - begun
                for _ in range(KILLS):
                    self.kill(kind(self), random.uniform(0, seconds))

    def kill(self, scenario, seconds):
        begun = self.begin(scenario.words)
        time.sleep(seconds)
        with suppress(ProcessLookupError):
            os.kill(begun[0], signal.SIGKILL)
        counts["kills"] += self.end(begun).status == -signal.SIGKILL
        self.goes_on(scenario)

    def goes_on(self, scenario):
        scenario.assert_kept()
        ended = self.again(*scenario.words)
        # Killed after the last step, it is asked for once more.
        if ended.status == 2 and ("is a bag" in ended.said or "has no data/" in ended.said):
            counts["steps"] += 1
        elif ended.status == 3 and "is there twice" in ended.said:
            pass
        else:
            self.assertEqual(ended.status, 0, str(ended))
        scenario.assert_done()
        scenario.assert_kept()

    def test_killed_before_each_step(self):
        for kind in COMMANDS:
            with self.subTest(kind.__name__):
                status, step = -signal.SIGKILL, 0
                while status == -signal.SIGKILL:
                    step += 1
                    scenario = kind(self, ["%"])
                    status = self.run_it(*scenario.words, steps=step).status
                    counts["steps"] += status == -signal.SIGKILL
                    self.goes_on(scenario)
                self.assertGreater(step, 5)

    def test_two_at_once(self):
        for kind in COMMANDS:
            for _ in range(2):
                with self.subTest(kind.__name__):
                    scenario = kind(self)
                    begun = [self.begin(scenario.words) for _ in range(2)]
                    ended = [self.end(it) for it in begun]
                    self.assertIn(0, [it.status for it in ended], "\n".join(map(str, ended)))
                    scenario.assert_done()

    def test_without_locks(self):
        """A file that names host and process keeps others out, also once the process was killed."""
        host = os.uname().nodename
        for kind, error in zip(COMMANDS, (errno.ENOSYS, errno.ENOLCK, errno.EOPNOTSUPP, errno.ENOLCK)):
            with self.subTest(kind.__name__, error=error):
                scenario = kind(self)
                Path("waits").write_text(f'#!/bin/sh\n: >begun; until [ -e go ]; do sleep 0.02; done\nexec {os.environ["BAGIT"]} "$@"\n')
                os.chmod("waits", 0o755)
                first = self.begin(scenario.words, locks=error, BAGIT=f"{self.folder}/waits")
                while not lexists("begun"):
                    time.sleep(0.02)
                said = self.ends(3, *scenario.words, locks=error).said
                self.assertIn(f"/d.locked: {host} {first[0]}.", said)
                Path("go").touch()
                ended = self.end(first)
                self.assertEqual(ended.status, 0, str(ended))
                scenario.assert_done()
                scenario = kind(self)
                begun = self.begin(scenario.words, steps=4, locks=error)
                self.assertEqual(self.end(begun).status, -signal.SIGKILL)
                self.assertIn(f"/d.locked: {host} {begun[0]}.", self.ends(3, *scenario.words, locks=error).said)
                os.unlink("d.locked")
                self.assertEqual(self.run_it(*scenario.words, locks=error).status, 0)
                scenario.assert_done()
                scenario.assert_kept()

    @unittest.skipUnless(os.environ.get("SMALL_DISK"), "there is no small disk")
    def test_full_disk(self):
        os.chdir(os.environ["SMALL_DISK"])
        for kind in COMMANDS:
            for room in range(0, 60, 12):
                with self.subTest(kind.__name__, room=room):
                    scenario = kind(self)
                    with open("filler", "wb", buffering=0) as file, suppress(OSError):
                        while True:
                            file.write(bytes(4096))
                    os.truncate("filler", max(0, os.path.getsize("filler") - room * 4096))
                    ended = self.run_it(*scenario.words)
                    self.assertIn(ended.status, (0, 3), str(ended))
                    scenario.assert_kept()
                    if ended.status == 3 and kind is not Restores:
                        self.assertEqual(content_of("d"), scenario.before)
                    os.unlink("filler")
                    self.assertEqual(self.run_it(*scenario.words).status if ended.status else 0, 0)
                    scenario.assert_done()

    @unittest.skipIf(os.geteuid(), "only root can be another user")
    def test_another_user(self):
        for is_own in True, False:
            for kind in COMMANDS:
                with self.subTest(kind.__name__, is_own=is_own):
                    os.chmod(".", 0o755)
                    os.chown(".", *[NOBODY if is_own else 0] * 2)
                    scenario = kind(self)
                    for above, folders, files in os.walk("."):
                        for name in folders + files:
                            os.chown(join(above, name), *[NOBODY if is_own else 0] * 2)
                    ended = self.run_it(*scenario.words, user=NOBODY)
                    self.assertEqual(ended.status, 0 if is_own else 3, str(ended))
                    if is_own:
                        scenario.assert_done()
                        owners = {os.lstat(join(above, it)).st_uid for above, _, files in os.walk("d") for it in files}
                        self.assertEqual(owners, {NOBODY})
                    else:
                        self.assertEqual((content_of("d"), self.left_beside()), (scenario.before, []))

    @unittest.skipIf(os.geteuid(), "only root can be another user")
    def test_a_bag_that_is_write_protected(self):
        for kind in Edits, Renames:
            with self.subTest(kind.__name__):
                scenario = kind(self)
                os.chmod(".", 0o755)
                for above, folders, files in os.walk("."):
                    for name in [".", *folders, *files]:
                        os.chown(join(above, name), NOBODY, NOBODY)
                subprocess.run(["chmod", "-R", "a-w", "d"], check=True)
                self.ends(1, *scenario.words, user=NOBODY, BAGIT=self.faulty())
                self.assertEqual((content_of("d"), self.left_beside()), (scenario.before, []))
                self.ends(0, *scenario.words, user=NOBODY)
                scenario.assert_done()
                self.assertEqual({os.lstat(it).st_mode & 0o222 for it in ("d", "d/data", "d/bag-info.txt")}, {0})

    def faulty(self):
        """A program in place of bagit, which finds a fault in what has been built."""
        path = Path("faulty")
        path.write_text(f"""#!/bin/sh
for bag; do :; done
[ "${{bag##*/}}" = bag ] || exec {os.environ["BAGIT"]} "$@"
echo 201 no-payload-folder data - - -
echo "$bag has faults: 1"
exit 1
""")
        path.chmod(0o755)
        return str(path.resolve())

    def test_modes(self):
        for kind in SCENARIOS:
            with self.subTest(kind.__name__):
                scenario = kind(self, ["x"])
                os.chmod("d", 0o750)
                files = [join("d", it) for it in os.listdir("d") if os.path.isfile(join("d", it))]
                for path in files:
                    os.chmod(path, 0o640)
                self.ends(0, *scenario.words)
                self.assertEqual(os.stat("d").st_mode & 0o777, 0o750)
                if kind is not Makes:
                    for path in files:
                        self.assertEqual(os.stat(path).st_mode & 0o777, 0o640, path)


class EachAlone(Life):
    """What holds of one of them."""

    def program(self, script):
        """A program in place of bagit: it runs this, where $bagit is the real one, and $made is `yes` if it is to make a bag."""
        makes = 'made=yes; for word; do [[ $word != --validate ]] || made=; bag=$word; done'
        path = Path("bagit-instead")
        path.write_text(f"#!/bin/bash\nbagit={os.environ['BAGIT']}; {makes}\n{script}\n")
        path.chmod(0o755)
        return {"BAGIT": str(path.resolve())}

    def refused(self, status, *words, **how):
        """The command changes nothing."""
        before = content_of(".")
        ended = self.ends(status, *words, **how)
        self.assertEqual(content_of("."), before)
        self.assertEqual([it for it in os.listdir() if ".new" in it or ".kept" in it], [])
        return ended

    def test_makes_nothing_of_what_is_no_folder_or_a_bag(self):
        self.new_folder("d")
        self.new_folder("e")
        self.new_bag("bag")
        os.symlink("bag", "link")
        for words in (
            ["validate", "d"], ["\u2013validate", "d"], ["d", ""], [], ["d", "d/in"], ["d", "bag"], ["d", "link"], ["d", "bag/data/in"],
            ["d", "--label", "A"], ["d", "--label=A: b=c"], ["d", "--label=Payload-Oxum=1.1"], ["d", "--labels", "bag/bagit.txt"],
            ["d", "--algorithms", "md4"], ["d", "--quiet"],
        ):
            self.refused(2, "make", *words)
        os.unlink("bag/bagit.txt")
        self.refused(2, "make", "d", "bag")
        self.refused(3, "make", "d", BAGIT="/nowhere")
        self.refused(3, "make", "d", "--label=A=b", BAGIT_RENEW="/nowhere")
        os.symlink("b", "d/in/link")
        self.assertIn("special", self.refused(3, "make", "d").said)
        os.unlink("d/in/link")
        self.ends(0, "make", "d", "e", "--")
        for name in "d", "e":
            self.assert_valid(name)

    def test_makes_a_bag_of_a_bag_if_told(self):
        before = self.new_bag("d")
        for algorithms in "md5", "sha256":
            self.ends(0, "make", "d", "--bag-in-bag", "--algorithms", algorithms)
            self.assert_valid("d")
        inner = {path[10:]: it for path, it in content_of("d").items() if path.startswith("data/data/")}
        self.assertEqual({path: inner.get(path) for path in before}, before)

    def test_elements_of_a_file(self):
        self.new_folder("d")
        Path("labels").write_text('{"List": ["a", 2], "Folded": "x\\ny"}')
        self.ends(0, "make", "d", "--label", "List=c", "--labels", "labels")
        lines = Path("d/bag-info.txt").read_text().splitlines()
        self.assertEqual([it.strip() for it in lines[:-1]], ["List: a", "List: 2", "Folded: x", "y", "List: c"])

    def test_names_what_comes_meanwhile(self):
        self.new_folder("d")
        comes = '"$bagit" "$@"; status=$?; [[ ! $made ]] || { mkdir "$bag/sub"; touch "$bag/late top" "$bag/sub/%"; }; exit $status'
        ended = self.ends(3, "make", "d", **self.program(comes))
        for name in "late%20top", "sub/%25":
            self.assertIn(f"/d: {name} came while", ended.said)
        bag = content_of("d")
        self.ends(3, "make", "d", "--label", "A=b")
        self.assertEqual(content_of("d"), bag)
        os.unlink("d/late top")
        shutil.rmtree("d/sub")
        self.ends(0, "make", "d")
        self.assert_valid("d")
        self.ends(2, "make", "d")
        self.new_folder("e")
        self.ends(1, "make", "e", **self.program('"$bagit" "$@"; status=$?; [[ ! $made ]] || touch "$bag/data/late"; exit $status'))

    def test_a_making_that_is_cut_off_goes_back(self):
        half = 'mkdir "$bag/.bagit-new"; mv "$bag"/[-a-d]* "$bag/.bagit-new"'
        moved = f'{half}; mv "$bag"/in "$bag/.bagit-new"; mv "$bag/.bagit-new" "$bag/data"'
        tagged = f'{moved}; touch "$bag/bag-info.txt"; echo x | tee "$bag/bagit.txt" >"$bag/manifest-md5.txt"'
        for script in half, moved, tagged, f'{tagged}; : >"$bag/tagmanifest-md5.txt"', "":
            for how in "kill -9 $$", "kill -9 $PPID $$", 'echo "$bag not made: step 9 device"; exit 3':
                shutil.rmtree("d", ignore_errors=True)
                before = self.new_folder("d", ["data/in/x", "a", "-x"])
                instead = self.program(f'[[ $made ]] || exec "$bagit" "$@"\n{script}\n{how}')
                ended = self.run_it("make", "d", **instead)
                self.assertEqual(ended.status, -signal.SIGKILL if "$PPID" in how else 3, str(ended))
                if "$PPID" not in how:
                    self.assertEqual((content_of("d"), self.left_beside()), (before, []))
                self.assertEqual(self.again("make", "d").status, 0)
                self.assert_valid("d")
                self.assertEqual(self.payload("d"), before)

    def test_a_renewal_that_is_cut_off_goes_on(self):
        self.new_folder("d")
        Path("renew").write_text('#!/bin/bash\nfor bag; do :; done\necho x >"$bag/.bagit-begun"; rm "$bag"/tagmanifest-*\nkill -9 $PPID $$\n')
        os.chmod("renew", 0o755)
        self.ends(-signal.SIGKILL, "make", "d", "--label=A=b", BAGIT_RENEW=f"{self.folder}/renew")
        self.assertEqual(self.again("make", "d", "--label=A=b").status, 0)
        self.assertEqual(sorted(os.listdir("d"))[:2], ["bag-info.txt", "bagit.txt"])
        self.assert_valid("d")
        self.assertIn("A: b", Path("d/bag-info.txt").read_text())

    def test_a_bag_is_never_unwrapped(self):
        before = self.new_folder("d")
        self.run_it("make", "d", "--algorithms=md5", **self.program("kill -9 $PPID $$"))
        subprocess.run([os.environ["BAGIT"], "--quiet", "--md5", "d"], check=True)
        Path("d/data/b").write_bytes(b"damaged")
        bag = content_of("d")
        self.ends(1, "make", "d", "--algorithms=md5")
        self.assertEqual(content_of("d"), bag)
        Path("d/data/b").write_bytes(before["b"])
        self.ends(0, "make", "d", "--algorithms=md5")
        self.assert_valid("d")

    def test_edits_nothing_with_other_faults(self):
        self.new_bag()
        Path("new").write_bytes(b"Contact-Name: Eve\n")
        for word in "data/b", "data", "../d/bagit.txt", f"{self.folder}/d/bagit.txt", "", "meta//notes.xml":
            self.refused(2, "edit", "d", word, "--from", "new")
        self.refused(2, "edit", "d", "bag-info.txt", "meta/notes.xml", "--from", "new")
        self.refused(2, "edit", "nowhere", "bag-info.txt", "--from", "new")
        self.refused(3, "edit", "d", "bag-info.txt", "--from", "nowhere")
        self.refused(3, "edit", "d", "meta", "--from", "new")
        self.refused(3, "edit", "d", "bag-info.txt", BAGIT="/nowhere", EDITOR="sed -i s/X/Y/")
        for words in ["bagit.txt", "--from", "new"], ["bagit.txt", "--remove"], ["manifest-md5.txt", "--from", "new"]:
            self.refused(1, "edit", "d", *words)
        for path in "data/b", "meta/notes.xml", "bag-info.txt", "manifest-md5.txt":
            old = Path("d", path).read_bytes()
            Path("d", path).write_bytes(b"X" + old[1:])
            self.refused(1, "edit", "d", "bag-info.txt", "--from", "new")
            Path("d", path).write_bytes(old)
        os.symlink("b", "d/data/link")
        self.refused(3, "edit", "d", "bag-info.txt", "--from", "new")

    def test_an_old_bag_is_left_alone(self):
        for version in "0.93", "0.96":
            self.new_bag("d", version=version)
            Path("new").write_text("50%25")
            self.refused(1, "edit", "d", "manifest-md5.txt", "--from", "new")
            self.refused(1, "repack", "d", "remove", "data/b")

    def test_odd_names_of_bags(self):
        Path("new").write_text("new")
        for name in "--help", "new\nline", os.fsdecode(b"caf\xe9"), "d is valid", "\x1b%41 ":
            with self.subTest(name):
                self.new_folder(name, ["x"])
                self.ends(0, "make", "--label=A=b", "--algorithms=md5", "--", name)
                self.ends(0, "edit", "--from", "new", "--", name, "meta.xml")
                self.ends(0, "repack", "--", name, "rename", "data/b", "data/c")
                shutil.copytree(name, "copy")
                os.unlink(join(name, "data/c"))
                self.ends(0, "restore", "--from", "copy", "--", name)
                self.assertEqual(content_of(name), content_of("copy"))
                self.assertEqual(set(self.payload(name)), {"x", "c", "in/deep/file"})
                for it in os.listdir():
                    if it != "new":
                        shutil.rmtree(it)

    def test_files_whose_names_are_no_text(self):
        before = self.new_folder("d", [os.fsdecode(b"caf\xe9")])
        self.assertIn("name", self.refused(3, "make", "d").said)
        self.assertEqual(content_of("d"), before)
        shutil.rmtree("d")
        self.new_bag("d")
        word = f"data/{os.fsdecode(bytes([233]))}"
        self.refused(2, "repack", "d", "remove", word)
        self.refused(3, "repack", "d", "rename", "data/b", word)
        Path("new").write_text("x")
        self.refused(3, "edit", "d", word[5:], "--from", "new")

    def test_edits_what_is_asked(self):
        before = self.new_bag()
        Path("new").write_bytes(b"\xef\xbb\xbfA: b\r\n")
        path = "new folder/*%\n x.xml"
        self.ends(0, "edit", "d", path, "--from", "new")
        self.assert_valid("d")
        for algorithm in "md5", "sha256":
            line = f"{digest(Path('new').read_bytes(), algorithm)}  {spelled(path)}\n"
            manifest = f"tagmanifest-{algorithm}.txt"
            self.assertEqual(Path("d", manifest).read_text(), before[manifest].decode() + line)
        self.ends(0, "edit", "d", "--remove", path)
        self.assertEqual(content_of("d"), before)
        (first, *others) = [it for it in os.listdir() if ".kept." in it]
        self.assertEqual(len(others), 1)
        self.assertIn(before, [content_of(first), content_of(others[0])])
        self.ends(0, "edit", "d", "bag-info.txt", "meta/notes.xml", "--remove")
        self.assert_valid("d")
        kept = len(os.listdir())
        self.ends(0, "edit", "d", "--remove", "bag-info.txt")
        self.assertEqual(len(os.listdir()), kept)

    def test_faults_are_mended_together(self):
        files = self.new_bag()
        files["bag-info.txt"], files["meta/other"] = b"no element\n", b"x"
        files["fetch.txt"] = b"no line\n"
        shutil.rmtree("d")
        self.write("d", {path: it for path, it in files.items() if "manifest-" not in path})
        self.refused(1, "edit", "d", "bag-info.txt", "--remove")
        self.ends(0, "edit", "d", "--remove", "bag-info.txt", "fetch.txt")
        self.assert_valid("d")

    def test_an_editor(self):
        self.new_bag()
        Path("editor").write_text("#!/bin/sh\nfor file; do :; done; sed -i s/Ann/Eve/ \"$file\"\n")
        os.chmod("editor", 0o755)
        self.ends(0, "edit", "d", "bag-info.txt", EDITOR=f"'{self.folder}/editor' -x", VISUAL="")
        self.assert_valid("d")
        self.assertIn("Contact-Name: Eve", Path("d/bag-info.txt").read_text())
        before = content_of("d")
        faulty = "sed -i s/Payload-Oxum./Eve/"
        for editor, status in ("true", 3), ("false", 3), ("rm", 3), ("/nowhere", 3), (f'sh -c "{faulty} $0; exit 7"', 3), (faulty, 1):
            ended = self.ends(status, "edit", "d", "bag-info.txt", EDITOR=editor, VISUAL="")
            self.assertEqual((content_of("d"), self.left_beside()), (before, []))
            self.assertNotIn(".new/", ended.said)
            self.assertEqual(f"{self.folder}/d is as it was: " in ended.said, status == 1, ended.said)
            kept = [it for it in ended.said.split() if ".kept." in it]
            self.assertEqual(["Eve " in Path(it).read_text() for it in kept], [True] * (faulty in editor), ended.said)
        self.assertTrue(ended.out.endswith("/d.new/bag has faults: 1\n"), ended.out)
        Path("new").write_text("Contact-Name: Ann\n")
        ended = self.ends(3, "edit", "d", "bag-info.txt/x", "--from", "new")
        self.assertIn("/d/bag-info.txt: File exists", ended.said)

    def only_md5_tells(self, path, content=None, version="1.0"):
        """A bag in which a file has this content now, or is gone: its SHA-256 manifests were written again since, those of MD5 not."""
        shutil.rmtree("d", ignore_errors=True)
        good = {it: held for it, held in self.new_bag(names=["x"], version=version).items() if "manifest-" not in it}
        shutil.rmtree("d")
        good["bag-info.txt"] = b"Contact-Name: Ann\n"
        now = {**good, path: content} if content is not None else {it: held for it, held in good.items() if it != path}
        of = {"md5": good, "sha256": now}
        manifests = {f"manifest-{it}.txt": self.manifest(files, it, True) for it, files in of.items()}
        tags = {f"tagmanifest-{it}.txt": self.manifest({**files, **manifests}, it, False) for it, files in of.items()}
        self.write("d", {**now, **manifests, **tags}, [])
        return {**good, **manifests, **tags}

    def assert_only_fault(self, *fault):
        ended = subprocess.run([os.environ["BAGIT"], "--validate", "--", "d"], capture_output=True, text=True)
        found = [line.split()[:4] for line in ended.stdout.splitlines()]
        self.assertEqual([[it[0], *it[2:]] for it in found[:-1]], [list(fault)], ended.stdout)

    def test_an_edit_hides_no_damage_of_the_payload(self):
        for version in "1.0", "0.97":
            for content, code in (b"damaged", "701"), (None, "601"):
                with self.subTest(version, code=code):
                    good = self.only_md5_tells("data/b", content, version)
                    self.assert_only_fault(code, "data/b", "md5")
                    line, text = f"{digest(good['data/b'], 'md5')}  data/b\n", good["manifest-md5.txt"].decode()
                    self.assertIn(line, text)
                    said = [self.refused(1, "edit", "d", "manifest-md5.txt", "--remove")]
                    for becomes in "", f"{digest(b'damaged', 'md5')}  data/b\n":
                        Path("new").write_text(text.replace(line, becomes))
                        said.append(self.refused(1, "edit", "d", "manifest-md5.txt", "--from", "new"))
                    # That a payload file is in no manifest, or is missing, is a fault by itself.
                    is_fault = [False, version == "1.0" and content is not None, content is None]
                    for ended, has_fault in zip(said, is_fault):
                        self.assertEqual("data/b isn't there with its md5 checksum" in ended.said, not has_fault, str(ended))
                        self.assertEqual(" has faults: 1" in ended.out, has_fault, str(ended))
                    os.unlink("new")

    def test_an_edit_hides_no_damage_of_tag_files(self):
        for content, code in (b"damaged", "702"), (None, "602"):
            with self.subTest(code):
                good = self.only_md5_tells("meta/notes.xml", content)
                self.assert_only_fault(code, "meta/notes.xml", "md5")
                text = good["tagmanifest-md5.txt"].decode().splitlines(keepends=True)
                Path("new").write_text("".join(line for line in text if "notes" not in line))
                for words in ["--remove"], ["--from", "new"]:
                    ended = self.refused(1, "edit", "d", "tagmanifest-md5.txt", *words)
                    self.assertIn("meta/notes.xml isn't there with its md5 checksum", ended.said)
                os.unlink("new")

    def test_what_was_written_is_kept_where_it_hides_damage(self):
        good = self.only_md5_tells("data/b", b"damaged")
        before = content_of("d")
        was, becomes = digest(good["data/b"], "md5"), digest(b"damaged", "md5")
        for paths in ["manifest-md5.txt"], ["manifest-md5.txt", "meta/notes.xml"]:
            editor = f"sed -i -e s/{was}/{becomes}/ -e s/notes/others/"
            ended = self.ends(1, "edit", "d", *paths, EDITOR=editor, VISUAL="")
            self.assertIn("data/b isn't there with its md5 checksum", ended.said)
            self.assertEqual((content_of("d"), self.left_beside()), (before, []))
            kept = {line.split()[-3]: line.split()[-1] for line in ended.said.splitlines() if " is " in line and ".kept." in line}
            self.assertEqual(sorted(kept), sorted(paths), ended.said)
            for path, file in kept.items():
                wanted = good[path].replace(was.encode(), becomes.encode()).replace(b"notes", b"others")
                self.assertEqual(Path(file).read_bytes(), wanted)
                os.unlink(file)

    def test_what_was_written_is_kept_where_the_bag_is_not_read(self):
        self.new_bag()
        os.symlink("b", "d/data/link")
        for how in {}, self.program('[[ $bag == */bag ]] || exec "$bagit" "$@"; echo "$bag unread - device, faults: 0"; exit 3'):
            ended = self.ends(3, "edit", "d", "bag-info.txt", EDITOR="sed -i s/Ann/Eve/", VISUAL="", **how)
            (kept,) = [line.split()[-1] for line in ended.said.splitlines() if ".kept." in line]
            self.assertIn("Contact-Name: Eve", Path(kept).read_text())
            if lexists("d/data/link"):
                os.unlink("d/data/link")

    def test_a_manifest_of_a_good_bag_is_removed(self):
        for version in "1.0", "0.97":
            shutil.rmtree("d", ignore_errors=True)
            before = self.new_bag(names=["x"], version=version)
            for name in "manifest-md5.txt", "tagmanifest-sha256.txt":
                self.ends(0, "edit", "d", name, "--remove")
                self.assert_valid("d")
                self.assertNotIn(name, os.listdir("d"))
            wanted = "".join(it for it in before["tagmanifest-md5.txt"].decode().splitlines(True) if " manifest-md5" not in it)
            self.assertEqual(Path("d/tagmanifest-md5.txt").read_text(), wanted)

    def test_repacks_nothing_out_of_the_bag_or_with_faults(self):
        self.new_bag()
        self.new_bag("e", ["of e"])
        self.new_bag("less", ["of less"], ["md5"])
        whole = f"{self.folder}/d/data/b"
        for words in (
            ["remove", "../e"], ["remove", "../d/data/b"], ["remove", whole], ["remove", "data/.."], ["remove", "data"], ["remove", "b"],
            ["remove", "data/nothing"], ["remove", "data/b", "data/nothing"], ["remove"], [], ["rename", "data/b", "../e/data/b"],
            ["rename", "data/b", whole], ["rename", "data/b", "data/in"], ["rename", "data/b", "meta/b"], ["add", "e", "--to", "../e"],
            ["add", "nowhere"], ["add", "e", "e"], ["other"],
        ):
            self.refused(2, "repack", "d", *words)
        self.refused(2, "repack", "nowhere", "remove", "data/b")
        self.assertIn("lacks digests by sha256", self.refused(3, "repack", "d", "add", "less", "--to", "data/less").said)
        self.assertIn("is there twice", self.refused(3, "repack", "d", "add", "d").said)
        for path in "d/data/b", "d/meta/notes.xml", "d/manifest-md5.txt", "e/data/of e", "e/bagit.txt":
            old = Path(path).read_bytes()
            Path(path).write_bytes(b"X" + old[1:])
            self.refused(1, "repack", "d", "add", "e")
            Path(path).write_bytes(old)
        os.symlink("b", "d/data/link")
        self.refused(3, "repack", "d", "remove", "data/b")

    def test_damage_while_it_repacks_is_found(self):
        for path in "d/data/in/deep/file", "d/meta/notes.xml", "d/bag-info.txt", "d/manifest-sha256.txt":
            shutil.rmtree("d", ignore_errors=True)
            self.new_bag()
            comes = f'"$bagit" "$@"; status=$?; [[ $bag == */bag || -e came ]] || {{ touch came; echo x >>{path}; }}; exit $status'
            self.ends(1, "repack", "d", "remove", "data/b", **self.program(comes))
            self.assertEqual([it for it in os.listdir() if it.startswith("d.")], [])
            os.unlink("came")

    def test_repacks_by_the_rules_of_0_97(self):
        files = {"bagit.txt": b"BagIt-Version: 0.97\nTag-File-Character-Encoding: UTF-8\n", "data/50%25 %": b"a", "data/b": b"b"}
        self.write("d", files)
        manifest = f"{digest(b'a', 'md5')} *./data/50%25 %\r{digest(b'b', 'md5').upper()}\tdata/b"
        for path in Path("d").glob("*manifest-*"):
            path.unlink()
        Path("d/manifest-md5.txt").write_text(manifest, newline="")
        self.assert_valid("d")
        self.ends(0, "repack", "d", "rename", "data/b", "data/%\nb")
        self.assert_valid("d")
        wanted = manifest.partition("\r")[0] + f"\r{digest(b'b', 'md5')}  data/%%0Ab"
        self.assertEqual(Path("d/manifest-md5.txt").read_bytes().decode(), wanted)
        self.ends(3, "repack", "d", "rename", "data/50%25 %", "data/%0A")

    def test_a_bag_with_other_files_beside_it(self):
        before = self.new_bag()
        Path("d.new").mkdir()
        Path("d.new/mine").write_text("mine")
        Path("new").write_text("A: b\n")
        for words in ["edit", "d", "bag-info.txt", "--from", "new"], ["repack", "d", "remove", "data/b"], ["restore", "d", "--from", "d.new"]:
            self.ends(3, *words)
            self.assertEqual((content_of("d"), content_of("d.new")), (before, {"mine": b"mine"}))

    def test_restores_no_worse_file(self):
        self.new_bag("d", ["better", "gone"])
        for copy in "copy", "link":
            shutil.copytree("d", copy)
        Path("d/data/better").write_bytes(b"bettex of d")
        Path("copy/data/better").write_bytes(b"")
        os.unlink("link/data/better")
        os.symlink("../../d/data/in/deep/file", "link/data/better")
        os.unlink("d/data/gone")
        ended = self.ends(1, "restore", "d", "--from", "copy", "--from", "link")
        self.assertIn("copy: data/better doesn't have the digest that manifest-md5.txt gives", ended.said)
        self.assertNotIn("no copy has", ended.said)
        self.assertEqual((self.payload("d")["better"], self.payload("d")["gone"]), (b"bettex of d", b"gone of d"))
        self.assertEqual([it for it in os.listdir() if it.startswith("d.")], [])
        for words in ["d"], ["d", "--from", "d"], ["d", "--from", "nowhere"], ["d", "--from", "d/bagit.txt"], ["nowhere", "--from", "d"]:
            self.refused(2, "restore", *words)

    def test_restores_out_of_a_tar(self):
        before = self.new_bag()
        with tarfile.open("copy.tar", "w", format=tarfile.GNU_FORMAT) as tar:
            tar.add("d", "./some other name")
        size = os.path.getsize("copy.tar")
        for path in "d/data/b", "d/meta/notes.xml", "d/data/new\nline":
            os.unlink(path)
        whole = Path("copy.tar").read_bytes()
        Path("cut.tar").write_bytes(whole[: size // 2 + 100])
        self.run_it("restore", "d", "--from", "cut.tar")
        self.ends(0, "restore", "d", "--from", "cut.tar", "--from", "copy.tar")
        self.assertEqual(content_of("d"), before)

    def test_restores_a_tag_manifest(self):
        """The bag's is damaged in a byte, and a copy's fits what is there."""
        files = self.new_bag("d", ["x"])
        shutil.copytree("d", "copy")
        with tarfile.open("copy.tar", "w") as tar:
            tar.add("copy")
        name = "tagmanifest-sha256.txt"
        good = files[name]
        at = good.index(b"  bag-info.txt")
        other = b"1" if good[at - 1:at] == b"0" else b"0"
        for damaged in (
            good[:at - 1] + other + good[at:], good[:at - 1] + b"x" + good[at:], good[:at - 1] + good[at:], good[:at] + b"\xff" + good[at:],
            good.replace(b"bag-info", b"bag-inbo"), good.replace(b" manifest-md5", b" manifest-md4"), b"",
        ):
            for copy in "copy", "copy.tar":
                Path("d", name).write_bytes(damaged)
                self.assertIn(f"{name} is now that of {copy}\n", self.ends(0, "restore", "d", "--from", copy).said)
                self.assertEqual(content_of("d"), files)
                (kept,) = [it for it in os.listdir() if ".kept." in it]
                self.assertEqual(content_of(kept), {name: damaged})
                shutil.rmtree(kept)

    def test_a_tag_manifest_hides_no_damage(self):
        """None is taken that gives other digests than the tag files have, or names less."""
        files = self.new_bag("d", ["x"])
        others = {path: it for path, it in files.items() if "manifest-" not in path}
        self.write("edited", {**others, "bag-info.txt": b"Contact-Name: Eve\n"})
        self.write("less", {path: it for path, it in others.items() if path != "meta/notes.xml"})
        for name in "edited", "less":
            os.unlink(f"{name}/bag-info.txt")
        copies = ["--from", "edited", "--from", "less"]
        Path("d/tagmanifest-md5.txt").unlink()
        sha = files["tagmanifest-sha256.txt"]
        was = digest(files["bag-info.txt"], "sha256").encode()
        Path("d/tagmanifest-sha256.txt").write_bytes(sha.replace(was, was[::-1]))
        self.assertIn("no copy has bag-info.txt", self.refused(1, "restore", "d", *copies).said)
        shutil.copytree("less", "edited", dirs_exist_ok=True)
        Path("edited/bag-info.txt").write_bytes(b"Contact-Name: Eve\n")
        said = self.refused(1, "restore", "d", "--from", "edited").said
        self.assertIn("edited: bag-info.txt doesn't have the digest that tagmanifest-sha256.txt gives", said)
        self.assertNotIn("no copy has", said)
        for path in "meta/notes.xml", "bag-info.txt":
            Path("d/tagmanifest-sha256.txt").write_bytes(sha)
            old = Path("d", path).read_bytes()
            for content in b"damaged", None:
                Path("d", path).unlink() if content is None else Path("d", path).write_bytes(content)
                self.refused(1, "restore", "d", "--from", "less")
            Path("d", path).write_bytes(old)

    def test_a_copy_made_again_of_damaged_files_certifies_nothing(self):
        """Its payload manifests came into the bag; the tag manifests of the bag still tell it."""
        files = self.new_bag("d", ["x"])
        others = {path: it for path, it in files.items() if "manifest-" not in path}
        self.write("again", {**others, "data/x": b"damaged"})
        for manifest in "manifest-md5.txt", "manifest-sha256.txt":
            Path("d", manifest).write_bytes(Path("again", manifest).read_bytes())
        said = self.refused(1, "restore", "d", "--from", "again").said
        self.assertIn("no file is replaced that differs by manifest-sha256.txt alone: restore manifest-sha256.txt first", said)
        Path("d/data/x").write_bytes(b"damaged")
        self.refused(1, "restore", "d", "--from", "again")
        Path("d/tagmanifest-md5.txt").unlink()
        self.refused(1, "restore", "d", "--from", "again")

    def test_takes_no_tag_manifest_that_is_damaged(self):
        """That of the first copy is cut off, and the bag with it has fewer faults; that of the second is whole."""
        files = self.new_bag("d", ["x"])
        for copy in "cut", "copy":
            shutil.copytree("d", copy)
        name = "tagmanifest-sha256.txt"
        Path("d", name).write_bytes(b"no\nmanifest\n")
        Path("cut", name).write_bytes(files[name][:60])
        self.refused(1, "restore", "d", "--from", "cut")
        self.assertIn(f"{name} is now that of copy\n", self.ends(0, "restore", "d", "--from", "cut", "--from", "copy").said)
        self.assertEqual(content_of("d"), files)

    def test_says_how_a_valid_bag_differs_from_copies(self):
        files = self.new_bag("d", ["x"])
        shutil.copytree("d", "copy")
        self.assertEqual(self.refused(0, "restore", "d", "--from", "copy").said, "")
        shutil.rmtree("d")
        files = {path: it for path, it in files.items() if "manifest-" not in path}
        del files["meta/notes.xml"]
        self.write("d", {**files, "bag-info.txt": b"Contact-Name: Eve\n", "new": b""}, ["sha256"])
        with tarfile.open("copy.tar", "w") as tar:
            tar.add("copy")
        for name in "copy", "copy.tar":
            ended = self.refused(0, "restore", "d", "--from", name)
            self.assertTrue(ended.out.endswith("/d is valid\n"))
            says = ["another bag-info.txt", "manifest-md5.txt, and the bag hasn't", "meta/notes.xml, and the bag hasn't", "no new"]
            says += ["tagmanifest-md5.txt, and the bag hasn't", "another tagmanifest-sha256.txt"]
            self.assertEqual(ended.said.splitlines(), [f"bagit-keep: {name} has {it}" for it in says])
        with tarfile.open("damaged.tar", "w") as tar:
            tar.add("copy/data", "copy/data")
        Path("damaged.tar").write_bytes(Path("damaged.tar").read_bytes().rstrip(b"\0"))
        said = self.refused(0, "restore", "d", "--from", "damaged.tar").said
        self.assertEqual((said.count("\n"), "isn't read whole" in said), (1, True), said)

    @unittest.skipUnless(os.environ.get("SMALL_DISK"), "there is no small disk")
    def test_restores_nothing_where_a_disk_is_mounted(self):
        self.new_bag("copy", ["x"])
        disk = os.environ["SMALL_DISK"]
        shutil.copytree("copy", disk, dirs_exist_ok=True)
        Path(disk, "data/x").write_bytes(b"damaged")
        said = self.refused(3, "restore", disk, "--from", "copy").said
        self.assertIn("is where a disk is mounted", said)
        self.assertEqual([it for it in os.listdir(os.path.dirname(disk)) if ".kept" in it or ".new" in it], [])
        for name in os.listdir(disk):
            path = join(disk, name)
            shutil.rmtree(path) if os.path.isdir(path) else os.unlink(path)

    def test_restores_out_of_the_copies_that_can_be_read(self):
        before = self.new_bag("d", ["x", "y"])
        for copy in "copy", "less":
            shutil.copytree("d", copy)
        with tarfile.open("copy.tar", "w") as tar:
            tar.add("d")
        with tarfile.open("copy.tar") as tar:
            at = tar.getmember("d/data/y").offset
        os.makedirs("no-bag/in")
        Path("file.pdf").write_bytes(b"%PDF-1.7")
        unusable = ["--from=nowhere", "--from=no-bag", "--from=file.pdf", "--from=d/bagit.txt"]
        for name in "d", "less":
            os.unlink(f"{name}/data/y")
        whole = Path("copy.tar").read_bytes()
        for begin, why in (whole[:at] + b"\xff", "damaged"), (whole[:at] + bytes(512), "after its end"), (whole[:at], "cut off"):
            Path("damaged.tar").write_bytes(begin + whole[len(begin):] * (why != "cut off"))
            said = self.refused(3, "restore", "d", "--from", "damaged.tar").said
            self.assertIn("damaged.tar isn't read whole: ", said)
            self.assertIn(why, said)
            self.assertIn("data/y isn't in what could be read of the copies", said)
            self.assertNotIn("no copy has", said)
        for words in unusable, unusable[:1]:
            self.refused(2, "restore", "d", *words)
        said = self.refused(3, "restore", "d", *unusable, "--from", "less").said
        self.assertIn("data/y isn't in what could be read of the copies", said)
        self.assertIn("no copy has data/y", self.refused(1, "restore", "d", "--from", "less").said)
        ended = self.ends(0, "restore", "d", *unusable, "--from", "damaged.tar", "--from", "copy")
        for word in unusable:
            self.assertIn(f"{word[7:]} isn't used: ", ended.said)
        self.assertEqual(content_of("d"), before)

    def test_restores_into_no_other_place(self):
        files = self.new_bag("d", ["x"])
        for algorithm in "md5", "sha256":
            with open(f"d/manifest-{algorithm}.txt", "a") as manifest:
                for path in "data/../../evil", "data/b/in", "data/in":
                    manifest.write(f"{digest(b'evil', algorithm)}  {path}\n")
        shutil.copytree("d", "elsewhere/copy")
        for path in "evil", "copy/data/in2":
            Path("elsewhere", path).write_bytes(b"evil")
        shutil.rmtree("elsewhere/copy/data/in")
        os.unlink("elsewhere/copy/data/b")
        Path("elsewhere/copy/data/b").mkdir()
        for path in "data/b/in", "data/in":
            Path("elsewhere/copy", path).write_bytes(b"evil")
        self.ends(1, "restore", "d", "--from", "elsewhere/copy")
        self.assertFalse(lexists("evil"))
        self.assertEqual(self.payload("d"), {path[5:]: it for path, it in files.items() if path.startswith("data/")})

    @unittest.skipIf(os.geteuid(), "only root can be another user")
    def test_restores_what_cannot_be_read(self):
        before = self.new_bag("d", ["x", "y"])
        shutil.copytree("d", "copy")
        for above, folders, files in os.walk("."):
            for name in [".", *folders, *files]:
                os.chown(join(above, name), NOBODY, NOBODY)
        os.chmod(".", 0o755)
        for name in "x", "y":
            os.chmod(f"d/data/{name}", 0)
        os.chmod("copy/data/x", 0)
        said = self.ends(3, "restore", "d", "--from", "copy", user=NOBODY).said
        self.assertIn("copy: data/x isn't read: ", said)
        self.assertIn("/d/data/x: permission denied\n", said)
        self.assertIn("data/x can't be read, and what comes after it isn't checked: move it away", said)
        self.assertNotIn("no copy has", said)
        os.chmod("copy/data/x", 0o644)
        os.mkdir("closed", 0)
        said = self.ends(0, "restore", "d", "--from", "closed", "--from", "copy", user=NOBODY).said
        self.assertIn("closed isn't used: Permission denied", said)
        self.assertEqual(content_of("d"), before)


def tearDownModule():
    print("\n{kills} kills at random, {steps} before a step".format(**counts), file=sys.stderr)


if __name__ == "__main__":
    unittest.main()
