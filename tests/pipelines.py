#!/usr/bin/env python3
"""What tests/pipelines.sh runs: programs that call `bagitkeep.bagit`, over the built programs.

usage: tests/pipelines.py

The variables BAGIT and BAGIT_RENEW name the programs. What a bag is follows from how it is made here, and what is said of
it from bagit-python's documents.
"""
import json
import os
import shutil
import signal
import subprocess
import sys
import tempfile
import threading
import time
import unittest
from contextlib import suppress
from pathlib import Path
from unittest.mock import patch

ROOT = Path(__file__).resolve().parents[1]
COMPANIONS = ROOT / "companions"
sys.path.insert(0, str(COMPANIONS))

from bagitkeep import bagit  # noqa: E402

HELLO = {"md5": "b1946ac92492d2347c6235b4d2611184", "sha1": "f572d396fae9206628714fb2ce00f72e94f2258f"}
OTHER_HELLO = "09f7e02f1290be211da707a266f153b3"
NAMES = [b"-x", b"--validate", b"new\nline", b"\x1b[2J", b"caf\xe9", b" ", b"%41", b"d is valid", "\u00e9".encode(), b"a" * 255]
OLD = "BagIt-Version: 0.97\nTag-File-Character-Encoding: UTF-8\n"
LARGE = 1 << 26
DELAYS = 0, 0.01, 0.05, 0.2
WORKERS, TIMES = 3, 2

# Adds values to a list, and begins anew where another process was there.
SAVER = """
import sys, time
from bagitkeep import bagit
for number in range(int(sys.argv[3])):
    while True:
        bag = bagit.Bag(sys.argv[1])
        bag.info["List"].append(f"{sys.argv[2]}.{number}")
        try:
            bag.save()
            break
        except bagit.BagError as error:
            if "altered" not in str(error) and "another process" not in str(error):
                raise
            time.sleep(0.02)
"""


class Pipelines(unittest.TestCase):
    def setUp(self):
        folder = tempfile.TemporaryDirectory()
        self.addCleanup(folder.cleanup)
        self.folder = Path(os.path.realpath(folder.name))

    def new_bag(self, name="b", size=0, **how):
        """A new bag, also with a file of this size."""
        folder = os.path.join(os.fsencode(self.folder), os.fsencode(name))
        os.makedirs(os.path.join(folder, b"in"))
        if size:
            with open(os.path.join(folder, b"large"), "wb") as file:
                file.truncate(size)
        for path, text in (b"README", b"hello\n"), (b"in/empty", b""):
            with open(os.path.join(folder, path), "wb") as file:
                file.write(text)
        return bagit.make_bag(folder, **{"checksums": ["md5"], **how})

    def error(self, bag, **how):
        with self.assertRaises(bagit.BagValidationError) as raised:
            bag.validate(**how)
        self.assertIs(bag.is_valid(**how), False)
        return raised.exception

    def program(self, name, script):
        """A program in place of one, which may run that: it is the variable's value, in quotes."""
        path = self.folder / f"{name}-instead"
        path.write_text("#!/bin/bash\n" + script.format(f"'{os.environ[name]}'"))
        path.chmod(0o755)
        return patch.dict(os.environ, {name: str(path)})

    def test_a_session(self):
        people = ["Jane Doe", "Joe Doe"]
        bag = self.new_bag(bag_info={"Contact-Name": people, "Bag-Count": 1}, checksums=["md5", "sha1"], processes=4)
        self.assertEqual(bag.info["Contact-Name"], people)
        self.assertEqual((bag.info["Bag-Count"], bag.info["Payload-Oxum"]), ("1", "6.2"))
        self.assertEqual(bag.entries["data/README"], HELLO)
        self.assertEqual(sorted(bag.payload_files()), ["data/README", "data/in/empty"])
        tag_files = {"bag-info.txt", "bagit.txt", "manifest-md5.txt", "manifest-sha1.txt"}
        self.assertEqual(set(bag.tagfile_entries()), tag_files)
        for how in {}, {"fast": True}, {"completeness_only": True}, {"processes": 4}:
            self.assertIs(bag.validate(**how), True)
        bag.info["Internal-Sender-Description"] = "Updated on 2014-06-28.\nAgain."
        bag.info["Contact-Name"].append("Ann")
        bag.save()
        again = bagit.Bag(bag.path)
        self.assertEqual(again.info, bag.info)
        self.assertEqual(again.info["Internal-Sender-Description"], "Updated on 2014-06-28.\nAgain.")
        self.assertEqual(again.info["Contact-Name"], ["Jane Doe", "Joe Doe", "Ann"])
        self.assertTrue(again.is_valid())
        again.algorithms.append("sha256")
        again.save(manifests=True)
        self.assertEqual(bagit.Bag(bag.path).algorithms, ["md5", "sha1", "sha256"])

    def test_damage(self):
        bag, data = self.new_bag(), self.folder / "b" / "data"
        (data / "README").write_text("Hello\n")
        error = self.error(bag)
        text = f'data/README md5 validation failed: expected="{HELLO["md5"]}" found="{OTHER_HELLO}"'
        self.assertEqual(str(error), f"Bag validation failed: {text}")
        self.assertIsInstance(error.details[0], bagit.ChecksumMismatch)
        self.assertTrue(bag.is_valid(fast=True) and bag.is_valid(completeness_only=True))
        (data / "README").rename(data / "extra")
        error = self.error(bag, completeness_only=True)
        missing = "data/README exists in manifest but was not found on filesystem"
        extra = "data/extra exists on filesystem but is not in the manifest"
        self.assertEqual(str(error), f"Bag is incomplete: {missing}; {extra}")
        self.assertEqual(bag.compare_manifests_with_fs(), (["data/README"], ["data/extra"]))
        (data / "extra").write_text("longer!")
        text = "Payload-Oxum validation failed. Expected 2 files and 6 bytes but found 2 files and 7 bytes"
        self.assertEqual(self.error(bag, fast=True).message, text)
        shutil.rmtree(data)
        text = f"Expected data directory {data} does not exist"
        self.assertEqual(self.error(bag).message, text)
        (self.folder / "b" / "manifest-md5.txt").unlink()
        self.assertEqual({it.code for it in bag.report().faults} & {201, 202}, {201, 202})

    def test_a_path_that_is_named_again(self):
        bag = self.new_bag()
        with open(f"{bag.path}/manifest-md5.txt", "a") as manifest:
            manifest.write(f"{OTHER_HELLO}  data/README\n")
        details = self.error(bag).details
        conflicts = [it for it in details if isinstance(it, bagit.BagManifestConflict)]
        self.assertEqual([(it.path, it.algorithm) for it in conflicts], [("data/README", "md5")])

    def test_faults_are_those_of_the_report(self):
        bag = self.new_bag()
        (self.folder / "b" / "data" / "in" / "new").write_text("x")
        os.truncate(f"{bag.path}/bagit.txt", 30)
        words = [os.environ["BAGIT"], "--validate", bag.path]
        lines = subprocess.run(words, capture_output=True, text=True).stdout.splitlines()
        report = bag.report()
        self.assertEqual([str(fault) for fault in report.faults], lines[:-1])
        self.assertEqual(report.result, lines[-1])
        with self.assertRaises(bagit.BagError):
            bagit.Bag(bag.path)

    def test_version_0_97(self):
        bag = self.new_bag()
        (self.folder / "b" / "bagit.txt").write_text(OLD)
        (self.folder / "b" / "tagmanifest-md5.txt").unlink()
        bag = bagit.Bag(bag.path)
        self.assertEqual((bag.version, bag.version_info), ("0.97", (0, 97)))
        self.assertTrue(bag.validate())
        bag.info["A"] = "x"
        bag.save()
        self.assertEqual((bag.version, bagit.Bag(bag.path).info["A"]), ("0.97", "x"))
        self.assertTrue(bag.validate())
        bag.save(to_1_0=True)
        self.assertEqual((bag.version, bagit.Bag(bag.path).info["A"]), ("1.0", "x"))

    def test_odd_names(self):
        for name in NAMES:
            value = name.decode("utf-8", "replace").strip()
            bag = self.new_bag(name, bag_info={"Contact-Name": value, "X": ["-", "=", value]})
            path = os.path.join(os.fsencode(self.folder), name)
            self.assertEqual(os.fsencode(bag.path), path)
            self.assertTrue(bag.validate(), name)
            bag.info["-Y"] = "--set=x"
            bag.save()
            self.assertTrue(bagit.Bag(path).is_valid())
            self.assertEqual(bagit.Bag(path).info["-Y"], "--set=x")
            with open(os.path.join(path, b"data", b"README"), "wb") as file:
                file.write(b"Hello\n")
            self.assertTrue(all(str(it).isprintable() for it in self.error(bag).details))
            with self.assertRaises(bagit.BagError):
                bag.save(manifests=True)

    def test_odd_names_in_the_payload(self):
        folder = os.path.join(os.fsencode(self.folder), b"b")
        os.mkdir(folder)
        names = [name for name in NAMES if name != b"caf\xe9"]
        for name in names:
            with open(os.path.join(folder, name), "wb") as file:
                file.write(name)
        bag = bagit.make_bag(folder)
        self.assertTrue(bag.validate())
        paths = {f"data/{name.decode()}" for name in names}
        self.assertEqual((set(bag.payload_entries()), set(bag.payload_files())), (paths, paths))
        shutil.rmtree(os.path.join(folder, b"data"))
        os.mkdir(os.path.join(folder, b"data"))
        details = self.error(bag).details
        missing = {it.path for it in details if isinstance(it, bagit.FileMissing)}
        self.assertEqual(missing, paths)
        with open(os.path.join(folder, b"data", b"caf\xe9"), "wb"), self.assertRaises(bagit.BagNotChecked) as raised:
            bag.is_valid()
        self.assertEqual(raised.exception.unread.cause, "name")

    def test_what_cannot_be_read(self):
        bag = self.new_bag()
        os.symlink("README", f"{bag.path}/data/link")
        for call in bag.validate, bag.is_valid, bag.compare_manifests_with_fs:
            with self.assertRaises(bagit.BagNotChecked):
                call()
        self.assertEqual(bag.unread.cause, "special")
        with self.assertRaises(bagit.BagError):
            bag.save()

    def test_refused_values_change_nothing(self):
        bag = self.new_bag(bag_info={"A": ["1", "2"]})
        files = {path: path.read_bytes() for path in Path(bag.path).glob("*.txt")}
        for label, value in ("A", " x"), ("A", "x\ry"), ("B", "x\n\ny"), ("a:b", "x"), ("Payload-Oxum", "0.0"), ("L", "x" * (1 << 18)):
            other = bagit.Bag(bag.path)
            other.info[label] = value
            with self.assertRaises(bagit.BagError):
                other.save()
        self.assertEqual({path: path.read_bytes() for path in Path(bag.path).glob("*.txt")}, files)

    def at_work(self):
        """The number of the program's process, once it is at work."""
        path, until = self.folder / "pid", time.monotonic() + 60
        while not path.exists() or not path.read_text().endswith("\n"):
            self.assertLess(time.monotonic(), until)
            time.sleep(0.001)
        return int(path.read_text())

    def kill(self, number, delay):
        pid = self.at_work()
        time.sleep(delay)
        with suppress(ProcessLookupError):
            os.kill(pid, number)

    def test_a_killed_check_is_no_verdict(self):
        bag, killed = self.new_bag(size=LARGE), 0
        for delay in DELAYS:
            number = signal.SIGTERM if delay else signal.SIGKILL
            with self.program("BAGIT", f"echo $$ >{self.folder}/pid; exec {{}} \"$@\""):
                killer = threading.Thread(target=self.kill, args=(number, delay))
                killer.start()
                try:
                    self.assertTrue(bag.is_valid())
                except bagit.BagNotChecked as error:
                    self.assertIn(f"killed by signal {number:d}", str(error))
                    killed += 1
                killer.join()
            (self.folder / "pid").unlink()
        self.assertGreater(killed, 0)

    def test_no_check_goes_on_without_its_pipeline(self):
        bag = self.new_bag(size=LARGE)
        code = "import sys; from bagitkeep import bagit; bagit.Bag(sys.argv[1]).validate()"
        with self.program("BAGIT", f"echo $$ >{self.folder}/pid; {{}} \"$@\"; sleep 60"):
            pipeline = subprocess.Popen([sys.executable, "-c", code, bag.path], cwd=COMPANIONS)
            process = Path("/proc", str(self.at_work()), "stat")
        pipeline.kill()
        pipeline.wait()
        until = time.monotonic() + 50
        while process.exists() and " Z " not in process.read_text():
            self.assertLess(time.monotonic(), until, "it goes on")
            time.sleep(0.01)

    def test_a_program_that_starves(self):
        bag = self.new_bag()
        for script in "ulimit -v 3000; exec {} \"$@\"", "exec {} \"$@\" >/dev/full", "exec {} \"$@\" >/dev/null", "exec {} \"$@\" >&-":
            with self.program("BAGIT", script), self.assertRaises(bagit.BagNotChecked, msg=script):
                bag.is_valid()
            bag.info["A"] = script
            with self.program("BAGIT_RENEW", script), self.assertRaises(bagit.BagError, msg=script):
                bag.save()

    def test_savers_at_once_lose_nothing(self):
        bag = self.new_bag(bag_info={"List": ["a", "b"]})
        savers = [
            subprocess.Popen([sys.executable, "-c", SAVER, bag.path, str(number), str(TIMES)], cwd=COMPANIONS)
            for number in range(WORKERS)
        ]
        self.assertEqual([saver.wait() for saver in savers], [0] * WORKERS)
        values = {f"{number}.{time}" for number in range(WORKERS) for time in range(TIMES)}
        found = bagit.Bag(bag.path)
        self.assertEqual(found.info["List"][:2], ["a", "b"])
        self.assertEqual(sorted(found.info["List"][2:]), sorted(values))
        self.assertTrue(found.is_valid())

    def test_info(self):
        bag = self.new_bag(bag_info={"Contact-Name": "Ann\nBo", "Bagging-Date": "2026-01-02"})
        words = [sys.executable, "-m", "bagitkeep", "info", "--json", bag.path]
        said = json.loads(subprocess.run(words, capture_output=True, check=True, cwd=COMPANIONS).stdout)
        elements = {tuple(element) for element in said.pop("elements")}
        self.assertEqual(elements, {("Contact-Name", "Ann\nBo"), ("Bagging-Date", "2026-01-02"), ("Payload-Oxum", "6.2")})
        self.assertRegex(said.pop("seal"), "^[0-9a-f]{128}$")
        manifests = [("manifest-md5.txt", 2), ("tagmanifest-md5.txt", 3)]
        manifests = [{"file": name, "algorithm": "md5", "entries": count} for name, count in manifests]
        wanted = {"bag": bag.path, "version": "1.0", "encoding": "UTF-8", "manifests": manifests, "files": 2, "bytes": 6}
        self.assertEqual(said, wanted)


if __name__ == "__main__":
    unittest.main()
