"""Runs of a stand-in for `bagit`, which ends in every way."""
import os
import signal
import subprocess
import sys
import tempfile
import threading
import time
import tracemalloc
import unittest
from importlib import reload
from pathlib import Path
from typing import List, Optional
from unittest import mock

from bagitkeep import audit, check, go_round, keeping, supported
from bagitkeep.lines import Closing, Report
from bagitkeep.messages import Refused
from bagitkeep.program import (
    LONGEST_WAIT,
    Asked,
    Ended,
    Program,
    Stopped,
    Verdict,
    find,
    named,
    verdict_of,
)

FAULT = "601 payload-file-missing data/a md5 - -"

ENDS_WELL = {
    "echo d is valid": Verdict(0, "d is valid", 0),
    f"echo {FAULT}; echo d has faults: 1; exit 1": Verdict(
        1, "d has faults: 1", 1
    ),
    f"echo {FAULT}; echo d unread data/b device, faults: 1; exit 3": Verdict(
        3, "d unread data/b device, faults: 1", 1
    ),
}

ENDS_WRONG = {
    "exit 0": "ended with 0, without its closing line",
    "exit 1": "ended with 1, without its closing line",
    "exit 3": "ended with 3",
    "echo bagit: out of memory >&2; exit 3": (
        "ended with 3: bagit: out of memory"
    ),
    "printf '\\033[31m' >&2; exit 2": "ended with 2: %1B[31m",
    "kill -9 $$": "was killed by signal 9",
    "echo d is valid; kill -15 $$": "was killed by signal 15",
    "echo d is valid; exit 1": "ended with 1, without its closing line",
    "echo d is valid; exit 3": "ended with 3",
    "printf 'd is valid'": "ended with 0, without its closing line",
    "echo d is complete": "ended with 0, without its closing line",
    "echo d made": "ended with 0, without its closing line",
    "echo e is valid": "ended with 0, without its closing line",
    "echo d is valid; echo d is valid": (
        "ended with 0, without its closing line"
    ),
    f"echo {FAULT}; echo d is valid": "ended with 0, without its closing line",
    f"echo {FAULT}; echo d has faults: 1": (
        "ended with 0, without its closing line"
    ),
    f"echo {FAULT}; echo d has faults: 2; exit 1": (
        "ended with 1, without its closing line"
    ),
    f"echo {FAULT}; echo d stopped, faults: 1; exit 1": (
        "ended with 1, without its closing line"
    ),
    "echo d rest done, faults: 0; exit 1": (
        "ended with 1, without its closing line"
    ),
    "echo d unread data/a device, faults: 0": (
        "ended with 0, without its closing line"
    ),
}


class Judged(unittest.TestCase):
    """A verdict is a status and the closing line that belongs to it."""

    def test_one_pair_for_each_status(self) -> None:
        closings = {
            Closing("d", "is valid"): 0,
            Closing("d", "has faults", 1): 1,
            Closing("d", "unread", 1, "a", "device"): 3,
            Closing("d", "is complete"): None,
            Closing("e", "is valid"): None,
            Closing("d", "made"): None,
            Closing("d", "stopped", 1): None,
            None: None,
        }
        for closing, wanted in closings.items():
            report = Report(closing and closing.faults or 0, closing)
            for status in (*range(-20, 256), None):
                verdict = verdict_of(Ended(status), report, "d", Asked())
                is_answer = status == wanted and wanted is not None
                self.assertEqual(
                    verdict.status, wanted if is_answer else 3, verdict
                )
                if verdict.status != 3:
                    self.assertEqual(verdict.result, str(closing))

    def test_each_depth_has_its_line(self) -> None:
        ends = {
            "full": "is valid",
            "completeness-only": "is complete",
            "fast": "agrees with its oxum",
            "declaration-only": "has a good declaration",
        }
        for depth in ends:
            for other, end in ends.items():
                report = Report(0, Closing("d", end))
                verdict = verdict_of(Ended(0), report, "d", Asked(depth))
                self.assertEqual(verdict.status == 0, depth == other)


class Runs(unittest.TestCase):
    def setUp(self) -> None:
        folder = tempfile.TemporaryDirectory()
        self.addCleanup(folder.cleanup)
        self.folder = Path(folder.name)

    def program(self, script: str) -> Program:
        path = self.folder / "bagit"
        path.write_text(f"#!/bin/bash\n{script}\n")
        path.chmod(0o755)
        program = Program(str(path))
        self.addCleanup(program.stop)
        return program

    def check(self, script: str, seconds: Optional[float] = None) -> Verdict:
        with tempfile.TemporaryFile() as out:
            return self.program(script).check("d", Asked(), out, seconds)

    def test_answers(self) -> None:
        for script, verdict in ENDS_WELL.items():
            self.assertEqual(self.check(script), verdict, script)

    def test_what_is_no_answer(self) -> None:
        for script, result in ENDS_WRONG.items():
            verdict = self.check(script)
            self.assertEqual(verdict.status, 3, script)
            self.assertEqual(verdict.result, f"bagit {result}", script)

    def test_no_program(self) -> None:
        with tempfile.TemporaryFile() as out, Program("/nowhere") as program:
            verdict = program.check("d", Asked(), out)
        result = "bagit couldn't be run: No such file or directory"
        self.assertEqual(verdict, Verdict(3, result, 0))
        self.assertIsNone(find("/nowhere"))

    def test_no_status_is_had_where_sigchld_is_ignored(self) -> None:
        old = signal.signal(signal.SIGCHLD, signal.SIG_IGN)
        self.addCleanup(signal.signal, signal.SIGCHLD, old)
        result = "bagit couldn't be run: SIGCHLD is ignored here"
        for script in "echo d is valid", "echo d is valid; exit 3":
            self.assertEqual(self.check(script), Verdict(3, result, 0))

    def test_arguments(self) -> None:
        asked = Asked("fast", True, "-p.json")
        with tempfile.TemporaryFile() as out:
            self.program('printf "%s|" "$@"').check("-d", asked, out)
            out.seek(0)
            words = "--validate|--fast|--clashes|--profile|-p.json|--|-d|"
            self.assertEqual(out.read().decode(), words)

    def test_name_that_is_not_utf_8(self) -> None:
        odd = os.fsencode(self.folder) + b"/caf\xe9"
        os.mkdir(odd)
        self.assertEqual(named(odd), (".", odd))
        with tempfile.TemporaryFile() as out:
            script = self.program('pwd >&2; echo "${!#} is valid"')
            verdict = script.check(odd, Asked(), out)
        self.assertEqual(verdict, Verdict(0, ". is valid", 0))

    def test_time_out(self) -> None:
        verdict = self.check("sleep 60; echo d is valid", 0.2)
        result = "bagit was killed after 0.2 seconds"
        self.assertEqual(verdict, Verdict(3, result, 0))

    def test_times_that_are_too_long(self) -> None:
        longest = LONGEST_WAIT + 1.0
        for seconds in LONGEST_WAIT, longest, 1e30, float("inf"):
            verdict = self.check("sleep 0.1; echo d is valid", seconds)
            self.assertEqual(verdict, Verdict(0, "d is valid", 0))
        words = ["round", "bag", "--timeout"]
        text = str(LONGEST_WAIT)
        asked = go_round.read_words([*words, text])
        self.assertEqual(asked.timeout, LONGEST_WAIT)
        for text in str(LONGEST_WAIT + 1), "9" * 18, "0":
            with self.assertRaisesRegex(Refused, f"--timeout.*{text}"):
                go_round.read_words([*words, text])
        with self.assertRaisesRegex(Refused, "--wait"):
            check.read_words(["bag", "report", "--wait", "9" * 18])
        with self.assertRaisesRegex(Refused, "--days"):
            audit.run(["register", "--days", "9" * 18])
        with self.assertRaisesRegex(Refused, "--every"):
            keeping.init(["register", "/", "--every", "9" * 18])

    def test_time_out_of_what_has_ended_and_left_another(self) -> None:
        pid = self.folder / "pid"
        verdict = self.check(f"sleep 60 & echo $! >{pid}; echo d is valid", 1)
        result = "bagit was killed after 1 seconds"
        self.assertEqual(verdict, Verdict(3, result, 0))
        process = Path("/proc") / pid.read_text().strip() / "stat"
        until = time.monotonic() + 20
        while process.exists() and " Z " not in process.read_text():
            self.assertLess(time.monotonic(), until, "it goes on")
            time.sleep(0.01)

    def test_stop(self) -> None:
        program = self.program("sleep 60; echo d is valid")
        threading.Timer(0.3, program.stop).start()
        with tempfile.TemporaryFile() as out:
            verdict = program.check("d", Asked(), out)
            self.assertEqual(verdict.result, "bagit was killed by signal 9")
            self.assertEqual(program.running, set())
            with self.assertRaises(Stopped):
                program.check("d", Asked(), out)

    def test_none_goes_on_without_its_parent(self) -> None:
        pids = self.folder / "pids"
        sleeper = "sleep 60 & echo $! >>pids; setsid sleep 60 & echo $! >>pids"
        self.program(f"cd {self.folder}; {sleeper}; echo $$ >>pids; wait")
        code = (
            "import sys, tempfile\n"
            "from bagitkeep.program import Asked, Program\n"
            "out = tempfile.TemporaryFile()\n"
            "Program(sys.argv[1]).check('d', Asked(), out)\n"
        )
        words = [sys.executable, "-c", code, str(self.folder / "bagit")]
        parent = subprocess.Popen(words, cwd=Path(__file__).parents[1])
        while not pids.exists() or len(pids.read_text().splitlines()) < 3:
            time.sleep(0.01)
        parent.send_signal(signal.SIGKILL)
        parent.wait()
        until = time.monotonic() + 20
        for pid in pids.read_text().split():
            process = Path("/proc") / pid / "stat"
            while process.exists() and " Z " not in process.read_text():
                self.assertLess(time.monotonic(), until, "it goes on")
                time.sleep(0.01)


class Several(unittest.TestCase):
    """What is done for each of some numbers, several at a time."""

    def test_each_once_and_so_many_at_a_time(self) -> None:
        for jobs, numbers in (1, [7]), (3, range(1, 50)), (9, [5, 2]):
            with Program("bagit") as program:
                most: List[int] = []

                def work(number: int) -> None:
                    most.append(len(program.at_work))
                    self.assertIn(number, program.at_work)
                    time.sleep(0.001)

                program.each(work, numbers, jobs)
            self.assertEqual(sorted(numbers), sorted(program.done))
            self.assertLessEqual(max(most), min(jobs, len(numbers)))
            self.assertEqual([], program.at_work)

    def test_one_that_fails_ends_all(self) -> None:
        for jobs in 1, 3:
            begun = []

            def work(number: int) -> None:
                begun.append(number)
                if number == 2:
                    raise ZeroDivisionError
                if number > 2:
                    program.stopped.wait(60)

            program = Program("bagit")
            with self.assertRaises(ZeroDivisionError):
                program.each(work, range(1, 1000), jobs)
            self.assertTrue(program.stopped.is_set())
            self.assertLess(len(begun), 10)

    def test_they_take_no_memory_before_their_turn(self) -> None:
        numbers = range(1, 10_001)
        with Program("bagit") as program:
            tracemalloc.start()
            self.addCleanup(tracemalloc.stop)
            program.each(lambda number: None, numbers, 2)
            peak = tracemalloc.get_traced_memory()[1]
        self.assertLess(peak, 200 * len(numbers))


class Pythons(unittest.TestCase):
    def test_one_that_is_too_old_is_said(self) -> None:
        with mock.patch.object(sys, "version_info", (3, 8, 18)):
            with self.assertRaisesRegex(ImportError, "3.9 or newer, .* 3.8$"):
                reload(supported)
        reload(supported)


if __name__ == "__main__":
    unittest.main()
