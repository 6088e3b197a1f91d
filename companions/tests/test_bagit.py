"""Bags over stand-ins for the programs, which end in every way."""
import fcntl
import os
import tempfile
import threading
import time
import unittest
from pathlib import Path
from typing import Any, List
from unittest.mock import patch

from bagitkeep import bagit
from bagitkeep.bagit import absolute, version_info_of

NOTHING = "d41d8cd98f00b204e9800998ecf8427e"
DECLARATION = "BagIt-Version: {}\nTag-File-Character-Encoding: UTF-8\n"
MISSING = "601 payload-file-missing data/gone md5 - -"
OTHER = "603 payload-file-not-listed data/new md5 - -"

NO_ANSWER = (
    "exit 0",
    "exit 1",
    "exit 2",
    "exit 3",
    "kill -9 $$",
    'echo "$n is valid"; kill -9 $$',
    'echo "$n is valid"; exit 1',
    'echo "$n is valid"; exit 3',
    'printf "$n is valid"',
    'echo "$n is complete"',
    'echo "$n made"',
    'echo "other is valid"',
    'echo "$n is valid"; echo "$n is valid"',
    f'echo "{MISSING}"; echo "$n is valid"',
    f'echo "{MISSING}"; echo "$n has faults: 1"',
    f'echo "{MISSING}"; echo "$n has faults: 2"; exit 1',
    f'echo "{MISSING}"; echo "$n stopped, faults: 1"; exit 1',
    'echo "$n unread - device, faults: 0"',
)


class Bags(unittest.TestCase):
    def setUp(self) -> None:
        folder = tempfile.TemporaryDirectory()
        self.addCleanup(folder.cleanup)
        self.folder = Path(os.path.realpath(folder.name))
        self.bag = self.folder / "b"
        (self.bag / "data" / "in").mkdir(parents=True)
        self.put("bagit.txt", DECLARATION.format("1.0"))
        programs = {"BAGIT": "bagit", "BAGIT_RENEW": "bagit-renew"}
        paths = {it: str(self.folder / name) for it, name in programs.items()}
        environment = patch.dict(os.environ, paths)
        environment.start()
        self.addCleanup(environment.stop)

    def put(self, name: str, text: str) -> None:
        (self.bag / name).write_text(text, "utf-8")

    def program(self, script: str, name: str = "bagit") -> None:
        """A stand-in, which keeps its words, and knows the bag's name, n."""
        path = self.folder / name
        words = f'printf "%s\\0" "$@" >>{self.folder}/words; n=${{!#}}'
        path.write_text(f"#!/bin/bash\n{words}\n{script}\n")
        path.chmod(0o755)

    def words(self) -> List[str]:
        return (self.folder / "words").read_text().split("\0")[:-1]


class Opened(Bags):
    def refused(self, path: Any) -> str:
        with self.assertRaises(bagit.BagError) as raised:
            bagit.Bag(path)
        return str(raised.exception)

    def test_what_is_no_bag(self) -> None:
        path = self.folder / "none"
        text = f"Expected bagit.txt does not exist: {path}/bagit.txt"
        self.assertEqual(self.refused(str(path)), text)
        for odd in "", "\0", b"\xff", "\ud800", "\n\x1b[2J", "-x", "a" * 5000:
            self.assertTrue(self.refused(odd).isprintable())
        (self.bag / "bagit.txt").unlink()
        os.mkfifo(self.bag / "bagit.txt")
        self.assertIn("does not exist", self.refused(self.bag))

    def test_what_declares_too_little(self) -> None:
        self.put("bagit.txt", "BagIt-Version: 0.97\n")
        text = "Missing required tag in bagit.txt: Tag-File-Character-Encoding"
        self.assertEqual(self.refused(self.bag), text)
        self.put("bagit.txt", "")
        self.assertIn("BagIt-Version, Tag-File", self.refused(self.bag))
        (self.bag / "bagit.txt").write_bytes(b"\xff")
        self.assertIn("isn't UTF-8", self.refused(self.bag))

    def test_versions(self) -> None:
        for version in "2.0", "0.92":
            self.put("bagit.txt", DECLARATION.format(version))
            text = f"Unsupported bag version: {version}"
            self.assertEqual(self.refused(self.bag), text)
        for version in "1", "x", "1.0.0", "1.x", "\u0661.0":
            self.put("bagit.txt", DECLARATION.format(version))
            self.assertIn("MAJOR.MINOR", self.refused(self.bag))
        self.assertEqual(version_info_of("0.97"), (0, 97))

    def test_paths(self) -> None:
        for path in self.bag, str(self.bag), f"{self.bag}/":
            bag = bagit.Bag(path)
            self.assertEqual(bag.path, str(self.bag))
            self.assertEqual(str(bag), str(self.bag))
        self.assertEqual(bagit.Bag(os.fsencode(self.bag)).path, str(self.bag))

    def test_a_folder_above_a_link_is_that_of_the_system(self) -> None:
        (self.folder / "far" / "in").mkdir(parents=True)
        (self.folder / "link").symlink_to("far/in")
        path = f"{self.folder}/link/../b"
        self.assertEqual(absolute(path), f"{self.folder}/far/b")


class Shown(Bags):
    def setUp(self) -> None:
        super().setUp()
        info = "Contact-Name: Ann\nB: 1\nContact-Name: Bo\npayload-oxum: 0.1\n"
        self.put("bag-info.txt", info)
        self.put("manifest-md5.txt", f"{NOTHING.upper()} *data/in/a\n")
        self.put("tagmanifest-md5.txt", f"{NOTHING} x\n")
        self.put("tagmanifest-sha3256.txt", "0 x\n")
        self.put("data/in/a", "")

    def test_info(self) -> None:
        bag = bagit.Bag(self.bag)
        names = {"Contact-Name": ["Ann", "Bo"], "B": "1"}
        self.assertEqual(bag.info, {**names, "payload-oxum": "0.1"})
        self.assertTrue(bag.has_oxum())
        self.assertEqual(bag.version, "1.0")
        self.assertEqual(bag.version_info, (1, 0))
        self.assertEqual(bag.encoding, "UTF-8")
        (self.bag / "bag-info.txt").unlink()
        self.assertEqual(bagit.Bag(self.bag).info, {})
        self.assertFalse(bagit.Bag(self.bag).has_oxum())

    def test_info_that_cannot_be_read(self) -> None:
        (self.bag / "bag-info.txt").write_bytes(b"\xff")
        bag = bagit.Bag(self.bag)
        with self.assertRaises(bagit.BagError):
            bag.info
        (self.bag / "bag-info.txt").unlink()
        (self.bag / "bag-info.txt").symlink_to("/etc/hostname")
        with self.assertRaises(bagit.BagError):
            bag.info

    def test_old_rules(self) -> None:
        self.put("bag-info.txt", "A :1\n")
        self.assertEqual(bagit.Bag(self.bag).info, {})
        self.put("bagit.txt", DECLARATION.format("0.97"))
        self.assertEqual(bagit.Bag(self.bag).info, {"A": "1"})

    def test_entries(self) -> None:
        bag = bagit.Bag(self.bag)
        payload, tag = {"data/in/a": {"md5": NOTHING}}, {"x": {"md5": NOTHING}}
        self.assertEqual(bag.entries, {**payload, **tag})
        self.assertEqual(bag.payload_entries(), payload)
        self.assertEqual(bag.tagfile_entries(), tag)
        self.assertEqual(bag.algorithms, ["md5"])
        manifests = [f"{self.bag}/manifest-md5.txt"]
        self.assertEqual(list(bag.manifest_files()), manifests)
        tags = [f"{self.bag}/tagmanifest-md5.txt"]
        self.assertEqual(list(bag.tagmanifest_files()), tags)

    def test_payload_files(self) -> None:
        os.symlink("in", self.bag / "data" / "link")
        odd = b"data/caf\xe9", b"data/-x", b"data/\n"
        for name in odd:
            open(os.fsencode(self.bag) + b"/" + name, "w").close()
        found = sorted(map(os.fsencode, bagit.Bag(self.bag).payload_files()))
        wanted = sorted([*odd, b"data/in/a", b"data/link"])
        self.assertEqual(found, wanted)

    def test_payload_that_cannot_be_listed(self) -> None:
        bag = bagit.Bag(self.bag)
        (self.bag / "data").rename(self.bag / "gone")
        with self.assertRaises(bagit.BagError):
            list(bag.payload_files())

    def test_files_to_fetch(self) -> None:
        bag = bagit.Bag(self.bag)
        self.assertEqual(list(bag.fetch_entries()), [])
        self.put("fetch.txt", "http://h/a - data/a b\nhttp://h/b 3 ../b\n")
        entries = [("http://h/a", "-", "data/a b")]
        self.assertEqual(list(bag.fetch_entries()), entries)
        self.assertEqual(list(bag.files_to_be_fetched()), ["data/a b"])
        self.assertEqual(bag.compare_fetch_with_fs(), ["data/a b"])
        self.put("data/a b", "")
        self.assertEqual(bag.compare_fetch_with_fs(), [])

    def test_tag_files_that_are_missing(self) -> None:
        lines = f"{NOTHING}  bagit.txt\n{NOTHING}  notes.txt\n"
        self.put("tagmanifest-md5.txt", lines)
        bag = bagit.Bag(self.bag)
        self.assertEqual(list(bag.missing_optional_tagfiles()), ["notes.txt"])


class Checked(Bags):
    def test_valid(self) -> None:
        self.program('echo "$n is valid"')
        bag = bagit.Bag(self.bag)
        self.assertIs(bag.validate(4), True)
        self.assertIs(bag.is_valid(), True)
        report = bag.report()
        self.assertEqual((report.status, report.faults), (0, []))
        self.assertEqual(report.result, f"{self.bag} is valid")
        self.assertEqual(self.words()[:3], ["--validate", "--", str(self.bag)])

    def test_depths(self) -> None:
        bag = bagit.Bag(self.bag)
        self.program('echo "$n agrees with its oxum"')
        self.assertTrue(bag.validate(1, True))
        self.assertTrue(bag.is_valid(True, True))
        self.program('echo "$n is complete"')
        self.assertTrue(bag.validate(1, False, True))
        self.assertTrue(bag.is_valid(completeness_only=True))
        words = ["--fast", "--fast"] + ["--completeness-only"] * 2
        self.assertEqual(self.words()[1::4], words)
        for kind in {"fast": True}, {}:
            with self.assertRaises(bagit.BagNotChecked):
                bag.is_valid(**kind)

    def test_faults(self) -> None:
        faults = f'echo "{MISSING}"; echo "{OTHER}"'
        self.program(f'{faults}; echo "$n has faults: 2"; exit 1')
        bag = bagit.Bag(self.bag)
        with self.assertRaises(bagit.BagValidationError) as raised:
            bag.validate()
        missing, other = raised.exception.details
        self.assertIsInstance(missing, bagit.FileMissing)
        self.assertIsInstance(other, bagit.UnexpectedFile)
        self.assertIs(bag.is_valid(), False)
        report = bag.report()
        self.assertEqual(report.status, 1)
        self.assertEqual([it.code for it in report.faults], [601, 603])
        found = bag.compare_manifests_with_fs()
        self.assertEqual(found, (["data/gone"], ["data/new"]))

    def test_unread(self) -> None:
        line = "$n unread data/a%20b device, faults: 1"
        self.program(f'echo "{MISSING}"; echo "{line}"; exit 3')
        bag, unread = bagit.Bag(self.bag), bagit.Unread("data/a b", "device")
        for call in bag.validate, bag.is_valid, bag.compare_manifests_with_fs:
            with self.assertRaises(bagit.BagNotChecked) as raised:
                call()
            self.assertEqual(raised.exception.unread, unread)
            self.assertNotIsInstance(
                raised.exception, bagit.BagValidationError
            )
        report = bag.report()
        self.assertEqual((report.status, report.unread), (3, unread))
        self.assertEqual([it.code for it in report.faults], [601])
        self.assertEqual(bag.unread, unread)
        self.program('echo "$n is valid"')
        self.assertTrue(bag.is_valid())
        self.assertIsNone(bag.unread)

    def test_what_is_no_answer_raises(self) -> None:
        bag = bagit.Bag(self.bag)
        for script in NO_ANSWER:
            self.program(script)
            for call in bag.validate, bag.is_valid, bag.report:
                with self.assertRaises(bagit.BagNotChecked, msg=script):
                    call()

    def test_no_program(self) -> None:
        bag = bagit.Bag(self.bag)
        with self.assertRaises(bagit.BagNotChecked):
            bag.is_valid()
        (self.folder / "bagit").write_text("garbage")
        (self.folder / "bagit").chmod(0o755)
        with self.assertRaises(bagit.BagNotChecked):
            bag.is_valid()

    def test_profiles(self) -> None:
        self.program('echo unchecked Other%20key; echo "$n is valid"')
        bag = bagit.Bag(self.bag)
        report = bag.report(clashes=True, profile="p.json")
        self.assertEqual(report.unchecked, ["Other key"])
        words = ["--validate", "--clashes", "--profile", absolute("p.json")]
        self.assertEqual(self.words()[:4], words)

    def test_name_that_is_not_utf_8(self) -> None:
        odd = os.fsencode(self.folder) + b"/caf\xe9"
        os.rename(self.bag, odd)
        self.program('[[ $n == . ]] && pwd >&2 && echo ". is valid"')
        self.assertTrue(bagit.Bag(odd).is_valid())
        self.assertTrue(bagit.Bag(os.fsdecode(odd)).is_valid())

    def test_progress(self) -> None:
        self.put("bag-info.txt", "Payload-Oxum: 12.1\n")
        self.program('sleep 1.5; echo "$n is valid"')
        told: List[Any] = []

        def tell(read: int, size: int) -> None:
            told.append((size, read <= size, threading.current_thread()))

        self.assertTrue(bagit.Bag(self.bag).validate(progress=tell))
        self.assertEqual(set(told), {(12, True, threading.main_thread())})

    def test_what_progress_raises_ends_the_check(self) -> None:
        script = f"echo $$ >{self.folder}/pid; sleep 60"
        self.program(f'{script}; echo "$n is valid"')
        bag, begun = bagit.Bag(self.bag), time.monotonic()

        def tell(read: int, size: int) -> None:
            raise KeyError("enough")

        with self.assertRaises(KeyError):
            bag.validate(progress=tell)
        self.assertLess(time.monotonic() - begun, 50)
        pid = (self.folder / "pid").read_text().strip()
        self.assertFalse(Path("/proc", pid).exists())

    def test_time_out(self) -> None:
        self.program('sleep 60; echo "$n is valid"')
        with self.assertRaises(bagit.BagNotChecked):
            bagit.Bag(self.bag).is_valid(seconds=0.3)


class Saved(Bags):
    def setUp(self) -> None:
        super().setUp()
        self.info = "A: 1\nB: 2\nA: 3\nPayload-Oxum: 0.0\n"
        self.put("bag-info.txt", self.info)
        self.put("manifest-md5.txt", "")
        self.program('echo "$n renewed"', "bagit-renew")

    def refused(self, bag: bagit.Bag, **how: bool) -> str:
        with self.assertRaises(bagit.BagError) as raised:
            bag.save(**how)
        return str(raised.exception)

    def test_words(self) -> None:
        bag = bagit.Bag(self.bag)
        bag.info["A"].append("4")
        bag.info["New"] = 5
        del bag.info["B"]
        bag.save()
        words = ["--unset=B", "--set=A=1", "--set=A=3", "--set=A=4"]
        words += ["--set=New=5", "--", str(self.bag)]
        self.assertEqual(self.words(), words)

    def test_nothing_altered(self) -> None:
        bagit.Bag(self.bag).save()
        self.assertEqual(self.words(), ["--", str(self.bag)])

    def test_info_is_what_is_there_afterwards(self) -> None:
        text = "A: 9\nPayload-Oxum: 1.1\n"
        renew = f'printf "{text}" >$n/bag-info.txt; echo "$n renewed"'
        self.program(renew, "bagit-renew")
        bag = bagit.Bag(self.bag)
        info = bag.info
        info["A"] = "9"
        bag.save()
        self.assertEqual(info, {"A": "9", "Payload-Oxum": "1.1"})
        self.assertIs(bag.info, info)

    def test_another_info(self) -> None:
        bag = bagit.Bag(self.bag)
        bag.info = {"Payload-Oxum": "0.0", "C": "x"}
        bag.save()
        words = ["--unset=A", "--unset=B", "--set=C=x", "--", str(self.bag)]
        self.assertEqual(self.words(), words)

    def test_refusals(self) -> None:
        bag = bagit.Bag(self.bag)
        bag.info["A"] = "x"
        fault = f"fault {MISSING}"
        line = f"{self.bag} not renewed: {fault}"
        self.program(f'echo "$n not renewed: {fault}"; exit 1', "bagit-renew")
        self.assertEqual(self.refused(bag), line)
        self.assertEqual(bag.info["A"], "x")
        for script in (
            "exit 0",
            "exit 3",
            "kill -9 $$",
            'echo "$n renewed"; exit 1',
            'echo "$n renewed"; kill -9 $$',
            'printf "$n renewed"',
            'echo "other renewed"',
            'echo "$n not renewed: bad value"',
            'echo "$n renewed"; echo more',
        ):
            self.program(script, "bagit-renew")
            self.refused(bag)
        (self.folder / "bagit-renew").unlink()
        self.assertIn("no program", self.refused(bag))
        text = (self.bag / "bag-info.txt").read_text()
        self.assertEqual(text, self.info)

    def test_what_cannot_be_written_starts_nothing(self) -> None:
        for label, value in (
            ("A", "x "),
            ("A", "x\ry"),
            ("A", ["1", None]),
            ("A", b"x"),
            ("a:b", "x"),
            ("Payload-Oxum", "1.1"),
            ("N", "\0"),
        ):
            bag = bagit.Bag(self.bag)
            bag.info[label] = value
            self.refused(bag)
        bag = bagit.Bag(self.bag)
        del bag.info["Payload-Oxum"]
        self.refused(bag)
        self.assertFalse((self.folder / "words").exists())

    def test_altered_by_another(self) -> None:
        bag = bagit.Bag(self.bag)
        bag.info["A"] = "x"
        self.put("bag-info.txt", "B: new\n")
        self.assertIn("was altered", self.refused(bag))
        self.assertFalse((self.folder / "words").exists())

    def test_two_at_once(self) -> None:
        other = os.open(self.bag, os.O_RDONLY)
        self.addCleanup(os.close, other)
        fcntl.flock(other, fcntl.LOCK_EX)
        bag = bagit.Bag(self.bag)
        self.assertIn("another process", self.refused(bag))
        fcntl.flock(other, fcntl.LOCK_UN)
        bag.save()

    def test_algorithms(self) -> None:
        bag = bagit.Bag(self.bag)
        bag.algorithms = ["sha1", "sha256"]
        self.refused(bag)
        bag.save(manifests=True, to_1_0=True)
        words = ["--add=sha1,sha256", "--drop=md5", "--to-1.0"]
        self.assertEqual(self.words()[:3], words)
        self.assertEqual(bag.algorithms, ["md5"])

    def test_manifests_are_of_a_payload_that_is_as_it_was(self) -> None:
        self.program(f'echo "{MISSING}"; echo "$n has faults: 1"; exit 1')
        bag = bagit.Bag(self.bag)
        self.assertIn("data/gone", self.refused(bag, manifests=True))
        self.assertNotIn("--set", " ".join(self.words()))
        self.program('echo "$n is valid"')
        bag.save(manifests=True)


class Made(Bags):
    def make(self, *words: Any, **how: Any) -> List[str]:
        bag = bagit.make_bag(self.bag, *words, **how)
        self.assertEqual(bag.path, str(self.bag))
        return self.words()

    def setUp(self) -> None:
        super().setUp()
        self.program('echo "$n made"')
        self.program('echo "$n renewed"', "bagit-renew")

    def test_words(self) -> None:
        info = {"Contact-Name": "-Ann", "Bagging-Date": "x", "Payload-Oxum": 1}
        words = ["--md5", "--contact-name=-Ann", "--bagging-date=x", "--"]
        found = self.make(info, 4, ["md5", "md5"])
        self.assertEqual(found, [*words, str(self.bag)])
        self.assertEqual(info["Payload-Oxum"], 1)

    def test_without_words(self) -> None:
        first, second, date, *_ = self.make()
        self.assertEqual((first, second), ("--sha256", "--sha512"))
        self.assertRegex(date, r"^--bagging-date=2\d\d\d-\d\d-\d\d$")

    def test_elements_without_an_option(self) -> None:
        info = {"Contact-Name": ["Ann", "Bo"], "bagging-date": "x"}
        words = ["--sha1", "--", str(self.bag), "--set=Contact-Name=Ann"]
        words += ["--set=Contact-Name=Bo", "--set=bagging-date=x", "--"]
        found = self.make(info, checksum=["sha1"])
        self.assertEqual(found, [*words, str(self.bag)])

    def test_refusals_start_nothing(self) -> None:
        for how in (
            {"checksums": ["sha3_256"]},
            {"encoding": "latin-1"},
            {"encoding": "none"},
            {"bag_info": {"A": " x"}},
            {"bag_info": {"A": None}},
            {"bag_info": {"": "x"}},
        ):
            with self.assertRaises(bagit.BagError):
                self.make(**how)
        with self.assertRaises(RuntimeError):
            bagit.make_bag(self.folder / "none")
        self.assertFalse((self.folder / "words").exists())

    def test_what_is_not_made(self) -> None:
        for script in (
            'echo "$n not made: read - device"; exit 3',
            'echo "$n made"; exit 3',
            'echo "$n made"; kill -9 $$',
            "exit 0",
            'echo "$n is valid"',
            'echo "other made"',
        ):
            self.program(script)
            with self.assertRaises(bagit.BagError, msg=script):
                self.make()

    def test_elements_that_are_refused_after_the_making(self) -> None:
        script = 'echo "$n not renewed: put bag-info.txt device"; exit 3'
        self.program(script, "bagit-renew")
        with self.assertRaisesRegex(bagit.BagError, "without some elements"):
            self.make({"Other": "x"})


if __name__ == "__main__":
    unittest.main()
