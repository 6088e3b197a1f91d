"""What is compared between the parts of a check, and how many there are."""
import hashlib
import io
import os
import tempfile
import time
import unittest
from contextlib import redirect_stdout
from pathlib import Path
from typing import Callable, Dict
from unittest import mock

from bagitkeep.check import (
    MOST_PARTS,
    Head,
    Parts,
    parts_for,
    ranges_of,
    task,
)
from bagitkeep.fingerprint import (
    altered,
    difference,
    fingerprint,
    listing,
    place,
)
from bagitkeep.messages import Refused

GIB = 1 << 30


class Fingerprints(unittest.TestCase):
    def setUp(self) -> None:
        folder = tempfile.TemporaryDirectory()
        self.addCleanup(folder.cleanup)
        self.bag = Path(folder.name) / "a bag"
        (self.bag / "data" / "x").mkdir(parents=True)
        for name in "-n", "data/a", "data/x/1", "data/x-y", "data/%":
            (self.bag / name).write_text(name)
        self.kept = str(Path(folder.name) / "kept")
        with open(self.kept, "w") as out:
            self.before = fingerprint(self.bag, out)

    def test_a_bag_that_is_the_same(self) -> None:
        self.assertEqual(fingerprint(self.bag), self.before)
        self.assertEqual(self.before.files, 5)
        self.assertEqual(self.before.size, 2 + 6 + 8 + 8 + 6)
        (self.bag / "data" / "a").read_text()
        self.assertEqual(fingerprint(self.bag), self.before)

    def test_a_link_that_named_another_bag_for_a_while(self) -> None:
        link = self.bag.parent / "link"
        link.symlink_to(self.bag)
        before = fingerprint(link)
        self.assertEqual(fingerprint(link), before)
        time.sleep(0.05)
        link.unlink()
        link.symlink_to(self.bag)
        self.assertNotEqual(fingerprint(link).digest, before.digest)

    def test_lines_come_in_the_order_of_places(self) -> None:
        lines = list(listing(self.bag))
        self.assertEqual(lines, sorted(lines, key=place))
        paths = [line.split(" ")[0] for line in lines]
        self.assertEqual(
            paths,
            "- -n data data/%25 data/a data/x data/x/1 data/x-y".split(),
        )

    def test_what_is_altered(self) -> None:
        time.sleep(0.05)  # by which the system's times differ
        ways: Dict[str, Callable[[Path], object]] = {
            "data/a": lambda bag: same_size_and_time(bag / "data" / "a"),
            "data/x/1": lambda bag: (bag / "data" / "x" / "1").unlink(),
            "data/x/2": lambda bag: (bag / "data" / "x" / "2").touch(),
            "data/%25": lambda bag: (bag / "data" / "%").chmod(0o400),
            "-n": lambda bag: exchange(bag / "-n"),
            "": lambda bag: os.utime(bag),
            "data": lambda bag: os.utime(bag / "data"),
        }
        for path, way in ways.items():
            with open(self.kept, "w") as out:
                before = fingerprint(self.bag, out)
            way(self.bag)
            self.assertNotEqual(fingerprint(self.bag).digest, before.digest)
            name = str(self.bag).replace(" ", "%20")
            wanted = f"{name}/{path}".rstrip("/")
            self.assertEqual(altered(self.bag, self.kept), wanted)

    def test_a_file_comes_before_folders(self) -> None:
        old = ["- 40000 1\n", "a 40000 1\n", "b 100000 1\n"]
        new = ["- 40000 2\n", "a 40000 2\n", "b 100000 2\n"]
        self.assertEqual(difference(old, new), "b")
        self.assertEqual(difference(old, [*new[:2], old[2]]), "")
        self.assertEqual(difference(old, [old[0], *new[1:2], old[2]]), "a")
        self.assertIsNone(difference(old, old))

    def test_times_of_whole_seconds(self) -> None:
        line = "data/a 100000 3 1795974220862805994 {} 11248580 0\n"
        found = []
        for changed in 1795974220942805997, 1795974220000000000:
            lines = [line.format(changed)]
            with mock.patch("bagitkeep.fingerprint.listing") as told:
                told.return_value = lines
                found.append(fingerprint("d"))
            digest = hashlib.sha256(lines[0].encode()).hexdigest()
            self.assertEqual(found[-1].digest, digest)
        self.assertEqual([it.is_coarse for it in found], [False, True])

    def test_a_bag_in_a_tar(self) -> None:
        tar = self.bag / "a.tar"
        tar.write_text("tar")
        before = fingerprint(tar)
        self.assertEqual((before.files, before.size), (1, 3))
        same_size_and_time(tar)
        self.assertNotEqual(fingerprint(tar), before)


def same_size_and_time(path: Path) -> None:
    """Alters a file, which keeps its size and its time of writing."""
    state, length = path.stat(), len(path.read_text())
    path.write_text("X" * length)
    os.utime(path, ns=(state.st_atime_ns, state.st_mtime_ns))


def exchange(path: Path) -> None:
    """Puts another file in the place of one."""
    state, other = path.stat(), path.with_name("other")
    other.write_text(path.read_text())
    os.utime(other, ns=(state.st_atime_ns, state.st_mtime_ns))
    other.rename(path)


class Tasks(unittest.TestCase):
    FAULT = "701 payload-sum-differs data/a md5 - 0:1\n"
    LINE = "d part 1 of 2 done, files: 3, bytes: 4, faults: {}\n"

    def setUp(self) -> None:
        folder = tempfile.TemporaryDirectory()
        self.addCleanup(folder.cleanup)
        head = Head("d", "/d", 2, False, None, "", "")
        self.parts = Parts(folder.name, head)

    def test_the_status_of_a_part_is_that_of_its_report(self) -> None:
        for faults, status in (0, 0), (1, 1), (2, 1):
            line = self.LINE.format(faults)
            with open(self.parts.at("1.part"), "w") as file:
                file.write(self.FAULT * faults + line)
            with redirect_stdout(io.StringIO()) as out:
                self.assertEqual(task(self.parts, 1), status)
            self.assertEqual(out.getvalue(), line)

    def test_a_part_without_a_whole_report(self) -> None:
        self.assertEqual(task(self.parts, 1), 3)
        one = self.LINE.format(1)
        for text in "", self.FAULT, one, self.FAULT + one[:-1], one + one:
            with open(self.parts.at("1.part"), "w") as file:
                file.write(text)
            with self.assertRaises(Refused) as refused:
                task(self.parts, 1)
            self.assertEqual(refused.exception.status, 3)


class Numbers(unittest.TestCase):
    def test_parts_of_some_bytes(self) -> None:
        self.assertEqual(parts_for(0, 0), 1)
        self.assertEqual(parts_for(10, 4 * GIB), 1)
        self.assertEqual(parts_for(10, 4 * GIB + 1), 2)
        self.assertEqual(parts_for(10, 40 * GIB), 10)
        self.assertEqual(parts_for(1, 1 << 60), MOST_PARTS)

    def test_listings_take_a_twentieth_at_most(self) -> None:
        for files in 10, 1000, 10**5, 10**7:
            for size in 10**6, 10**9, 10**12, 10**14:
                number = parts_for(files, size)
                whole = files * 20e-6 + size * 1e-9
                listings = number * files * 15e-6
                if number > 1:
                    self.assertLessEqual(listings, whole / 20)

    def test_ranges_of_job_arrays(self) -> None:
        self.assertEqual(ranges_of([2, 5, 6, 7]), "2,5-7")
        self.assertEqual(ranges_of([1, 2, 4]), "1-2,4")
        self.assertEqual(ranges_of([3]), "3")
