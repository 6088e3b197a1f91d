"""The first process of a virtual machine: has the work done once on a disk that notes it, then cuts the power at many
moments of it, has the kernel mount what each cut leaves, and looks.

usage: guest.py FOLDER

FOLDER, of the host, has job.json and gets answer.json. Nothing else of the host can be changed.
"""
import collections
import ctypes
import json
import os
import random
import subprocess
import sys
import time
import traceback
from pathlib import Path

from cuts import all_of, cut_at, different_cuts, left, none
from disk import DEVICE, NEVER, Disk, held_by
from file_systems import FILE_SYSTEMS
from making import Making, look
from renewing import Renewing

IMAGE, BASE, MOUNTED = "/run/image", "/run/base", "/run/mounted"
SYNCS = "fsync,fdatasync,syncfs,sync"
NO_SYNCS = f"strace -f -o /run/calls -e trace={SYNCS} -e inject={SYNCS}:retval=0".split()
POWER_OFF = 0x4321FEDC
EXAMPLES = 2
WORKS = {"making": Making, "renewing": Renewing}
libc = ctypes.CDLL(None, use_errno=True)


def demand(result, what):
    if result != 0:
        raise OSError(ctypes.get_errno(), f"{what}: {os.strerror(ctypes.get_errno())}")


def mount(source, target, kind, options=""):
    os.makedirs(target, exist_ok=True)
    demand(libc.mount(source.encode(), target.encode(), kind.encode(), 0, options.encode()), f"mount {kind}")


def unmount(target):
    for _ in range(50):  # what was just read may still be held
        if libc.umount2(target.encode(), 0) == 0:
            return
        time.sleep(0.02)
    demand(-1, f"umount {target}")


def run(words, check=True):
    subprocess.run(words, check=check, stdout=subprocess.PIPE, stderr=subprocess.STDOUT)


class Trial:
    """A work on a file system, and what is left of it after each cut."""

    def __init__(self, job):
        self.job, self.file_system = job, FILE_SYSTEMS[job["file system"]]
        self.work = WORKS[job["work"]](job, Path(MOUNTED, "folder"))
        self.known = {}  # the losses of each folder that was seen, before and after the promise
        run(["modprobe", "-d", job["modules"], "-a", "nbd", *self.file_system.modules.split()])
        with open(IMAGE, "wb") as image:
            image.truncate(self.file_system.size << 20)
        run([*self.file_system.make.split(), IMAGE])
        self.disk = Disk(IMAGE)

    def mount(self):
        if self.file_system.before:
            run(self.file_system.before.split(), check=False)
            self.disk.forget()
        mount(DEVICE, MOUNTED, self.file_system.kind, self.file_system.options)

    def record(self):
        """Has the work done while the disk notes. What is there before is on the disk by then."""
        self.mount()
        self.work.begin()
        os.sync()
        unmount(MOUNTED)
        run(["cp", "--sparse=always", IMAGE, BASE])
        self.base = held_by(BASE)
        self.disk.is_noting = True
        self.mount()
        began = self.disk.moment
        words = NO_SYNCS if self.job["variant"] == "no-syncs" else []
        subprocess.run([*words, *self.work.words()], stdout=self.disk.output, check=True)
        self.work.end()
        time.sleep(self.job["settle"])
        unmount(MOUNTED)
        self.disk.is_noting = False
        self.moments = range(began, self.disk.moment + 1)
        self.promised = next(moment for moment, said in self.disk.said_by() if self.work.promises(said))
        if self.job["variant"] == "lying-disk":
            for write in self.disk.writes:
                write.certain = NEVER

    def look_after(self, cut):
        """What is in the folder after a cut, and what of it is lost."""
        self.disk.load(self.base, left(self.disk.writes, cut))
        try:
            self.mount()
        except OSError as error:
            return {}, [("not mounted", str(error))]
        try:
            held, is_promised = look(self.work.folder), cut.moment >= self.promised
            key = frozenset(held.items()), is_promised
            if key not in self.known:
                self.known[key] = list(self.work.losses(held, is_promised))
            return held, self.known[key]
        finally:
            unmount(MOUNTED)

    def check_ends(self):
        """Without any write the folder is as it was, with all as the work left it: else the disks are wrong."""
        for choose, moment, wanted in (
            (none, self.moments[0], self.work.before),
            (all_of, self.moments[-1], self.work.after),
        ):
            held, _ = self.look_after(cut_at(moment, choose, self.disk.writes, random))
            if held != wanted:
                raise SystemExit(f"the disk of {choose.__name__} has something else: {held}")

    def answer(self):
        began, chance = time.time(), random.Random(self.job["seed"])
        self.record()
        self.check_ends()
        states, losses, examples = 0, collections.Counter(), []
        for cut in different_cuts(self.moments, self.promised, self.disk.writes, self.job["states"], chance):
            _, found = self.look_after(cut)
            states += 1
            losses["states that lose"] += bool(found)
            for what, text in found:
                losses[what] += 1
                if losses[what] <= EXAMPLES:
                    examples.append(f"{what} at {cut.moment} of {self.moments[-1]}, {cut.kind}: {text[:80]}")
        writes = self.disk.writes
        forced = sum(write.is_forced for write in writes)
        counts = {"writes": len(writes), "forced": forced, "flushes": self.disk.flushes, "states": states}
        counts.update(folders=len(self.known), losses=losses, examples=examples, seconds=round(time.time() - began))
        return {**counts, "kernel": os.uname().release}


def main():
    folder = sys.argv[1]
    for kind, target in (("proc", "/proc"), ("sysfs", "/sys"), ("tmpfs", "/run")):
        mount(kind, target, kind, "size=95%" if kind == "tmpfs" else "")
    mount("none", folder, "hostfs", folder)
    os.environ.update(PATH="/usr/sbin:/usr/bin:/sbin:/bin", LC_ALL="C")
    try:
        answer = Trial(json.loads(Path(folder, "job.json").read_text())).answer()
    except BaseException as error:  # whatever it was, the host is told
        answer = {"failed": traceback.format_exc() + str(getattr(error, "output", ""))}
    Path(folder, "answer.json").write_text(json.dumps(answer))
    libc.reboot(POWER_OFF)


main()
