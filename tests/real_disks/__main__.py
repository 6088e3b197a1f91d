"""Cuts the power of real Linux file systems while a folder is made a bag, or a bag renewed, and says what is lost.

Each trial is a small virtual machine. In it this is done on a disk that notes each write and flush that the kernel's
file system asks for. At each moment a power cut may leave more than one disk, since the disk has a cache
that is lost: what was flushed is on it, and of all other writes none, all, all but one, only one, some, some blocks,
or the last one torn. As many of these states are taken as --states says, each different. The kernel mounts each, and
this is a loss:

  not mounted    the kernel can't mount it
  files lost     a file of the folder is whole neither at its place nor in .bagit-new or data
  bag lost       after the line `made` the folder isn't the whole bag, or isn't valid
  falsely valid  the program says that a bag is valid which lacks a file of the folder
  no way back    before `made`, what docs/RECOVERY.md says doesn't bring the folder back

With --work renewing a bag is renewed by bagit-renew, in each of the ways that --renewals names, and these are losses,
and the first and the third of those above (after the line `renewed`):

  files lost     a payload file isn't what it was
  no valid bag   it isn't one by bagit, or by tests/renew.py
  not renewed    the same command doesn't make the renewed bag of it

It doesn't show: other kernels than the one it names, large folders, disks that tear a block of 4 KiB, several disks
together, network shares. File systems with a * lose files or bags: they are shown, and don't count. `without syncs` is
the laboratory's own test, and must lose something.

The status is 0 if nothing is lost, 1 if something is, 2 if a trial failed, or `without syncs` lost nothing, and 77 if
this machine can't: it needs Debian's packages, which are named then, and 1 GB of memory for each job.
"""
import argparse
import sys
from concurrent.futures import ThreadPoolExecutor
from datetime import date
from os import access, X_OK
from pathlib import Path

from file_systems import FILE_SYSTEMS
from machine import answer_to, missing_packages, stop, why_none_starts
from renewing import RENEWALS

FAILED, SKIPPED = 2, 77
PROGRAM = Path(__file__).resolve().parents[2] / "crates/bagit/out/bagit"
QUICK = ["ext4", "xfs", "btrfs", "f2fs"]
VARIANTS = {"no-syncs": "without syncs", "lying-disk": "on a disk that lies"}
RENEWING = Path(__file__).resolve().parents[2] / "crates/bagit_renew/out/bagit_renew"
LOSSES = {
    "making": ("not mounted", "files lost", "bag lost", "falsely valid", "no way back"),
    "renewing": ("not mounted", "files lost", "bag lost", "no valid bag", "not renewed"),
}
COUNTS = ("writes", "forced", "flushes", "states", "folders")


def names_of(known):
    """What reads a list of names, each a known one."""

    def read(text):
        names = text.split(",")
        if not set(names) <= set(known):
            raise argparse.ArgumentTypeError(f"these are known: {' '.join(known)}")
        return names

    return read


def options():
    form = argparse.RawDescriptionHelpFormatter
    parser = argparse.ArgumentParser("tests/real_disks.sh", description=__doc__, formatter_class=form)
    add = parser.add_argument
    add("program", metavar="PROGRAM", nargs="?", default=str(PROGRAM), help="by default crates/bagit/out/bagit")
    add("--work", choices=LOSSES, default="making", help="what is done: a folder is made a bag, or a bag is renewed")
    add("--renewing", metavar="FILE", default=str(RENEWING), help="by default crates/bagit_renew/out/bagit_renew")
    add("--renewals", type=names_of(RENEWALS), metavar="NAME,..", help=f"of these: {' '.join(RENEWALS)}")
    add("--quick", action="store_true", help=f"{', '.join(QUICK)} in 200 states each: some minutes")
    add("--file-systems", type=names_of(FILE_SYSTEMS), metavar="NAME,..", help=f"of these: {' '.join(FILE_SYSTEMS)}")
    add("--variant", choices=VARIANTS, help="no-syncs: no sync does anything; lying-disk: no flush keeps anything")
    add("--states", type=int, metavar="N", help="how many are tried in each trial (1500)")
    add("--jobs", type=int, default=2, metavar="N", help="how many machines run at once (2)")
    add("--seed", type=int, default=1, metavar="N", help="for the choice of the states (1)")
    return parser.parse_args()


def jobs_of(chosen):
    """The trials that were asked for, and without a variant also one that must lose something."""
    names = chosen.file_systems or (QUICK if chosen.quick else list(FILE_SYSTEMS))
    job = {"program": str(Path(chosen.program).resolve()), "seed": chosen.seed, "settle": 1 if chosen.quick else 7}
    job.update(work=chosen.work, renewing=str(Path(chosen.renewing).resolve()))
    job.update(variant=chosen.variant, states=chosen.states or (200 if chosen.quick else 1500), must_lose=False)
    renewals = (chosen.renewals or list(RENEWALS)) if chosen.work == "renewing" else [""]
    jobs = [{**job, "file system": name, "renewal": renewal} for name in names for renewal in renewals]
    if not chosen.variant:
        jobs.append({**jobs[0], "variant": "no-syncs", "states": 60, "must_lose": True})
    return jobs


def answers_to(jobs, at_once):
    answers = []
    with ThreadPoolExecutor(at_once) as pool:
        try:
            for job, answer in zip(jobs, pool.map(answer_to, jobs)):
                print(f"{name_of(job)}: {found(answer)}", file=sys.stderr)
                answers.append(answer)
        except KeyboardInterrupt:
            stop()
            raise
    return answers


def found(answer):
    return "failed" if "failed" in answer else f"{losing(answer)} of {answer['states']} states lose"


def losing(answer):
    return answer.get("losses", {}).get("states that lose", 0)


def name_of(job):
    star = "" if FILE_SYSTEMS[job["file system"]].is_promised else "*"
    return " ".join(filter(None, (job["file system"] + star, job["renewal"], VARIANTS.get(job["variant"]))))


def print_table(jobs, answers):
    columns = (*COUNTS, *LOSSES[jobs[0]["work"]], "states that lose", "seconds")
    rows = [["", *columns]]
    for job, answer in zip(jobs, answers):
        cells = {**answer, **answer.get("losses", {})}
        rows.append([name_of(job), *(str(cells.get(column, 0)) for column in columns)])
    widths = [max(map(len, column)) for column in zip(*rows)]
    for name, *cells in rows:
        print(name.ljust(widths[0]), *(cell.rjust(width) for cell, width in zip(cells, widths[1:])), sep="  ")


def print_details(jobs, answers):
    for job, answer in zip(jobs, answers):
        texts = [answer["failed"]] if "failed" in answer else answer["examples"]
        for text in [] if job["must_lose"] and "failed" not in answer else texts:
            print(f"{name_of(job)}: {text}")


def status_of(jobs, answers):
    status = 0
    for job, answer in zip(jobs, answers):
        has_lost = losing(answer) > 0
        if "failed" in answer or job["must_lose"] and not has_lost:
            return FAILED
        if has_lost and not job["must_lose"] and FILE_SYSTEMS[job["file system"]].is_promised:
            status = 1
    return status


def main():
    chosen = options()
    jobs = jobs_of(chosen)
    programs = [chosen.program, *[chosen.renewing] * (chosen.work == "renewing")]
    for program in programs:
        if not access(program, X_OK):
            print(f"there is no program {program}", file=sys.stderr)
            return FAILED
    missing = missing_packages({job["file system"] for job in jobs})
    if missing:
        print("skipped: packages are missing; as root: apt-get install", *missing)
        return SKIPPED
    why = why_none_starts()
    if why:
        print(f"skipped: user-mode Linux doesn't start here: {why}")
        return SKIPPED
    answers = answers_to(jobs, chosen.jobs)
    kernels = {answer["kernel"] for answer in answers if "kernel" in answer}
    print(f"Linux {' '.join(kernels)}, {date.today()}, {' '.join(programs)}")
    print_table(jobs, answers)
    print_details(jobs, answers)
    return status_of(jobs, answers)


if __name__ == "__main__":
    sys.exit(main())
