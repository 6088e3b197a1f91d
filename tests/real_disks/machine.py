"""A small virtual machine for each trial: user-mode Linux, which is a program and needs no root."""
import json
import os
import re
import shutil
import subprocess
import sys
import tempfile
from pathlib import Path

from file_systems import FILE_SYSTEMS

LINUX, MODULES = "linux.uml", "/usr/lib/uml/modules"
WORDS = "mem=1000M root=/dev/root rootfstype=hostfs rootflags=/ ro quiet panic=-1 con=null con0=null,fd:1".split()
PATH = os.environ.get("PATH", "") + ":/usr/sbin:/sbin"
END_OF_FIRST_PROCESS = "Attempted to kill init! exitcode=0x00000000"
REASONS = re.compile(r".*(?:panic|errno|registers|regs).*")
machines = []


def missing_packages(names):
    """The packages of what trials of these file systems need and isn't here."""
    needed = {LINUX: "user-mode-linux", "modprobe": "kmod", "strace": "strace"}
    needed.update((FILE_SYSTEMS[name].make.split()[0], FILE_SYSTEMS[name].package) for name in names)
    return sorted({package for program, package in needed.items() if not shutil.which(program, path=PATH)})


def boot(folder, *first_process):
    """What a machine writes on its console until it stops. It sees the files of the host, and changes none."""
    init, *words = first_process
    words = [shutil.which(LINUX), *WORDS, f"uml_dir={folder}/uml", f"init={init}", "--", *words]
    none, pipe, same = subprocess.DEVNULL, subprocess.PIPE, subprocess.STDOUT
    with subprocess.Popen(words, stdin=none, stdout=pipe, stderr=same) as machine:
        machines.append(machine)
        return machine.stdout.read().decode(errors="replace")


def stop():
    """Ends all machines, since each has a session of its own, which a terminal's signal doesn't reach."""
    for machine in machines:
        machine.terminate()


def why_none_starts():
    """None if a machine runs its first process to its end, else what its console says of it: user-mode Linux 6.1 can't
    give a process its registers on a processor with AMX (`put_fp_registers`), and kills the first one."""
    with tempfile.TemporaryDirectory(prefix="real-disks-") as folder:
        console = boot(folder, sys.executable, "-c", "pass")
    if END_OF_FIRST_PROCESS in console:
        return None
    return "; ".join(REASONS.findall(console)) or console[-500:] or "it says nothing"


def answer_to(job):
    """Has guest.py do a job in a machine of its own, and gives its answer, or why there is none."""
    with tempfile.TemporaryDirectory(prefix="real-disks-") as name:
        folder = Path(name)
        (folder / "lib").mkdir()
        (folder / "lib" / "modules").symlink_to(MODULES)
        (folder / "here").symlink_to(Path(__file__).resolve().parent)  # since a kernel's words have no spaces
        (folder / "job.json").write_text(json.dumps({**job, "modules": name}))
        console = boot(folder, sys.executable, "-B", f"{folder}/here/guest.py", name)
        answer = folder / "answer.json"
        return json.loads(answer.read_text()) if answer.exists() else {"failed": f"it stopped: {console[-500:]}"}
