"""The calls of a program, as strace writes them, and how the system may refuse each. refused_calls.py and refused_renewals.py use it."""
import os
import re
import subprocess
from functools import lru_cache
from typing import Dict, Iterable, Iterator, List, Optional, Tuple

ERRORS = ("EIO", "EACCES", "ENOSPC", "EINTR", "ENOMEM")
LEFT_ALONE = ("execve", "exit", "exit_group")
CALL = re.compile(r"(?:\d+ +)?([a-z0-9_]+)\(")


def numbered(calls: Iterable[str]) -> List[Tuple[str, int]]:
    """The calls of the program, each with how many of its name there were by then, after those of the loader. The call that ends
    the program isn't one that can be refused."""
    counts: Dict[str, int] = {}
    found: List[Tuple[str, int]] = []
    is_cached = False
    begun: Optional[int] = None
    for line in calls:
        match = CALL.match(line)
        if not match:
            continue
        name = match[1]
        counts[name] = counts.get(name, 0) + 1
        found.append((name, counts[name]))
        is_cached |= "ld.so.cache" in line
        if is_cached and begun is None and name == "munmap":
            begun = len(found)
    return [call for call in found[begun or 0 :] if call[0] not in LEFT_ALONE]


def injections(calls: Iterable[str]) -> Iterator[str]:
    """(`brk` answers where memory ends, and no error; the C library asks `mmap` then.)"""
    for name, number in numbered(calls):
        for how in ["retval=0"] if name == "brk" else [f"error={error}" for error in ERRORS]:
            yield f"{name}:{how}:when={number}"
        yield f"{name}:signal=KILL:when={number}"


@lru_cache(1)
def stopping() -> List[str]:
    """The option by which strace stops the program at those calls alone that it writes, where the system has that."""
    words = ["strace", "-f", "--seccomp-bpf", "-e", "trace=execve", "-o", os.devnull, "true"]
    tried = subprocess.run(words, capture_output=True, check=False)
    return ["--seccomp-bpf"] if (tried.returncode, tried.stderr) == (0, b"") else []


def injecting(injection: str) -> List[str]:
    """The options by which strace injects this, and writes nothing but the calls of that name. (A signal doesn't come where it stops the
    program at those alone.)"""
    options = [] if ":signal=" in injection else stopping()
    return [*options, "-e", f"trace={injection.partition(':')[0]}", "-e", f"inject={injection}"]


def is_injected(calls: str) -> bool:
    """Whether a call was refused, or the program killed at one."""
    return "(INJECTED)" in calls or "killed by SIGKILL" in calls
