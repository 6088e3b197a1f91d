"""The work during which the power is cut: a bag is renewed."""
import random
import subprocess
import sys
from pathlib import Path
from typing import NamedTuple

from making import SIZES, digest_of, look

sys.path.insert(0, str(Path(__file__).resolve().parents[1]))
import renew  # noqa: E402  (it stands beside this folder)

PAYLOAD = "data"
ELEMENTS = (("Contact-Name", "Bob"), ("External-Identifier", "A 2026/17"))
INFO = b"Contact-Name: Ann\nBag-Size: 1 KB\n on\n two lines\n"


class Renewal(NamedTuple):
    """What bag is renewed, and how."""

    version: str
    algorithms: tuple
    tag_algorithms: tuple
    options: renew.Options


RENEWALS = {
    "add": Renewal("1.0", ("md5",), ("md5",), renew.Options(add=("sha512",), set=ELEMENTS)),
    "drop": Renewal("1.0", ("md5", "sha256"), ("md5", "sha1"), renew.Options(drop=("md5",), unset=("bag-size",))),
    "to-1.0": Renewal(
        "0.97", ("md5",), ("md5",), renew.Options(add=("sha256",), drop=("md5",), set=ELEMENTS, to_1_0=True)
    ),
}


class Renewing:
    """As `Making`, of a bag in which an earlier renewal that was cut off left `.bagit-begun`."""

    def __init__(self, job, folder):
        self.program, self.renewing, self.folder = job["program"], job["renewing"], folder
        self.renewal = RENEWALS[job["renewal"]]
        self.before = self.after = self.wanted = {}

    def begin(self):
        """Puts the bag there."""
        payload = {path: random.Random(path).randbytes(size) for path, size in SIZES.items()}
        payload = {f"{PAYLOAD}/{path}".encode(): content for path, content in payload.items()}
        declared = renew.DECLARED.replace(b"1.0", self.renewal.version.encode())
        files = {renew.DECLARATION: declared, renew.INFO: INFO, b"metadata/dc.xml": b"<dc/>"}
        for algorithm in self.renewal.algorithms:
            files[renew.manifest_path(algorithm)] = renew.manifest_of(algorithm, payload, self.renewal.version)
        tags = {name: renew.manifest_of(name, files, self.renewal.version) for name in self.renewal.tag_algorithms}
        tags = {renew.tag_manifest_path(name): content for name, content in tags.items()}
        renew.write({**payload, **files, **tags, renew.BEGUN: b"begun"}, self.folder)
        self.before = look(self.folder)
        made = renew.renewed(self.folder, self.renewal.options).files
        self.wanted = {path.decode(): digest_of(content) for path, content in made.items()}

    def words(self):
        return [self.renewing, *self.renewal.options.words(), str(self.folder)]

    def promises(self, output):
        """Whether what the program has written promises that its work outlasts a power cut."""
        return output.endswith(b" renewed\n")

    def end(self):
        self.after = look(self.folder)
        if self.files(self.after) != self.wanted:
            raise SystemExit("the bag that was renewed is another")

    def files(self, held):
        return {path: whole for path, whole in held.items() if whole}

    def payload(self, held):
        return {path: whole for path, whole in held.items() if path.startswith(f"{PAYLOAD}/")}

    def losses(self, held, is_promised):
        """What is lost where this is left: what it is called, and which files or why."""
        before, there = self.payload(self.before), self.payload(held)
        if there != before:
            yield "files lost", ", ".join(sorted({path for path, _ in {*before.items()} ^ {*there.items()}}))
        why = renew.why_invalid(self.folder) or self.fault()
        if why:
            yield "no valid bag", why
        if is_promised and held != self.after:
            yield "bag lost", ", ".join(sorted({path for path, _ in {*held.items()} ^ {*self.after.items()}}))
        again = subprocess.run(self.words(), capture_output=True, text=True, check=False)
        if again.returncode:
            yield "not renewed", again.stdout + again.stderr or f"it ends with {again.returncode}"
        elif look(self.folder) != self.after:
            yield "not renewed", "asked again it makes another bag"

    def fault(self):
        """What the program says of a bag that isn't valid, or how it ends."""
        check = subprocess.run([self.program, "--validate", self.folder], capture_output=True, check=False)
        return check.returncode and (check.stdout.decode() or f"it ends with {check.returncode}")
