"""The work during which the power is cut: a folder is made a bag."""
import hashlib
import os
import random
import subprocess
from pathlib import Path

SIZES = {
    "a": 10,
    "z": 1,
    "empty": 0,
    "five.bin": 5000,
    "big one.bin": 100000,
    "letters 1900/to her.txt": 5000,
    "letters 1900/big scan.tif": 100000,
    "letters 1900/deep/er/none": 0,
    "data/x": 10,
    "data/in it/y 2": 5000,
}
FOLDERS = ("no files here", "letters 1900/no files either")
NEW_FOLDER, PAYLOAD = ".bagit-new", "data"
TAG_FILES = ("bagit.txt", "bag-info.txt", "manifest-", "tagmanifest-")

# docs/RECOVERY.md, "A bag wasn't created", which keeps the tag files
MOVE_BACK = "find .bagit-new -mindepth 1 -maxdepth 1 -exec mv -n -t . {} + && rmdir .bagit-new"
FROM_NEW_FOLDER = f"rm -f bagit.txt && {MOVE_BACK}"
FROM_DATA = f"mv data .bagit-new && rm -f bagit.txt bag-info.txt manifest-*.txt tagmanifest-*.txt && {MOVE_BACK}"


def look(top):
    """The digests of the files in a folder, and None for each folder; what can't be read has its error."""
    held, folders = {}, [""]
    for folder in folders:
        try:
            for entry in os.scandir(top / folder):
                path = os.path.join(folder, entry.name)
                is_folder = entry.is_dir(follow_symlinks=False)
                folders += [path] * is_folder
                held[path] = None if is_folder else digest(top / path)
        except OSError as error:
            held[folder] = error.strerror
    return held


def digest(path):
    try:
        return digest_of(path.read_bytes())
    except OSError as error:
        return error.strerror


def digest_of(content):
    return hashlib.sha256(content).hexdigest()


class Making:
    """Another work has the same calls: `begin`, `words`, `promises`, `end` and `losses`."""

    def __init__(self, job, folder):
        self.program, self.folder = job["program"], folder
        self.before = self.after = {}

    def begin(self):
        """Puts the folder there."""
        for path, size in SIZES.items():
            (self.folder / path).parent.mkdir(parents=True, exist_ok=True)
            (self.folder / path).write_bytes(random.Random(path).randbytes(size))
        for path in FOLDERS:
            (self.folder / path).mkdir()
        self.before = look(self.folder)

    def words(self):
        return [self.program, str(self.folder)]

    def promises(self, output):
        """Whether what the program has written promises that its work outlasts a power cut."""
        return output.endswith(b" made\n")

    def end(self):
        self.after = look(self.folder)
        if not self.is_in_payload(self.after):
            raise SystemExit("the bag that was made lacks a file")

    def is_in_payload(self, held):
        return all(held.get(f"{PAYLOAD}/{path}") == whole for path, whole in self.before.items() if whole)

    def losses(self, held, is_promised):
        """What is lost where this is left: what it is called, and which files or why."""
        tops = ("", f"{NEW_FOLDER}/", f"{PAYLOAD}/")
        files = [(path, whole) for path, whole in self.before.items() if whole]
        lost = [path for path, whole in files if all(held.get(top + path) != whole for top in tops)]
        if lost:
            yield "files lost", ", ".join(lost)
        is_valid = subprocess.run([*self.words(), "--validate"], capture_output=True, check=False).returncode == 0
        if is_valid and not self.is_in_payload(held):
            yield "falsely valid", str(sorted(held))
        if is_promised and not (is_valid and held == self.after):
            differs = {path for path, _ in {*held.items()} ^ {*self.after.items()}}
            yield "bag lost", ", ".join(sorted(differs)) or "it isn't valid"
        if not is_promised and not lost:
            yield from self.way_back(held)

    def way_back(self, held):
        """Moves the files back as docs/RECOVERY.md says it."""
        expected = (f"{PAYLOAD}/", *TAG_FILES)
        has_other_files = any(whole and not path.startswith(expected) for path, whole in held.items())
        script = FROM_NEW_FOLDER if NEW_FOLDER in held else FROM_DATA if not has_other_files else "true"
        done = subprocess.run(["sh", "-c", script], cwd=self.folder, capture_output=True, text=True, check=False)
        if done.returncode or look(self.folder) != self.before:
            yield "no way back", done.stderr.strip() or "another folder than before"
