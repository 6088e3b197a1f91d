"""A plain, slow check of a bag: all its faults, in the order and the words of a report, by RFC 8493, the BagIt Profiles Specification
and the pages FAULTS, STANDARD, PROFILES and bagit.1 of docs alone. tests/plain.py compares the program's reports with it.
"""
import hashlib
import re
import unicodedata
from dataclasses import dataclass, field
from functools import lru_cache
from typing import Optional

from plain_tags import (ALGORITHMS, DECLARATION, FETCH, MANIFEST_NAME, METADATA, Fault, is_payload, lowered, manifest_of, read_declaration,
                        read_fetch, read_manifest, read_metadata, read_oxum, text_of)

ORDER = ["", *ALGORITHMS]
WORDS = dict(re.findall(r"(\d+) (\S+)", """
    101 no-declaration 102 declaration-not-utf8 103 declaration-line-count 104 declaration-line 105 version-unsupported
    106 encoding-unsupported 201 no-payload-folder 202 no-payload-manifest 203 algorithm-unsupported 204 not-utf8 301 info-line
    302 oxum-malformed 303 oxum-again 304 oxum-differs 305 no-oxum 401 fetch-line 402 fetch-escape 403 fetch-unsafe-path
    404 fetch-outside-payload 405 fetch-not-in-manifest 501 manifest-line 502 digest-length 503 manifest-escape
    504 manifest-unsafe-path 505 manifest-outside-payload 506 tagmanifest-names-payload 507 tagmanifest-names-tagmanifest
    508 named-again 509 payload-manifest-not-listed 601 payload-file-missing 602 tag-file-missing 603 payload-file-not-listed
    604 name-clash 701 payload-sum-differs 702 tag-sum-differs 801 profile-identifier 802 label-required 803 label-repeated
    804 value-not-allowed 805 manifest-required 806 manifest-not-allowed 807 tagmanifest-required 808 tagmanifest-not-allowed
    809 tag-file-required 810 tag-file-not-allowed 811 fetch-not-allowed 812 version-not-accepted 813 serialization-required
    814 serialization-forbidden"""))
DEPTHS = {  # the option, the last stage but the profile's, and how the closing line of a bag without faults ends
    "declaration": ("--declaration-only", 1, "has a good declaration"),
    "fast": ("--fast", 3, "agrees with its oxum"),
    "complete": ("--completeness-only", 6, "is complete"),
    "full": (None, 7, "is valid"),
}


@dataclass
class Bag:
    """What a directory holds: the bytes of its files, by path, and directories, of which most have no file."""

    files: dict = field(default_factory=dict)
    folders: tuple = ()


@dataclass(frozen=True)
class Options:
    """What a check is asked for. A profile is an object of JSON as Python has it, which is in the file of this name."""

    depth: str = "full"
    clashes: bool = False
    quiet: bool = False
    most: int = 0
    after: Optional[Fault] = None
    profile: Optional[dict] = field(default=None, compare=False)
    profile_file: str = ""

    def words(self):
        """These options on a command line."""
        flags = [(DEPTHS[self.depth][0], True), ("--clashes", self.clashes), ("--quiet", self.quiet)]
        words = [word for word, is_given in flags if word and is_given]
        words += ["--max-faults", str(self.most)] if self.most else []
        words += ["--after", line_of(self.after)] if self.after else []
        return words + (["--profile", self.profile_file] if self.profile else [])


@dataclass
class Manifest:
    """A manifest of a supported algorithm, with the checksums that it gives."""

    file: str
    is_tag: bool
    algorithm: str
    sums: dict


@dataclass
class Read:
    """What was read of a bag, and the faults that were found by this."""

    version: Optional[str] = None
    elements: list = field(default_factory=list)
    fetched: list = field(default_factory=list)
    manifests: list = field(default_factory=list)
    faults: list = field(default_factory=list)

    @property
    def is_older(self):
        """Whether the bag is judged by the rules of 0.97."""
        return self.version == "0.97"

    def of_payload(self):
        """The payload manifests that are read."""
        return [manifest for manifest in self.manifests if not manifest.is_tag]


# ---- what a report says of a fault


def place_of(fault):
    """What faults are ordered by."""
    return fault.code // 100, fault.path, ORDER.index(fault.algorithm), fault.line, fault.code, fault.detail


def encoded(text):
    """A path, a detail or a name, as a line of a report has it."""
    if text in ("", "-"):
        return "%2D" if text else "-"
    return "".join(chr(byte) if 32 < byte < 127 and byte != 37 else f"%{byte:02X}" for byte in text.encode())


@lru_cache(maxsize=100_000)
def line_of(fault):
    """The line of a fault."""
    word, line = WORDS[str(fault.code)], fault.line or "-"
    return f"{fault.code} {word} {encoded(fault.path)} {fault.algorithm or '-'} {line} {encoded(fault.detail)}"


# ---- stages 1 to 7


def manifests_in(bag, is_tag):
    """The manifests of one kind by path, each with its algorithm, also of one that isn't supported."""
    names = {path: manifest_of(path, is_tag) for path in bag.files}
    return {path: algorithm for path, algorithm in sorted(names.items()) if algorithm}


def has_payload_folder(bag):
    """Whether there is a directory data."""
    return any(f"{path}/".startswith("data/") for path in bag.folders) or any(map(is_payload, bag.files))


def part_faults(bag):
    """Faults of the second stage."""
    faults = [] if has_payload_folder(bag) else [Fault(201, "")]
    faults += [] if manifests_in(bag, False) else [Fault(202, "")]
    for path, algorithm in {**manifests_in(bag, False), **manifests_in(bag, True), METADATA: None, FETCH: None}.items():
        if algorithm and algorithm not in ALGORITHMS:
            faults.append(Fault(203, path, detail=algorithm))
        elif path in bag.files and text_of(bag.files[path]) is None:
            faults.append(Fault(204, path))
    return faults


def oxum_faults(bag, elements):
    """Faults of Payload-Oxum, also that there is none, which a fast check alone looks for."""
    oxums = [element for element in elements if lowered(element.label) == "payload-oxum"]
    if not oxums:
        return [Fault(305, METADATA)]
    first, payload = oxums[0], [content for path, content in bag.files.items() if is_payload(path)]
    found = sum(map(len, payload)), len(payload)
    faults = [Fault(303, METADATA, line=again.line, detail=again.value) for again in oxums[1:]]
    if not read_oxum(first.value):
        faults.append(Fault(302, METADATA, line=first.line, detail=first.value))
    elif read_oxum(first.value) != found:
        faults.append(Fault(304, METADATA, line=first.line, detail=f"{first.value}:{found[0]}.{found[1]}"))
    return faults


def left_out(read, path):
    """The algorithms of the manifests that leave out what each should name; in version 0.97 that is none for all of them."""
    lacking = [manifest.algorithm for manifest in read.of_payload() if path not in manifest.sums]
    if read.is_older:
        return [""] if lacking and len(lacking) == len(read.of_payload()) else []
    return lacking


def list_faults(bag, read):
    """What isn't named, of the fourth, fifth and sixth stage, and what is named but isn't there."""
    faults = [Fault(405, FETCH, algorithm, line, path) for line, path in read.fetched for algorithm in left_out(read, path)]
    for path in filter(is_payload, bag.files):
        faults += [Fault(603, path, algorithm) for algorithm in left_out(read, path)]
    for manifest in read.manifests:
        if manifest.is_tag and not read.is_older:
            unnamed = [path for path in manifests_in(bag, False) if path not in manifest.sums]
            faults += [Fault(509, manifest.file, manifest.algorithm, detail=path) for path in unnamed]
        gone = [path for path in manifest.sums if path not in bag.files]
        faults += [Fault(602 if manifest.is_tag else 601, path, manifest.algorithm) for path in gone]
    return faults


def clash_faults(bag, read):
    """Names of one normal form, which --clashes alone looks for."""
    names = set(filter(is_payload, bag.files)).union(*(manifest.sums for manifest in read.of_payload()))
    classes = {}
    for name in sorted(names):
        classes.setdefault(unicodedata.normalize("NFC", name), []).append(name)
    return [Fault(604, name, detail=alike[0]) for alike in classes.values() for name in alike[1:]]


@lru_cache(maxsize=None)
def sum_of(algorithm, content):
    """A checksum in hex."""
    return hashlib.new(algorithm, content).hexdigest()


def sum_faults(bag, read):
    """Faults of the seventh stage."""
    faults = []
    for manifest in read.manifests:
        for path, wanted in manifest.sums.items():
            found = sum_of(manifest.algorithm, bag.files[path]) if path in bag.files else wanted
            if found != wanted:
                faults.append(Fault(702 if manifest.is_tag else 701, path, manifest.algorithm, detail=f"{wanted}:{found}"))
    return faults


def read_bag(bag):
    """What its tag files say, with the faults of their lines."""
    read = Read(faults=[] if DECLARATION in bag.files else [Fault(101, DECLARATION)])
    if DECLARATION in bag.files:
        read.version, read.faults = read_declaration(bag.files[DECLARATION])
    read.elements, faults = read_metadata(bag.files.get(METADATA, b""), read.is_older)
    read.fetched, more = read_fetch(bag.files.get(FETCH, b""), read.is_older)
    read.faults += faults + more
    for file in {**manifests_in(bag, False), **manifests_in(bag, True)}:
        algorithm = MANIFEST_NAME.fullmatch(file)[2]
        if algorithm in ALGORITHMS:
            sums, faults = read_manifest(bag.files[file], file, read.is_older)
            read.manifests.append(Manifest(file, file.startswith("tag"), algorithm, sums))
            read.faults += faults
    return read


# ---- stage 8


def label_faults(rules, elements):
    """What the rules of labels ask of the elements."""
    faults, labels = [], [lowered(element.label) for element in elements]
    for label, rule in rules.items():
        those = [element for element, its_label in zip(elements, labels) if its_label == lowered(label)]
        if rule.get("required", False) and not those:
            faults.append(Fault(802, METADATA, detail=label))
        if not rule.get("repeatable", True):
            faults += [Fault(803, METADATA, line=element.line, detail=label) for element in those[1:]]
        if rule.get("values"):
            others = [element for element in those if element.value not in rule["values"]]
            faults += [Fault(804, METADATA, line=element.line, detail=f"{label}:{element.value}") for element in others]
    return faults


def manifest_faults(profile, bag):
    """Which manifests are required or not allowed."""
    faults = []
    for is_tag, kind, name, lacking in ((False, "Manifests", "manifest", 805), (True, "Tag-Manifests", "tagmanifest", 807)):
        there, allowed = manifests_in(bag, is_tag), profile.get(f"{kind}-Allowed")
        absent = set(profile.get(f"{kind}-Required", ())) - set(there.values())
        faults += [Fault(lacking, f"{name}-{algorithm}.txt") for algorithm in absent]
        if allowed is not None:
            faults += [Fault(lacking + 1, path) for path, algorithm in there.items() if algorithm not in allowed]
    return faults


def matches(pattern, path):
    """Whether a path is as a pattern has it, in which * is any characters."""
    first, *others = pattern.split("*")
    if not others or not path.startswith(first):
        return path == pattern
    at = len(first)
    for piece in others[:-1]:
        if piece not in path[at:]:
            return False
        at = path.index(piece, at) + len(piece)
    return path[at:].endswith(others[-1])


def tag_file_faults(profile, bag):
    """Which tag files are required or not allowed."""
    faults = [Fault(809, path) for path in set(profile.get("Tag-Files-Required", ())) if path not in bag.files]
    patterns, listed = profile.get("Tag-Files-Allowed", ["*"]), {**manifests_in(bag, False), **manifests_in(bag, True)}
    for path in bag.files:
        if not is_payload(path) and path not in (DECLARATION, METADATA, FETCH, *listed):
            if not any(matches(pattern, path) for pattern in patterns):
                faults.append(Fault(810, path))
    return faults


def profile_faults(profile, bag, read):
    """Faults of the eighth stage."""
    identifier = profile["BagIt-Profile-Info"]["BagIt-Profile-Identifier"]
    named = [element.value for element in read.elements if lowered(element.label) == "bagit-profile-identifier"]
    faults = [] if identifier in named else [Fault(801, METADATA, detail=identifier)]
    faults += label_faults(profile.get("Bag-Info", {}), read.elements)
    faults += manifest_faults(profile, bag) + tag_file_faults(profile, bag)
    if FETCH in bag.files and not profile.get("Allow-Fetch.txt", True):
        faults.append(Fault(811, FETCH))
    if read.version is not None and read.version not in profile.get("Accept-BagIt-Version", [read.version]):
        faults.append(Fault(812, DECLARATION, line=1, detail=read.version))
    return faults + ([Fault(813, "")] if profile.get("Serialization") == "required" else [])


# ---- reports


def faults_of(bag, profile=None):
    """All faults of a bag, in order, also those that some options alone ask for."""
    read = read_bag(bag)
    faults = read.faults + part_faults(bag) + oxum_faults(bag, read.elements) + list_faults(bag, read)
    faults += clash_faults(bag, read) + sum_faults(bag, read)
    if profile:
        faults += profile_faults(profile, bag, read)
    return sorted(set(faults), key=place_of)


def asked_for(faults, options):
    """Those faults that a check by these options looks for, without its end."""
    last = DEPTHS[options.depth][1]
    found = [fault for fault in faults if fault.code // 100 <= last or fault.code > 800 and last > 1]
    found = [fault for fault in found if fault.code != 305 or options.depth == "fast"]
    found = [fault for fault in found if fault.code != 604 or options.clashes]
    return [fault for fault in found if not options.after or place_of(fault) > place_of(options.after)]


def report_of(name, faults, options):
    """The report of a bag of this name with these faults, and the exit status."""
    found = asked_for(faults, options)
    count = len(found)
    if options.most and count >= options.most:
        count, closing = options.most, f"{encoded(name)} stopped, faults: {options.most}"
    elif options.after:
        closing = f"{encoded(name)} rest done, faults: {count}"
    elif found:
        closing = f"{encoded(name)} has faults: {count}"
    else:
        return ("" if options.quiet else f"{encoded(name)} {DEPTHS[options.depth][2]}\n"), 0
    return "".join(f"{line}\n" for line in [*map(line_of, found[:count]), closing]), 1
