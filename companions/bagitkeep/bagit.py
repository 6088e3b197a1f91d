"""Bags by the names of bagit-python, over the programs `bagit` and
`bagit-renew`.

    from bagitkeep import bagit

    bag = bagit.make_bag("photographs", {"Contact-Name": "Ann"})
    bag.validate()

Whether a bag is valid is said by a status of `bagit` and the closing line
that belongs to it. Without both a call raises, and no bag is called valid.
What is read of tag files here is read to be shown.
"""
import codecs
import os
import re
from contextlib import contextmanager
from datetime import date
from typing import (
    Any,
    Dict,
    Iterator,
    List,
    Mapping,
    Optional,
    Sequence,
    Tuple,
    Union,
)

from . import __version__, files, supported, tags  # noqa: F401
from .elements import (
    elements_in,
    info_of,
    is_oxum,
    key_of,
    options_of,
    refresh,
    words_of,
)
from .errors import (
    BagError,
    BagFault,
    BagManifestConflict,
    BagNotChecked,
    BagValidationError,
    ChecksumMismatch,
    FileMissing,
    ManifestErrorDetail,
    UnexpectedFile,
    Unread,
    details_of,
    message_of,
)
from .messages import explained, printable
from .program import Asked
from .runs import BagReport, Tell, alone, check, make, renew

__all__ = [
    "Bag",
    "BagError",
    "BagFault",
    "BagManifestConflict",
    "BagNotChecked",
    "BagReport",
    "BagValidationError",
    "CHECKSUM_ALGOS",
    "ChecksumMismatch",
    "DEFAULT_CHECKSUMS",
    "FileMissing",
    "ManifestErrorDetail",
    "UnexpectedFile",
    "Unread",
    "VERSION",
    "make_bag",
]

VERSION = __version__
CHECKSUM_ALGOS = tuple(tags.HEX_DIGITS)
DEFAULT_CHECKSUMS = ("sha256", "sha512")
REQUIRED = ("BagIt-Version", "Tag-File-Character-Encoding")

Path = Union[str, bytes, "os.PathLike[str]", "os.PathLike[bytes]"]
Entries = Dict[str, Dict[str, str]]


def absolute(path: Path) -> str:
    """The whole path of a folder. A `..` behind a link leads to where the
    system finds it: beside the folder that the link names."""
    text = os.fsdecode(path)
    if not text:
        raise BagError("a bag has no empty path")
    if ".." in text.split("/"):
        return os.path.realpath(text)
    return os.path.abspath(text)


@contextmanager
def reading(path: str) -> Iterator[None]:
    """Makes BagErrors of what goes wrong while a file is read."""
    try:
        yield
    except OSError as error:
        raise BagError(explained(error)) from error
    except UnicodeError as error:
        raise BagError(f"{printable(path)} isn't UTF-8") from error
    except ValueError as error:
        raise BagError(f"{printable(path)}: {error}") from error


def content_of(path: str) -> bytes:
    """The bytes of a file. A pipe isn't waited for, nor a link followed."""
    with files.opened(path) as file:
        return file.read()


def declaration_of(path: str) -> Dict[str, str]:
    """What bagit.txt declares, as far as a bag can be opened by it. Whether
    it is written as it has to be, a check says."""
    file = os.path.join(path, "bagit.txt")
    if not os.path.isfile(file):
        name = printable(file)
        raise BagError(f"Expected bagit.txt does not exist: {name}")
    with reading(file):
        elements = tags.elements_of(content_of(file), is_old=True)
    declared = dict(reversed(elements))
    missing = ", ".join(it for it in REQUIRED if it not in declared)
    if missing:
        raise BagError(f"Missing required tag in bagit.txt: {missing}")
    return declared


def manifests_in(bag: str, is_tag: bool) -> Dict[str, str]:
    """The paths of the manifests of one kind that `bagit` reads, by their
    algorithms."""
    name = "tagmanifest" if is_tag else "manifest"
    begin = os.path.join(bag, name)
    paths = {it: f"{begin}-{it}.txt" for it in CHECKSUM_ALGOS}
    return {it: path for it, path in paths.items() if os.path.isfile(path)}


def entries_in(bag: str, is_tag: bool, is_old: bool) -> Entries:
    """The digests that these manifests give, by algorithms, by paths."""
    entries: Entries = {}
    for algorithm, path in manifests_in(bag, is_tag).items():
        with reading(path):
            content = content_of(path)
            found = tags.entries_of(content, algorithm, is_tag, is_old)
        for name, digest in found.items():
            entries.setdefault(name, {})[algorithm] = digest
    return entries


def version_info_of(version: str) -> Tuple[int, int]:
    """The two numbers of a version from 0.93 to 1.x, or a BagError."""
    found = re.fullmatch(r"([0-9]{1,9})\.([0-9]{1,9})", version)
    if found is None:
        raise BagError(
            "Bag version numbers must be MAJOR.MINOR numbers, not"
            f" {printable(version)}"
        )
    numbers = int(found[1]), int(found[2])
    if not (0, 93) <= numbers < (2, 0):
        raise BagError(f"Unsupported bag version: {version}")
    return numbers


class Bag:
    """The bag at a path. It is opened by its declaration, bagit.txt; other
    tag files are read when they are asked for, and kept."""

    version: str
    version_info: Tuple[int, int]
    encoding: str
    unread: Optional[Unread]
    """What the last check couldn't read, if anything."""

    def __init__(self, path: Path) -> None:
        self.path = absolute(path)
        self.unread = None
        self._elements: List[tags.Element] = []
        self._info: Optional[Dict[str, Any]] = None
        self._open()

    def __str__(self) -> str:
        return self.path

    def _open(self) -> None:
        declared = declaration_of(self.path)
        self.version = declared["BagIt-Version"]
        self.version_info = version_info_of(self.version)
        self.encoding = declared["Tag-File-Character-Encoding"]
        self._entries: Optional[Entries] = None
        self._algorithms: Optional[List[str]] = None

    @property
    def info(self) -> Dict[str, Any]:
        """The elements of bag-info.txt: each label with its value, or with a
        list of its values. What is altered here is written by `save`."""
        if self._info is None:
            self._elements = self.elements()
            self._info = info_of(self._elements)
        return self._info

    @info.setter
    def info(self, info: Mapping[str, Any]) -> None:
        if self._info is None:
            self._elements = self.elements()
        self._info = dict(info)

    def elements(self) -> List[tags.Element]:
        """The elements of bag-info.txt as they are there, in their order."""
        file = os.path.join(self.path, "bag-info.txt")
        if not os.path.lexists(file):
            return []
        with reading(file):
            return tags.elements_of(content_of(file), self._is_old)

    @property
    def _is_old(self) -> bool:
        return self.version == "0.97"

    def has_oxum(self) -> bool:
        """Whether there is a Payload-Oxum."""
        return any(map(is_oxum, self.info))

    def manifest_files(self) -> Iterator[str]:
        """The paths of the payload manifests that `bagit` reads."""
        return iter(manifests_in(self.path, False).values())

    def tagmanifest_files(self) -> Iterator[str]:
        """The paths of the tag manifests that `bagit` reads."""
        return iter(manifests_in(self.path, True).values())

    def _read_algorithms(self) -> List[str]:
        both = manifests_in(self.path, False), manifests_in(self.path, True)
        return list({**both[0], **both[1]})

    @property
    def algorithms(self) -> List[str]:
        """The algorithms of the manifests. What is altered here is written by
        `save(manifests=True)`."""
        if self._algorithms is None:
            self._algorithms = self._read_algorithms()
        return self._algorithms

    @algorithms.setter
    def algorithms(self, algorithms: Sequence[str]) -> None:
        self._algorithms = list(algorithms)

    @property
    def entries(self) -> Entries:
        """The digests that manifests give, by algorithms, by paths."""
        if self._entries is None:
            payload, tag = [
                entries_in(self.path, is_tag, self._is_old)
                for is_tag in (False, True)
            ]
            self._entries = {**payload, **tag}
        return self._entries

    def payload_entries(self) -> Entries:
        """The entries of payload files."""
        entries = self.entries.items()
        return {it: sums for it, sums in entries if it.startswith("data/")}

    def tagfile_entries(self) -> Entries:
        """The entries of tag files."""
        entries = self.entries.items()
        return {it: sums for it, sums in entries if not it.startswith("data/")}

    def payload_files(self) -> Iterator[str]:
        """The paths of the payload files that are there."""
        place = os.path.join(os.fsencode(self.path), b"")
        with reading(self.path):
            for entry in files.files_below(place + b"data"):
                yield os.fsdecode(entry.path[len(place):])

    def fetch_entries(self) -> Iterator[Tuple[str, str, str]]:
        """The URL, the length and the path of each file to fetch."""
        file = os.path.join(self.path, "fetch.txt")
        if os.path.lexists(file):
            with reading(file):
                content = content_of(file)
                yield from tags.fetches_of(content, self._is_old)

    def files_to_be_fetched(self) -> Iterator[str]:
        """The paths of the files to fetch."""
        return (path for _, _, path in self.fetch_entries())

    def compare_fetch_with_fs(self) -> List[str]:
        """The paths of the files to fetch that aren't there yet."""
        return list(filter(self._lacks, self.files_to_be_fetched()))

    def missing_optional_tagfiles(self) -> Iterator[str]:
        """The paths of tag files that a tag manifest names and that aren't
        there."""
        return filter(self._lacks, self.tagfile_entries())

    def _lacks(self, path: str) -> bool:
        return not os.path.isfile(os.path.join(self.path, path))

    def report(
        self,
        fast: bool = False,
        completeness_only: bool = False,
        *,
        clashes: bool = False,
        profile: Optional[Path] = None,
        progress: Optional[Tell] = None,
        seconds: Optional[float] = None,
    ) -> BagReport:
        """Checks the bag, and gives all faults, and what couldn't be read.

        `profile` is a BagIt profile, a file. `progress` is called each second
        with the bytes that were read, and those of the payload; what it
        raises ends the check. After so many `seconds` it is ended too, and is
        BagNotChecked, as whenever `bagit` gives no answer.
        """
        depth = "completeness-only" if completeness_only else "full"
        asked = Asked(
            "fast" if fast else depth,
            clashes,
            None if profile is None else absolute(profile),
        )
        self.unread = None
        report = check(self.path, asked, progress, seconds)
        self.unread = report.unread
        return report

    def validate(
        self,
        processes: int = 1,
        fast: bool = False,
        completeness_only: bool = False,
        *,
        progress: Optional[Tell] = None,
        seconds: Optional[float] = None,
    ) -> bool:
        """Checks the bag, and is True if it has none of the faults that were
        looked for. A BagValidationError has all of them; BagNotChecked is
        raised if something couldn't be read, or `bagit` gave no answer.
        `processes` has no effect. The others are those of `report`.
        """
        report = self.report(
            fast, completeness_only, progress=progress, seconds=seconds
        )
        if report.status == 0:
            return True
        if report.unread is not None:
            raise BagNotChecked(printable(report.result), report.unread)
        message = message_of(self.path, report.faults)
        raise BagValidationError(message, details_of(report.faults))

    def is_valid(
        self,
        fast: bool = False,
        completeness_only: bool = False,
        *,
        progress: Optional[Tell] = None,
        seconds: Optional[float] = None,
    ) -> bool:
        """Whether `validate` finds no fault. Where nothing is known of the
        bag, this raises BagNotChecked too."""
        try:
            return self.validate(
                1, fast, completeness_only, progress=progress, seconds=seconds
            )
        except BagValidationError:
            return False

    def compare_manifests_with_fs(self) -> Tuple[List[str], List[str]]:
        """The paths of files that a manifest names and that aren't there, and
        those of payload files that a manifest doesn't name."""
        report = self.report(completeness_only=True)
        if report.unread is not None:
            raise BagNotChecked(report.result, report.unread)
        details = details_of(report.faults)
        missing = [it.path for it in details if isinstance(it, FileMissing)]
        others = [it.path for it in details if isinstance(it, UnexpectedFile)]
        return missing, others

    def save(
        self,
        processes: int = 1,
        manifests: bool = False,
        *,
        to_1_0: bool = False,
    ) -> None:
        """Writes what was altered in `info`, by `bagit-renew`. If it refuses,
        nothing is written, and a BagError has its line.

        With `manifests` what was altered in `algorithms` is written too, if
        each payload file has the digests of its manifests. With `to_1_0` a
        bag of version 0.97 becomes one of 1.0. `processes` has no effect.
        """
        info = self.info
        old = elements_in(info_of(self._elements))
        words = words_of(old, elements_in(info))
        words += self._words_of_algorithms(manifests)
        if to_1_0:
            words.append("--to-1.0")
        with reading(self.path), alone(self.path):
            if self.elements() != self._elements:
                raise BagError("bag-info.txt was altered since it was read")
            if manifests and not any(it.startswith("--add=") for it in words):
                self.validate()
            renew(self.path, words)
            self._open()
            self._elements = self.elements()
        refresh(info, self._elements)

    def _words_of_algorithms(self, manifests: bool) -> List[str]:
        old, new = self._read_algorithms(), self.algorithms
        altered = {
            "--add": ",".join(it for it in new if it not in old),
            "--drop": ",".join(it for it in old if it not in new),
        }
        words = [f"{word}={names}" for word, names in altered.items() if names]
        if words and not manifests:
            raise BagError("algorithms are altered by save(manifests=True)")
        return words


def make_bag(
    bag_dir: Path,
    bag_info: Optional[Mapping[str, Any]] = None,
    processes: int = 1,
    checksums: Optional[Sequence[str]] = None,
    checksum: Optional[Sequence[str]] = None,
    encoding: str = "utf-8",
) -> Bag:
    """Makes a folder a bag of version 1.0, in place, and opens it.

    `bag_info` are elements, with values as `Bag.info` has them, numbers or
    dates; Bagging-Date is today's if it isn't given. `checksums` are
    algorithms, `checksum` an older word for them. `processes` has no effect,
    and `encoding` is UTF-8. A BagError has the line of `bagit`.
    """
    path = absolute(bag_dir)
    if not os.path.isdir(path):
        raise RuntimeError(f"Bag directory {printable(path)} does not exist")
    words = words_of_making(checksum or checksums or DEFAULT_CHECKSUMS)
    try:
        is_utf8 = codecs.lookup(encoding).name == "utf-8"
    except LookupError:
        is_utf8 = False
    if not is_utf8:
        raise BagError(f"tag files are written in UTF-8, not in {encoding}")
    options, others = options_of(elements_in(info_to_make(bag_info or {})))
    make(path, words + options)
    if others:
        try:
            renew(path, words_of([], others))
        except BagError as error:
            what = "was made a bag, but without some elements"
            raise BagError(f"{printable(path)} {what}: {error}") from error
    return Bag(path)


def words_of_making(algorithms: Sequence[str]) -> List[str]:
    """The options of these algorithms, or a BagError."""
    names = [algorithms] if isinstance(algorithms, str) else list(algorithms)
    for name in names:
        if name not in CHECKSUM_ALGOS:
            raise BagError(f"there is no algorithm {printable(str(name))}")
    return [f"--{name}" for name in dict.fromkeys(names)]


def info_to_make(info: Mapping[str, Any]) -> Dict[str, Any]:
    """The values to write: with a Bagging-Date, without a Payload-Oxum, which
    is computed."""
    wanted = {it: value for it, value in info.items() if not is_oxum(it)}
    if all(key_of(it) != b"bagging-date" for it in wanted):
        wanted["Bagging-Date"] = date.today().isoformat()
    return wanted
