"""What `bagitkeep.bagit` raises, by the names that bagit-python has."""
from typing import Iterable, List, NamedTuple, Optional, Sequence

from .lines import Fault
from .messages import printable

MISSING = (601, 602)
UNEXPECTED = (603,)
DIFFERENT = (701, 702)
NAMED_AGAIN = (508,)


class Unread(NamedTuple):
    """What of a bag couldn't be read, by its path (empty for the folder
    itself), and the cause, a word of docs/FAULTS.md."""

    path: str
    cause: str


class BagError(Exception):
    """What was asked of a bag wasn't done."""


class BagNotChecked(BagError):
    """Nothing is known of a bag, or of what comes after `unread` in it: it
    couldn't be read, or `bagit` gave no answer."""

    def __init__(self, message: str, unread: Optional[Unread] = None) -> None:
        super().__init__(message)
        self.unread = unread


class ManifestErrorDetail(BagError):
    """A fault of a bag, at a path in it, and what is said of this."""

    says = ""

    def __init__(self, path: str) -> None:
        super().__init__(path)
        self.path = path

    def __str__(self) -> str:
        return f"{printable(self.path)} {self.says}".rstrip()


class BagValidationError(BagError):
    """A bag has faults; `details` are all that were looked for."""

    def __init__(
        self,
        message: str,
        details: Optional[Sequence[ManifestErrorDetail]] = None,
    ) -> None:
        super().__init__(message)
        self.message = message
        self.details: List[ManifestErrorDetail] = list(details or ())

    def __str__(self) -> str:
        details = "; ".join(map(str, self.details))
        return f"{self.message}: {details}" if details else self.message


class ChecksumMismatch(ManifestErrorDetail):
    """A file has another digest than a manifest gives."""

    def __init__(
        self,
        path: str,
        algorithm: Optional[str] = None,
        expected: Optional[str] = None,
        found: Optional[str] = None,
    ) -> None:
        super().__init__(path)
        self.algorithm = algorithm
        self.expected = expected
        self.found = found

    def __str__(self) -> str:
        return (
            f"{printable(self.path)} {self.algorithm} validation failed:"
            f' expected="{self.expected}" found="{self.found}"'
        )


class FileMissing(ManifestErrorDetail):
    """A manifest names a file that isn't there."""

    says = "exists in manifest but was not found on filesystem"


class UnexpectedFile(ManifestErrorDetail):
    """A payload file that a manifest should name, and doesn't."""

    says = "exists on filesystem but is not in the manifest"


class BagManifestConflict(ManifestErrorDetail):
    """A manifest names a path again."""

    def __init__(self, path: str, algorithm: Optional[str] = None) -> None:
        super().__init__(path)
        self.algorithm = algorithm

    def __str__(self) -> str:
        return (
            f"{self.algorithm} manifest lists {printable(self.path)} multiple"
            " times"
        )


class BagFault(ManifestErrorDetail):
    """Any other fault, as its line in the report."""

    def __init__(self, fault: Fault) -> None:
        super().__init__(fault.path)
        self.args = (fault,)  # by which it is made again from a pickle
        self.fault = fault

    def __str__(self) -> str:
        return str(self.fault)


def detail_of(fault: Fault) -> ManifestErrorDetail:
    """The detail that a fault is."""
    if fault.code in MISSING:
        return FileMissing(fault.path)
    if fault.code in UNEXPECTED:
        return UnexpectedFile(fault.path)
    if fault.code in DIFFERENT:
        expected, _, found = fault.detail.partition(":")
        return ChecksumMismatch(fault.path, fault.algorithm, expected, found)
    if fault.code in NAMED_AGAIN:
        return BagManifestConflict(fault.detail, fault.algorithm)
    return BagFault(fault)


def details_of(faults: Iterable[Fault]) -> List[ManifestErrorDetail]:
    """The details of faults. A file that is missing, or in no manifest, is
    one of them, whatever the number of its algorithms."""
    details, seen = [], set()
    for fault in faults:
        key = fault.code, fault.path
        if key not in seen:
            details.append(detail_of(fault))
        if fault.code in MISSING + UNEXPECTED:
            seen.add(key)
    return details


def message_of(path: str, faults: Sequence[Fault]) -> str:
    """The message of what bagit-python would meet first."""
    first = {fault.code: fault for fault in reversed(faults)}
    if 201 in first:
        folder = printable(f"{path}/data")
        return f"Expected data directory {folder} does not exist"
    if 202 in first:
        return "No manifest files found"
    if 102 in first and first[102].detail == "bom":
        return "bagit.txt must not contain a byte-order mark"
    if 305 in first:
        return "Fast validation requires bag-info.txt to include Payload-Oxum"
    if 302 in first:
        value = printable(first[302].detail)
        return f"Malformed Payload-Oxum value: {value}"
    if 304 in first:
        return oxum_message(first[304].detail)
    if any(600 <= code < 700 for code in first):
        return "Bag is incomplete"
    return "Bag validation failed"


def oxum_message(detail: str) -> str:
    """The message of a Payload-Oxum, and what was found, as B.F:B.F."""
    expected, _, found = detail.partition(":")
    size, _, files = expected.partition(".")
    found_size, _, found_files = found.partition(".")
    return (
        f"Payload-Oxum validation failed. Expected {files} files and {size}"
        f" bytes but found {found_files} files and {found_size} bytes"
    )
