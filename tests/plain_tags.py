"""Plain, slow readers of a bag's tag files: what their lines say, and which lines are faults, by RFC 8493 and by the pages FAULTS and
STANDARD of docs alone. Nothing in them is taken from the program. tests/plain.py compares the program with them.
"""
import re
import string
from dataclasses import dataclass

ALGORITHMS = {"md5": 32, "sha1": 40, "sha224": 56, "sha256": 64, "sha384": 96, "sha512": 128}  # how many hex digits a checksum has
DECLARATION, METADATA, FETCH = "bagit.txt", "bag-info.txt", "fetch.txt"
BLANKS = " \t"
MARK = "\ufeff"
LOWER = str.maketrans(string.ascii_uppercase, string.ascii_lowercase)
ESCAPES = {"%0A": "\n", "%0a": "\n", "%0D": "\r", "%0d": "\r"}
FETCH_LINE = re.compile(r"[^ \t]+[ \t]+(?:-|[0-9]+)[ \t]+([^ \t].*)", re.S)
MANIFEST_NAME = re.compile(r"(tag)?manifest-([a-z0-9]+)\.txt")
MOST = 2**64 - 1  # of the numbers of Payload-Oxum


@dataclass(frozen=True)
class Fault:
    """A fault of a bag; an empty field, or line 0, isn't given."""

    code: int
    path: str
    algorithm: str = ""
    line: int = 0
    detail: str = ""


@dataclass(frozen=True)
class Element:
    """An element of bag-info.txt."""

    line: int
    label: str
    value: str


# ---- texts


def text_of(content):
    """The text of a file, or None if it isn't UTF-8."""
    try:
        return content.decode("utf-8")
    except UnicodeDecodeError:
        return None


def lines_of(text):
    """The lines of a text: each ends with LF, CR or both; the last one needn't end so."""
    lines = re.split("\r\n|\n|\r", text)
    return lines if lines[-1] else lines[:-1]


def numbered_lines(content):
    """The lines that aren't blank, each with its number, of a file in UTF-8 without the byte order mark at its start."""
    text = text_of(content)
    lines = [] if text is None else lines_of(text.removeprefix(MARK))
    return [(number, line) for number, line in enumerate(lines, 1) if line.strip(BLANKS)]


def lowered(label):
    """A label without the case of ASCII letters."""
    return label.translate(LOWER)


# ---- paths


def path_of(spelling, is_older):
    """The path that a spelling stands for, or None: in version 1.0 a % begins an escape, and in 0.97 it may be itself."""
    escapes = ESCAPES if is_older else {**ESCAPES, "%25": "%"}
    path, at = [], 0
    while at < len(spelling):
        part = spelling[at : at + 3]
        if part in escapes:
            path.append(escapes[part])
            at += 3
        elif spelling[at] == "%" and not is_older:
            return None
        else:
            path.append(spelling[at])
            at += 1
    return "".join(path)


def is_path(text):
    """Whether a text is a path: no part of it is empty, . or .., so that it doesn't begin with /."""
    return all(part not in ("", ".", "..") for part in text.split("/"))


def is_payload(path):
    """Whether a path is that of a payload file."""
    return path.startswith("data/")


def manifest_of(path, is_tag):
    """The algorithm of a tag manifest or of a payload manifest, by its name; or an empty text."""
    name = MANIFEST_NAME.fullmatch(path)
    return name[2] if name and bool(name[1]) == is_tag else ""


# ---- tag files


def read_declaration(content):
    """The version that bagit.txt declares, or None, and the file's faults."""
    text = text_of(content)
    if text is None:
        return None, [Fault(102, DECLARATION, detail="utf8")]
    faults = [Fault(102, DECLARATION, detail="bom")] if text.startswith(MARK) else []
    lines = lines_of(text.removeprefix(MARK))
    if len(lines) != 2:
        faults.append(Fault(103, DECLARATION, detail=str(len(lines))))
    version = re.fullmatch(r"BagIt-Version: ([0-9]+\.[0-9]+)", lines[0]) if lines else None
    encoding = re.fullmatch(r"Tag-File-Character-Encoding: ([^ \t]+)", lines[1]) if len(lines) > 1 else None
    for number, read in list(enumerate((version, encoding), 1))[: len(lines)]:
        if not read:
            faults.append(Fault(104, DECLARATION, line=number))
    if version and version[1] not in ("1.0", "0.97"):
        faults.append(Fault(105, DECLARATION, line=1, detail=version[1]))
    if encoding and lowered(encoding[1]) != "utf-8":
        faults.append(Fault(106, DECLARATION, line=2, detail=encoding[1]))
    return version[1] if version else None, faults


def label_and_part(line, is_older):
    """The label of a line that begins an element, and the part of the value that stands there; or None."""
    label, colon, part = line.partition(":")
    if is_older:
        return (label.rstrip(BLANKS), part.strip(BLANKS)) if colon and label.strip(BLANKS) else None
    if not colon or not label or label[-1] in BLANKS or part[:1] not in ("", *BLANKS):
        return None
    return label, part.strip(BLANKS)


def read_metadata(content, is_older):
    """The elements of bag-info.txt, and its faults. A line that begins with a blank goes on with the line above it that doesn't."""
    begun, faults, parts = [], [], None
    for number, line in numbered_lines(content):
        if line[0] not in BLANKS:
            read = label_and_part(line, is_older)
            parts = [read[1]] if read else []
            if read:
                begun.append((number, read[0], parts))
            else:
                faults.append(Fault(301, METADATA, line=number))
        elif parts is None:
            faults.append(Fault(301, METADATA, line=number))
        else:
            parts.append(line.strip(BLANKS))
    return [Element(number, label, "\n".join(parts)) for number, label, parts in begun], faults


def read_oxum(value):
    """The numbers of a Payload-Oxum: bytes and files; or None."""
    numbers = re.fullmatch(r"([0-9]+)\.([0-9]+)", value)
    if not numbers or max(int(numbers[1]), int(numbers[2])) > MOST:
        return None
    return int(numbers[1]), int(numbers[2])


def fetch_fault(line, is_older):
    """The code of a fetch.txt line's fault, 0 for none, and the fault's detail or the path."""
    read = FETCH_LINE.fullmatch(line)
    if not read:
        return 401, ""
    spelling = read[1].removeprefix("./")
    path = path_of(spelling, is_older)
    if path is None:
        return 402, spelling
    if not is_path(path):
        return 403, path
    return (0 if is_payload(path) else 404), path


def read_fetch(content, is_older):
    """The files to fetch, each by its line and its path, and the file's faults."""
    judged = [(number, *fetch_fault(line, is_older)) for number, line in numbered_lines(content)]
    faults = [Fault(code, FETCH, line=number, detail=detail) for number, code, detail in judged if code]
    return [(number, path) for number, code, path in judged if not code], faults


def named_path(spelling, is_tag, is_older):
    """The code of the fault of a path in a manifest, 0 for none, and the fault's detail or the path."""
    spelling = spelling.removeprefix("*").removeprefix("./")
    path = path_of(spelling, is_older)
    if path is None:
        return 503, spelling
    if not is_path(path):
        return 504, path
    if not is_tag:
        return (0 if is_payload(path) else 505), path
    if is_payload(path):
        return 506, path
    return (507 if manifest_of(path, True) else 0), path


def read_manifest(content, file, is_older):
    """The checksums that a manifest gives, by path in the order of its lines, and its faults."""
    is_tag, algorithm = file.startswith("tag"), MANIFEST_NAME.fullmatch(file)[2]
    sums, faults = {}, []
    for number, line in numbered_lines(content):
        digest = re.match(r"[^ \t]*", line)[0]
        spelling = line[len(digest) :].lstrip(BLANKS)
        if not re.fullmatch("[0-9A-Fa-f]+", digest) or not spelling:
            code, detail = 501, ""
        elif len(digest) != ALGORITHMS[algorithm]:
            code, detail = 502, digest
        else:
            code, detail = named_path(spelling, is_tag, is_older)
            if not code and detail in sums:
                code = 508
        if code:
            faults.append(Fault(code, file, algorithm, number, detail))
        else:
            sums[detail] = digest.lower()
    return sums, faults
