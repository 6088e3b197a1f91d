#!/usr/bin/env python3
"""What tests/report.sh compares by: the lines that stand in case files, and the report that data were made of.

usage: tests/report.py cases FOLDER FAULTS.md OUT
       tests/report.py json|csv|tsv <DATA

The first writes files of OUT: `faults`, every line of a fault in the case files; `no-faults`, those that their rows
call none; `status-N`, the reports that they want of `bagit` with that status, and those of parts that it joins. The
second prints the lines that the data say.
"""
import csv
import json
import re
import sys
from pathlib import Path

ESCAPE = re.compile(r"\\(x[0-9A-Fa-f]{2}|.)|\$\{([^}*]+)(?:\*(\d+))?\}")
LETTERS = {"n": "\n", "r": "\r", "t": "\t", "s": " "}
NUL_READ = "\uE000"  # in place of a NUL, which csv can't read before Python 3.11
FAULT = re.compile(r"([1-9]\d\d) ([a-z0-9-]+) ")
CLASHES = {"": "", True: ", clashes", "true": ", clashes"}  # of JSON and of cells


def encoded(text):
    if text in ("", "-"):
        return "%2D" if text else "-"
    text = text.replace(NUL_READ, "\0")
    return "".join(chr(byte) if 32 < byte < 127 and byte != 37 else f"%{byte:02X}" for byte in text.encode())


def line_of(record):
    if record.get("code"):
        fields = (encoded(record["path"]), record["algorithm"] or "-", record["line"] or "-", encoded(record["detail"]))
        return " ".join([str(record["code"]), record["word"], *map(str, fields)])
    if record.get("word"):
        return f"{record['word']} {encoded(record['detail'])}"
    line = f"{encoded(record['bag'])} {record['ended']}"
    if record["ended"] == "not made":
        read = f" {encoded(record['path'])}" if record["detail"] == "read" else ""
        cause = f" {record['cause']}" if record.get("cause") else ""
        return f"{line}: {record['detail']}{read}{cause}"
    if record["ended"] == "unread":
        line += f" {encoded(record['path'])} {record['cause']}"
    if record.get("part"):
        line = f"{encoded(record['bag'])} part {record['part']} {record['ended']}, files: {record['files']}, bytes: {record['bytes']}"
        line += CLASHES[record.get("clashes", "")]
        profile = f", profile: {record['profile']}" if record.get("profile") else ""
        return f"{line}{profile}, faults: {record['faults']}"
    if record["ended"] == "has faults":
        return f"{line}: {record['faults']}"
    return f"{line}, faults: {record['faults']}" if record.get("faults") not in (None, "") else line


def without_marks(record):
    """A row without the `'` in front of what a spreadsheet would take for a formula."""
    if any(value and re.match("[=+@\t\r-]", value) for value in record.values()):
        sys.exit(f"a formula: {record}")
    return {name: re.sub("^'(?='*[=+@\t\r-])", "", value) for name, value in record.items()}


def print_report(form):
    if form == "json":
        records = map(json.loads, sys.stdin)
    else:
        sys.stdin.reconfigure(encoding="utf-8", newline="")
        lines = (line.replace("\0", NUL_READ) for line in sys.stdin)
        records = map(without_marks, csv.DictReader(lines, dialect="excel" if form == "csv" else "excel-tab", strict=True))
    for record in records:
        print(line_of(record))


def expanded(value, texts):
    """A value of a case file (docs/CASES.md, 'Lines'), each byte as a character."""

    def one(found):
        escape, name, times = found.groups()
        if name:
            return texts[name] * int(times or 1)
        return chr(int(escape[1:], 16)) if len(escape) == 3 else LETTERS.get(escape, escape)

    return ESCAPE.sub(one, value)


def entries_of(path):
    """Each entry of a case file: its line, and those below it that say what is wanted."""
    head, below = "", []
    for line in path.read_text("latin-1").split("\n"):
        if re.match(r"(?:[|!?]|!disk|then)(?: |$)", line):
            below.append(line)
        elif line and not line.startswith("#"):
            yield head, below
            head, below = line, []
    yield head, below


def wanted_lines(below, texts):
    """The lines of an output with their line ends; a backslash at a line's end takes it away."""
    for line in below:
        if line.startswith("|"):
            is_cut = re.search(r"(?<!\\)(?:\\\\)*\\$", line)
            yield expanded(line[2:-1], texts) if is_cut else expanded(line[2:], texts) + "\n"


class Cases:
    """The lines of reports in case files."""

    def __init__(self, codes):
        self.codes = codes
        self.files = {"faults": [], "no-faults": []}

    def take_file(self, path):
        texts, given, reader = {}, {}, ""
        for head, below in entries_of(path):
            kind, _, rest = head.partition(" ")
            if kind in ("text", "beside"):
                name, is_here, value = rest.partition(" = ")
                into = texts if kind == "text" else given
                into[name] = expanded(value, texts) if is_here else "".join(wanted_lines(below, texts))
            elif kind == "read":
                reader = rest
            elif kind == "-" and reader == "line":
                sides = re.split("(?:^| )=>(?: |$)", rest, maxsplit=1)
                left, right = (expanded(side.strip(" "), texts) for side in sides)
                if "\n" not in left:  # else it is two lines
                    self.files["no-faults" if right == "not a fault line" else "faults"].append(f"{left}\n")
            elif kind == "$":
                self.take_output(head, below, list(wanted_lines(below, texts)), path.parent.name == "broken")
                if " --join " in head and "? 3" not in below:
                    parts = "".join(given[word] for word in head.split() if word in given)
                    self.files["status-1"] += parts.splitlines(True)  # the status of each part

    def take_output(self, command, below, lines, is_broken):
        """The faults among the lines, and a whole report. Files of `broken` want what isn't so, as another word."""
        found = [line for line in lines if FAULT.match(line) and line.endswith("\n")]
        faults = [line for line in found if FAULT.match(line).groups() in self.codes]
        if faults != found and not is_broken:
            sys.exit(f"a line of a code that isn't among {len(self.codes)}, below {command}")
        self.files["faults"] += faults
        is_report = command.startswith("$ bagit ") and not re.search(" (--quiet|--help|-h)( |$)", command)
        if lines and is_report and not is_broken:
            statuses = [line[2:] for line in below if line.startswith("?")] or ["0"]
            self.files.setdefault(f"status-{statuses[0]}", []).extend(lines)


def write_cases(folder, page, out):
    cases = Cases(set(re.findall(r"^\| *(\d{3}) *\| *`([a-z0-9-]+)`", Path(page).read_text(), re.M)))
    for path in sorted(Path(folder).rglob("*.cases")):
        cases.take_file(path)
    for name, lines in cases.files.items():
        with open(Path(out) / name, "w", encoding="latin-1", newline="") as file:
            file.writelines(lines)


if __name__ == "__main__":
    if sys.argv[1] == "cases":
        write_cases(*sys.argv[2:])
    else:
        print_report(sys.argv[1])
