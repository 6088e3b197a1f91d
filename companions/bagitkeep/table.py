"""The table of a round, also beside an earlier one."""
import csv
import io
import json
import os
from dataclasses import dataclass
from typing import Any, Dict, List, Optional, Set, Tuple

from .files import text_of
from .lines import Fault, encoded, faults_in
from .messages import Refused
from .rounds import Round, Row

FORMATS = "tsv", "csv", "json"
COLUMNS = (
    "status result faults bag begun ended depth version bagit_sha256 files"
    " bytes seal"
).split()
SINCE_COLUMNS = "change before_status before_result".split()
FIRST = ("worse", "gone", "altered")

Cells = Dict[str, Any]


@dataclass(frozen=True)
class Change:
    """A row, and how it stands to the one of an earlier round."""

    row: Row
    change: str = ""
    before: Optional[Row] = None


def faults_of(row: Row) -> Set[Fault]:
    """The faults of a report."""
    with open(row.report or os.devnull, "rb") as report:
        return set(faults_in(report))


def pinned(row: Row) -> Tuple[object, ...]:
    """What stays of a bag that nobody has altered."""
    record = row.record
    return record and (record.seal, record.files, record.size) or ()


def change_of(row: Row, old: Row) -> str:
    """How a bag's row stands to its earlier one.

    It is also worse if it has a fault that the earlier report lacks, and
    altered if it has none, but other tag files, or another number of files or
    bytes, than it had.
    """
    if row.status == 0 and old.status != 3 and pinned(row) != pinned(old):
        return "altered"
    if row.status != old.status:
        return "worse" if row.status > old.status else "better"
    if row.status == 1 and faults_of(row) - faults_of(old):
        return "worse"
    is_less = row.status == 1 and (row.faults or 0) < (old.faults or 0)
    return "better" if is_less else "same"


def changes_since(now: Round, old: Round) -> List[Change]:
    """The rows of a round, and one for each bag that only the earlier one
    has. Rounds that didn't look at the same can't be compared."""
    for option in "depth", "clashes", "profile":
        if now.options[option] != old.options[option]:
            raise Refused(
                f"{encoded(old.folder)} is a round of another {option}, and"
                " can't be compared"
            )
    before = {row.bag: row for row in old.rows()}
    changes = []
    for row in now.rows():
        was = before.pop(row.bag, None)
        how = change_of(row, was) if was is not None else "new"
        changes.append(Change(row, how, was))
    for bag, was in before.items():
        changes.append(Change(Row(3, "not in this round", bag), "gone", was))
    return changes


def cells_of(change: Change, depth: object) -> Cells:
    """The values of a row, by columns."""
    row, before = change.row, change.before
    known = vars(row.record) if row.record else {}
    found = {**known, **vars(row), "bytes": known.get("size")}
    found["depth"] = None if change.change == "gone" else depth
    cells = {name: found.get(name) for name in COLUMNS}
    if change.change:
        cells["change"] = change.change
        cells["before_status"] = before and before.status
        cells["before_result"] = before and before.result
    return cells


def tsv_field(value: object) -> str:
    """A value between tabs: a path as in reports."""
    if isinstance(value, bytes):
        return encoded(value)
    return "-" if value is None else str(value)


def written(rows: List[Cells], columns: List[str], form: str) -> str:
    """Rows in one of FORMATS. No path or result begins as a formula."""
    if form == "tsv":
        lines = [columns, *(map(tsv_field, row.values()) for row in rows)]
        return "".join("\t".join(line) + "\n" for line in lines)
    texts = [{**row, "bag": text_of(row["bag"])} for row in rows]
    if form == "json":
        return "[\n" + ",\n".join(map(json.dumps, texts)) + "\n]\n"
    out = io.StringIO()
    writer = csv.DictWriter(out, columns)
    writer.writeheader()
    writer.writerows(texts)
    return out.getvalue()


def table_of(
    a_round: Round, since: Optional[Round], form: str
) -> Tuple[str, int]:
    """The table of a round, and its status: first what became worse, is gone
    or was altered, then by status."""
    if since is None:
        changes, columns = [Change(row) for row in a_round.rows()], COLUMNS
    else:
        changes = changes_since(a_round, since)
        columns = COLUMNS + SINCE_COLUMNS
    changes.sort(key=lambda it: (it.change not in FIRST, -it.row.status))
    rows = [cells_of(it, a_round.asked.depth) for it in changes]
    status = max(it.row.status for it in changes)
    is_altered = any(it.change == "altered" for it in changes)
    return written(rows, columns, form), max(status, int(is_altered))
