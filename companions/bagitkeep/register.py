"""The register: an archive's memory of its bags, in one database.

    register.sqlite    the bags, what was found of them, what people said
    register.copy      the same, as it was after the last audit
    rounds/000001/     a round, as `bagit-keep round` has it
    receipts/          those of `bagit-keep receive`, and a page of each
    lock, asked        are locked by who audits, or checks some bags

Each row has the SHA-256 of its values, so that a bit that changes in the
file is an error by name. Nothing here says how a bag is: that is read from
reports, which `bagit` has written.
"""
import fcntl
import hashlib
import json
import os
import sqlite3
from contextlib import closing, contextmanager, suppress
from os.path import join
from typing import Any, Dict, Iterator, List, Optional

from .files import EXCLUSIVE, has_lock, sync_folder, text_of
from .lines import encoded
from .messages import Refused, now

FORMAT = 1
APPLICATION = 0x62616769
SECONDS = 60.0

COLUMNS = {
    "settings": ["name", "value"],
    "bags": "path is_kept seal files bytes adopted read".split(),
    "findings": "bag kind text since known".split(),
    "events": "at bag kind data".split(),
    "rounds": "name begun ended results".split(),
}
"""The columns of each table, beside `id` and `digest`."""

DAMAGE = (
    "malformed", "not a database", "unsupported file format", "no such",
    "decode",
)
"""What is in a message of SQLite if the database isn't what was written; all
others are of a disk that is full, or of a file that can't be used. Before
Python 3.11 a message that isn't UTF-8 is empty."""

UNIQUE = {
    "settings": "name",
    "bags": "path",
    "findings": "bag, kind, text",
    "rounds": "name",
}

LOST = """
SELECT 'events' WHERE (SELECT count(*) <> max(id) FROM events)
UNION SELECT 'events' FROM bags WHERE NOT EXISTS (SELECT 1 FROM events)
UNION SELECT 'bags' FROM events
    WHERE bag IS NOT NULL AND bag NOT IN (SELECT id FROM bags)
UNION SELECT 'settings' WHERE EXISTS (SELECT 1 FROM events)
    AND (SELECT count(*) FROM settings WHERE name IN ('stores', 'every')) < 2
"""
"""Tables that lack a row: no event or bag is ever removed."""

ENCODER = json.JSONEncoder(default=repr)

Row = Dict[str, Any]


def path_of(text: str) -> bytes:
    """The path that `text_of` has made a text of."""
    return text.encode("utf-8", "surrogateescape")


def plain(value: Any) -> Any:
    """A value as the database takes it: a text that isn't ASCII, as a path of
    any bytes, is a string of JSON."""
    if isinstance(value, str):
        if not value.isascii() or value[:1] == '"':
            return json.dumps(value)
    return value


def unplain(value: Any) -> Any:
    if isinstance(value, str) and value[:1] == '"':
        return json.loads(value)
    return value


def digest_of(table: str, values: List[Any]) -> str:
    """The digest of a row, whose first value is its number. A value that is
    none that JSON has was never put there, and has another digest."""
    text = ENCODER.encode([table, *values])
    return hashlib.sha256(text.encode()).hexdigest()


class Register:
    """An open register. What is changed in a `with self.changing()` is
    changed as a whole, or not at all."""

    def __init__(self, folder: bytes, is_only_read: bool = False) -> None:
        self.folder = folder
        self.path = join(folder, b"register.sqlite")
        if not os.path.isfile(self.path):
            raise Refused(f"{encoded(folder)} is no register")
        with self.reading():
            self._base = connect(self.path)
            self._base.execute(f"PRAGMA query_only = {int(is_only_read)}")
            found = self._base.execute("PRAGMA integrity_check").fetchone()
            kind = self._base.execute("PRAGMA application_id").fetchone()
            form = self._base.execute("PRAGMA user_version").fetchone()
            query = "SELECT sql FROM sqlite_master WHERE sql IS NOT NULL"
            tables = self._base.execute(query).fetchall()
        if kind[0] != APPLICATION or form[0] != FORMAT:
            raise Refused(f"{encoded(folder)} is of another program", 3)
        if found[0] != "ok":
            raise self.altered(str(found[0]))
        if {it[0] for it in tables} != set(statements()):
            raise self.altered("its tables are others")
        with self.reading():
            lost = self._base.execute(LOST).fetchone()
        if lost is not None:
            raise self.altered(f"a row of {lost[0]} was removed")

    def altered(self, why: str) -> Refused:
        where = encoded(self.path)
        return Refused(
            f"{where} was altered or is damaged ({why}): put register.copy in"
            " its place, and audit again",
            3,
        )

    def close(self) -> None:
        self._base.close()

    @contextmanager
    def reading(self) -> Iterator[None]:
        """Has what goes wrong with the database be said by its name."""
        try:
            yield
        except UnicodeDecodeError as error:  # of a message of SQLite
            raise self.altered("malformed database schema") from error
        except sqlite3.Error as error:
            where, text = encoded(self.path), str(error)
            if "locked" in text:
                text = f"{where} is in use by another process"
                raise Refused(text, 3) from error
            if not text or any(it in text for it in DAMAGE):
                raise self.altered(text or "malformed") from error
            if "is full" in text:
                why = "make room, and give the command again"
            else:
                why = "see why, and give the command again"
            text = f"{where} can't be read or written ({text}): {why}"
            raise Refused(text, 3) from error

    @contextmanager
    def changing(self) -> Iterator[None]:
        """One change, which is durable when it ends."""
        with self.reading():
            self._base.execute("BEGIN IMMEDIATE")
            try:
                yield
            except BaseException:
                if self._base.in_transaction:
                    self._base.execute("ROLLBACK")
                raise
            self._base.execute("COMMIT")

    def rows(self, table: str, where: str = "1", *values: Any) -> List[Row]:
        """The rows of a table, in the order of their numbers, each with the
        digest that it has to have."""
        names = ["id", *COLUMNS[table], "digest"]
        query = f"SELECT {', '.join(names)} FROM {table} WHERE {where}"
        with self.reading():
            found = self._base.execute(
                f"{query} ORDER BY id", list(map(plain, values))
            ).fetchall()
        for row in found:
            if digest_of(table, list(row[:-1])) != row[-1]:
                raise self.altered(f"row {row[0]} of {table}")
        return [dict(zip(names, map(unplain, row))) for row in found]

    def add(self, table: str, **values: Any) -> int:
        """Adds a row, and gives its number."""
        query = f"SELECT coalesce(max(id), 0) + 1 FROM {table}"
        number: int = self._base.execute(query).fetchone()[0]
        self.put(table, number, values)
        return number

    def put(self, table: str, number: int, values: Row) -> None:
        """Puts the row of this number."""
        names = COLUMNS[table]
        row = [number, *(plain(values[name]) for name in names)]
        marks = ", ".join("?" * (len(row) + 1))
        sets = ", ".join(f"{it} = excluded.{it}" for it in [*names, "digest"])
        self._base.execute(
            f"INSERT INTO {table} (id, {', '.join(names)}, digest)"
            f" VALUES ({marks}) ON CONFLICT (id) DO UPDATE SET {sets}",
            [*row, digest_of(table, row)],
        )

    def alter(self, table: str, row: Row, **values: Any) -> None:
        """Puts a row that was read, with other values."""
        self.put(table, row["id"], {**row, **values})

    def remove(self, table: str, row: Row) -> None:
        self._base.execute(f"DELETE FROM {table} WHERE id = ?", [row["id"]])

    def note(self, kind: str, bag: Optional[int], **data: Any) -> None:
        """Adds an event. None is ever changed or removed."""
        text = json.dumps(data, sort_keys=True)
        self.add("events", at=now(), bag=bag, kind=kind, data=text)

    def bag_at(self, path: bytes) -> Row:
        """The bag at a path, which has to be there."""
        found = self.rows("bags", "path = ?", text_of(path))
        if not found:
            raise Refused(f"the register has no bag {encoded(path)}")
        return found[0]

    def kept_at(self, path: bytes) -> Row:
        """The bag at a path, which has to be one that is kept."""
        bag = self.bag_at(path)
        if not bag["is_kept"]:
            text = f"{encoded(path)} is retired: adopt takes it again"
            raise Refused(text)
        return bag

    def setting(self, name: str) -> Any:
        found = self.rows("settings", "name = ?", name)
        return json.loads(found[0]["value"]) if found else None

    def set(self, name: str, value: Any) -> None:
        """Has a setting have this value."""
        values = {"name": name, "value": json.dumps(value)}
        for row in self.rows("settings", "name = ?", name):
            return self.alter("settings", row, **values)
        self.add("settings", **values)

    def verify(self) -> None:
        """Reads all rows, each of which has to have its digest."""
        for table in COLUMNS:
            self.rows(table)

    def copy(self) -> None:
        """Puts a copy beside the register, whole and durable, unless a row of
        the register was altered: then the copy before stays."""
        self.verify()
        draft = join(self.folder, b".draft-" + os.urandom(8).hex().encode())
        try:
            with self.reading(), closing(connect(draft)) as other:
                self._base.backup(other)
            with open(draft, "rb") as file:
                os.fsync(file)
            os.rename(draft, join(self.folder, b"register.copy"))
        finally:
            with suppress(FileNotFoundError):
                os.unlink(draft)
        sync_folder(self.folder)


def forget_new(register: Register, path: str) -> None:
    """Has it say that no new bag is found at this path any more."""
    for row in register.rows("findings", "kind = 'new' AND text = ?", path):
        register.remove("findings", row)
        register.note("gone", None, of="new", text=path)


def take(register: Register, path: str, **values: Any) -> int:
    """Takes a bag into the register, also one that was retired; gives its
    number."""
    forget_new(register, path)
    row_now = {**values, "path": path, "is_kept": 1, "adopted": now()}
    ours = register.rows("bags", "path = ?", path)
    if ours:
        bag: int = ours[0]["id"]
        register.put("bags", bag, row_now)
    else:
        bag = register.add("bags", **row_now)
    register.note("adopted", bag, **values)
    return bag


def connect(path: bytes) -> sqlite3.Connection:
    base = sqlite3.connect(
        os.fsdecode(path), timeout=SECONDS, isolation_level=None
    )
    base.execute("PRAGMA synchronous = FULL")
    return base


def statements() -> List[str]:
    """What makes the tables, as SQLite keeps it."""
    made = []
    for table, columns in COLUMNS.items():
        unique = f", UNIQUE ({UNIQUE[table]})" if table in UNIQUE else ""
        names = f"{', '.join(columns)}, digest{unique}"
        made.append(f"CREATE TABLE {table} (id INTEGER PRIMARY KEY, {names})")
    return [*made, "CREATE INDEX of_bag ON events (bag)"]


def make(folder: bytes, settings: Row) -> None:
    """Makes a register in a folder of its own, whole or not at all."""
    os.makedirs(folder, exist_ok=True)
    if [name for name in os.listdir(folder) if name[:7] != b".draft-"]:
        raise Refused(f"{encoded(folder)} is not empty")
    draft = join(folder, b".draft-" + os.urandom(8).hex().encode())
    os.mkdir(draft)
    path = join(draft, b"register.sqlite")
    with closing(connect(path)) as base:
        base.execute(f"PRAGMA application_id = {APPLICATION}")
        base.execute(f"PRAGMA user_version = {FORMAT}")
        for statement in statements():
            base.execute(statement)
    with closing(Register(draft)) as register, register.changing():
        for name, value in settings.items():
            register.add("settings", name=name, value=json.dumps(value))
        register.note("init", None, **settings)
    os.rename(path, join(folder, b"register.sqlite"))
    os.rmdir(draft)
    sync_folder(folder)


@contextmanager
def alone(
    folder: bytes, name: bytes = b"lock", shared: bool = False
) -> Iterator[None]:
    """Locks a register for one process of a kind, or for those that share
    the work. Nothing is done where nothing can be locked, as in a database
    there."""
    if not os.path.isdir(folder):
        raise Refused(f"{encoded(folder)} is no register")
    how = fcntl.LOCK_SH | fcntl.LOCK_NB if shared else EXCLUSIVE
    with open(join(folder, name), "a+b") as file:
        is_locked = has_lock(fcntl.lockf, file, how)
        if is_locked is None:
            text = "a register is kept on a disk that has locks"
            raise Refused(f"{encoded(folder)} can't be locked: {text}", 3)
        if not is_locked:
            text = f"another process is at work in {encoded(folder)}"
            raise Refused(text, 3)
        yield
