"""Why a store can't be had, in words for who has to look at it: what is seen of its file from beside the server.
Nothing is changed, and no lock is taken that a server or another program could find."""
import enum
import fcntl
import glob
import os
import pwd
import sqlite3
import stat
import struct
import tempfile
from contextlib import closing, suppress
from typing import NamedTuple
from urllib.parse import quote

SERVE = "serve"
COMMANDS = (SERVE, "check", "pgn", "examine")
MAGIC = b"SQLite format 3\0"
# what docs/RULES.md has of a store: of each column its name, type, whether it is NOT NULL, and its place in the key
COLUMNS = [("key", "BLOB", 1, 1), ("record", "BLOB", 1, 0)]
TABLE = "`CREATE TABLE records (key BLOB PRIMARY KEY NOT NULL, record BLOB NOT NULL) STRICT`"
FLOCK = "hhqqi4x"  # struct flock of Linux with 64 bits: type, whence, start, length, process
ROOM = 65536  # bytes


class Cause(enum.Enum):
    """Why a store can't be had. What can't pass by itself is marked so."""

    MISSING = "missing", True
    NOT_PERMITTED = "not permitted", True
    NO_DATABASE = "no database", True
    DAMAGED = "damaged", True
    OTHER_TABLE = "another table", True
    LOCKED = "locked", False
    DISK = "the disk", False

    @property
    def stays(self):
        return self.value[1]


class Fault(NamedTuple):
    """A cause, and what is said of it."""

    cause: Cause
    says: str


def asked(words):
    """The command of a job that has a store, and the path of that; none where it has none."""
    if not words or words[0] not in COMMANDS:
        return None
    named = [it.partition("=")[2] for it in words if it.startswith("--store=")]
    behind = [after for before, after in zip(words, words[1:]) if before == "--store"]
    return (words[0], (named + behind)[0]) if named or behind else None


def fault(command, path):
    """What keeps the command from this store; none where nothing is seen."""
    try:
        return why_not_there(command, path) or why_not_permitted(command, path) or why_no_store(path) or \
            why_not_now(command, path)
    except OSError as error:
        return Fault(Cause.NOT_PERMITTED, f"{error.filename or path}: {error.strerror}")


def fault_of_table(path):
    """Whether the file has a table of records that is another than a store's, which the program takes for one."""
    with suppress(OSError):
        if os.path.isfile(path) and os.access(path, os.R_OK):
            found = why_no_store(path)
            return found if found and found.cause is Cause.OTHER_TABLE else None
    return None


def folder_of(path):
    return os.path.dirname(os.path.abspath(path))


def why_not_there(command, path):
    if not os.path.isdir(folder_of(path)):
        return Fault(Cause.MISSING, f"there is no folder {folder_of(path)}")
    if os.path.lexists(path) and not os.path.exists(path):
        return Fault(Cause.MISSING, f"{path} is a link that leads to nothing")
    if os.path.exists(path) and not stat.S_ISREG(os.stat(path).st_mode):
        return Fault(Cause.NO_DATABASE, f"{path} is no file")
    if command != SERVE and not os.path.exists(path):
        return Fault(Cause.MISSING, f"there is no file {path}")
    return None


def why_not_permitted(command, path):
    """Whether this user may do with the file, its log and its folder what the command needs."""
    wanted = os.R_OK | os.W_OK if command == SERVE else os.R_OK
    for it in (path, path + "-wal"):
        if os.path.exists(it) and not os.access(it, wanted, effective_ids=True):
            return refused(it, "read and write" if command == SERVE else "read")
    if command == SERVE and not os.access(folder_of(path), os.W_OK | os.X_OK, effective_ids=True):
        return refused(folder_of(path), "write")
    return None


def refused(path, act):
    there = os.stat(path)
    return Fault(Cause.NOT_PERMITTED, f"{user(os.geteuid())} may not {act} {path}, which {user(there.st_uid)} has, "
                                      f"with mode {there.st_mode & 0o777:o}")


def user(number):
    try:
        return pwd.getpwuid(number).pw_name
    except KeyError:
        return f"user {number}"


def why_no_store(path):
    """What the file holds, where that is no store; what is in its log alone isn't seen."""
    if not os.path.exists(path) or not os.path.getsize(path):
        return None
    with open(path, "rb") as file:
        if file.read(len(MAGIC)) != MAGIC:
            return Fault(Cause.NO_DATABASE, f"{path} is no database of SQLite")
    try:
        # `immutable` takes no lock and leaves the log alone
        with closing(sqlite3.connect(f"file:{quote(os.path.abspath(path))}?immutable=1", uri=True)) as base:
            says = why_another(base)
    except sqlite3.Error as error:
        return Fault(Cause.DAMAGED, f"{path}: {error}")
    return Fault(Cause.OTHER_TABLE, f"{path}: {says}") if says else None


def why_another(base):
    """How the database differs from one of a store; nothing where it doesn't, or has no table of records yet."""
    rows = base.execute("SELECT type FROM sqlite_schema WHERE name = 'records' COLLATE NOCASE").fetchall()
    if rows and rows[0][0] != "table":
        return f"`records` is {rows[0][0]} and no table"
    if (coding := base.execute("PRAGMA encoding").fetchone()[0]) != "UTF-8":
        return f"its texts are {coding} and not UTF-8"
    if base.execute("PRAGMA auto_vacuum").fetchone()[0]:
        return "it has auto_vacuum"
    if not rows:
        return None
    (is_bare, is_strict), = base.execute("SELECT wr, strict FROM pragma_table_list('records') WHERE schema = 'main'")
    columns = base.execute('SELECT name, type, "notnull", pk FROM pragma_table_xinfo(\'records\')').fetchall()
    if is_bare or not is_strict or columns != COLUMNS:
        return f"its table isn't that of a store, {TABLE}"
    return None


def why_not_now(command, path):
    """What may pass: another has the file, or its disk takes nothing."""
    if os.path.exists(path) and (holder := who_has(path)):
        return Fault(Cause.LOCKED, f"{holder} has {path} open")
    if command == SERVE:
        try:
            with tempfile.TemporaryFile(dir=folder_of(path), buffering=0) as file:
                file.write(os.urandom(ROOM))
                os.fsync(file.fileno())
        except OSError as error:
            return Fault(Cause.DISK, f"nothing more can be written beside {path}: {error.strerror}")
    return None


def who_has(path):
    """Who has the file open, where there is a lock on it; nobody where there is none."""
    with open(path, "rb") as file:
        found = struct.unpack(FLOCK, fcntl.fcntl(file, fcntl.F_GETLK, struct.pack(FLOCK, fcntl.F_WRLCK, 0, 0, 0, 0)))
    if found[0] == fcntl.F_UNLCK:
        return None
    return next((name_of(it) for it in glob.glob("/proc/[0-9]*") if has_open(it, os.path.realpath(path))),
                "another program")


def has_open(process, path):
    """Whether a process, a folder of /proc, has a file open, as far as this user sees."""
    with suppress(OSError):
        for it in os.scandir(f"{process}/fd"):
            with suppress(OSError):
                if os.readlink(it.path) == path:
                    return True
    return False


def name_of(process):
    with suppress(OSError):
        with open(f"{process}/comm", encoding="utf-8") as file:
            return f"{file.read().strip()} (process {os.path.basename(process)})"
    return f"process {os.path.basename(process)}"
