"""Why nothing was changed, or nothing is shown, in words."""

import sqlite3
from collections.abc import Iterator
from contextlib import contextmanager
from pathlib import Path

WHO_HAS_IT = (
    "database is locked: a server has it open, or a sqlite3. Stop the server first, as by "
    "`systemctl stop ficsd`, and start it again behind the change"
)


class Refused(Exception):
    """Why nothing was changed."""


class Spoiled(Exception):
    """A change that could neither be kept nor be taken back."""


def words_of(error: sqlite3.Error, path: Path) -> str:
    """What an error of SQLite means to an operator."""
    code = getattr(error, "sqlite_errorname", "") or ""
    if code.startswith(("SQLITE_BUSY", "SQLITE_LOCKED")):
        return f"{path}: {WHO_HAS_IT}"
    if code.startswith(("SQLITE_FULL", "SQLITE_IOERR")):
        return f"{path}: {error}: the disk is full, or doesn't take what is written. `df` shows how much room there is"
    if code.startswith(("SQLITE_READONLY", "SQLITE_CANTOPEN", "SQLITE_PERM")):
        return f"{path}: {error}: this user may not write it or its folder; the user that serves may, and root"
    return f"{path}: {error}"


@contextmanager
def said_in_words(path: Path) -> Iterator[None]:
    """Errors of SQLite and of the system become a refusal."""
    try:
        yield
    except sqlite3.Error as error:
        raise Refused(words_of(error, path)) from None
    except OSError as error:
        raise Refused(f"{error.filename or path}: {error.strerror}") from None
