"""The names of the accounts, by a store or by a list with a name a line."""

import logging
import sqlite3
import tempfile
from contextlib import suppress
from pathlib import Path

from ficsd_companions.watch import shelf

STORE_BEGINS = b"SQLite format 3\0"
TRIES = 3

logger = logging.getLogger("ficsd_companions")


class Names:
    """The names in a file, which is read where it has changed."""

    def __init__(self, file: Path) -> None:
        self.file = file
        self._marks: shelf.Marks | None = None
        self._names: frozenset[str] | None = None
        self._fault = ""

    def known(self) -> frozenset[str] | None:
        """The names, in small letters; none where the file can't be read, which is said once. It takes as long as a
        copy of a store."""
        try:
            marks = shelf.marks(self.file)
            if marks != self._marks:
                self._names, self._marks = names_in(self.file), marks
            self._fault = ""
            return self._names
        except (OSError, sqlite3.Error) as fault:
            if str(fault) != self._fault:
                logger.warning("who has an account isn't known: %s", fault)
            self._fault, self._marks = str(fault), None
            return None

    def has(self, name: str) -> bool | None:
        """Whether a name has an account; none where that isn't known."""
        known = self.known()
        return None if known is None else name.casefold() in known


def names_in(file: Path) -> frozenset[str]:
    """The names of the accounts of a store, or of a list."""
    with open(file, "rb") as read:
        begins = read.read(len(STORE_BEGINS))
        if begins != STORE_BEGINS and not shelf.log_of(file).exists():
            text = (begins + read.read()).decode("utf-8", "replace")
            return frozenset(it.strip().casefold() for it in text.splitlines() if it.strip())
    for _ in range(TRIES):  # where a server puts something into it meanwhile a copy may be none
        with suppress(sqlite3.DatabaseError), shelf.copied(file, Path(tempfile.gettempdir())) as base:
            return frozenset(shelf.names_of_accounts(base))
    raise sqlite3.DatabaseError(f"{file} can't be read")
