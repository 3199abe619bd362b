"""A store that nobody else has: what is in it, and a change that is made whole or not at all.

A change is one transaction. Before it the store is copied to a file beside it, whole and flushed, and behind it the
server's own `check` has to find in it what should be there; else the copy comes back. The store is locked all the
while, so that no server takes it.
"""

import os
import signal
import sqlite3
import subprocess
from collections.abc import Iterator, Sequence
from contextlib import closing, contextmanager, suppress
from pathlib import Path
from types import TracebackType

from ficsd_companions.cli.program import explained
from ficsd_companions.cli.replacing import flush

from . import records
from .faults import Refused, Spoiled, said_in_words
from .reading import Reading
from .records import Game

Change = tuple[str, tuple[bytes, ...]]  # a line of SQL and its values


@contextmanager
def undisturbed() -> Iterator[None]:
    """Lets Ctrl-C and the signals that end a program wait."""
    before = signal.pthread_sigmask(signal.SIG_BLOCK, {signal.SIGINT, signal.SIGTERM, signal.SIGHUP})
    try:
        yield
    finally:
        signal.pthread_sigmask(signal.SIG_SETMASK, before)


def beside(path: Path, end: str) -> Path:
    """The file beside one whose name has that end more."""
    return path.with_name(path.name + end)


def make_like(path: Path, like: os.stat_result) -> None:
    """Makes an empty file with the owner and the mode of another; by its descriptor, since its name may be led
    elsewhere meanwhile."""
    handle = os.open(path, os.O_CREAT | os.O_EXCL | os.O_WRONLY, 0o600)
    try:
        os.fchown(handle, like.st_uid, like.st_gid)
        os.fchmod(handle, like.st_mode & 0o777)
    finally:
        os.close(handle)


class Store(Reading):
    """A store that is open and locked; `checker` is the program that checks one."""

    def __init__(self, path: Path, checker: str) -> None:
        self.path, self.checker = path.resolve(), checker
        self.copy = beside(self.path, ".before")
        if not self.path.is_file():
            raise Refused(f"there is no store at {path}")
        with said_in_words(path):
            self.base = sqlite3.connect(self.path.as_uri() + "?mode=rw", uri=True, timeout=0, isolation_level=None)
        try:
            self.lock()
        except BaseException:
            self.base.close()
            raise

    def lock(self) -> None:
        """Takes the lock, which is kept until the store is closed, and looks that it is a store."""
        with said_in_words(self.path):
            for line in ("PRAGMA locking_mode = EXCLUSIVE", "PRAGMA synchronous = FULL", "BEGIN EXCLUSIVE", "COMMIT"):
                self.base.execute(line)
            self.check_table()

    def close(self) -> None:
        """Copies the log into the file, as far as there is room, and gives the lock back."""
        self.base.close()

    def __enter__(self) -> "Store":
        return self

    def __exit__(
        self, kind: type[BaseException] | None, error: BaseException | None, trace: TracebackType | None
    ) -> None:
        self.close()

    def whole(self, game: Game) -> Game:
        """The game of this head with its half-moves."""
        return self.rows("key = ?", records.read_game, values=(game.key(),))[0]

    def counts(self) -> str:
        """What `check` says of this store where all is well."""
        accounts, games = (
            self.base.execute(f"SELECT count(*) FROM records WHERE key {it} x'67'").fetchone()[0] for it in ("<", ">=")
        )
        return f"ok: {accounts} accounts, {games} games"

    def checked(self) -> str:
        """What `check` says."""
        try:
            words = [*explained(self.checker), "check", "--store", str(self.path)]
            done = subprocess.run(words, stdin=subprocess.DEVNULL, capture_output=True, text=True)
        except OSError as error:
            raise Refused(f"{self.checker}, which checks the store, can't be run: {error.strerror}") from None
        return done.stdout.strip() or done.stderr.strip() or f"status {done.returncode}"

    def make_copy(self) -> None:
        """Copies the store to the file beside it, which is there whole or not at all."""
        new, like = beside(self.copy, ".new"), self.path.stat()
        new.unlink(missing_ok=True)
        try:
            make_like(new, like)
            with closing(sqlite3.connect(new)) as copy:
                self.base.backup(copy)
            flush(new)
            new.rename(self.copy)
            flush(self.copy.parent)
        except BaseException:
            for end in ("", "-wal", "-journal", "-shm"):
                with suppress(OSError):
                    beside(new, end).unlink()
            raise

    def transact(self, lines: Sequence[Change]) -> None:
        """Runs lines of SQL with their values, all of them or none."""
        self.base.execute("BEGIN IMMEDIATE")
        try:
            for line, values in lines:
                if self.base.execute(line, values).rowcount != 1:
                    raise Refused(f"{self.path}: a record isn't as it was read; nothing was changed")
            self.base.execute("COMMIT")
        except BaseException:
            if self.base.in_transaction:
                self.base.execute("ROLLBACK")
            raise

    def change(self, lines: Sequence[Change], accounts: int = 0, games: int = 0) -> None:
        """Makes a change of so many accounts and games more; refuses it, with the store as it was, where it can't be
        made or `check` doesn't find what should be there."""
        with undisturbed(), said_in_words(self.path):
            before = self.counts()
            if (said := self.checked()) != before:
                raise Refused(f"`check` says of the store: {said}\nNothing was changed")
            self.make_copy()
            self.transact(lines)
            _, had, _, shelf, _ = before.split()
            wanted = f"ok: {int(had) + accounts} accounts, {int(shelf) + games} games"
            if (said := self.checked()) != wanted:
                self.take_back(before)
                raise Refused(f"behind the change `check` says: {said}\nThe store is again as it was")

    def take_back(self, before: str) -> None:
        """Puts the copy back, as one transaction."""
        try:
            with closing(sqlite3.connect(self.copy)) as copy:
                copy.backup(self.base)
            said = self.checked()
        except (sqlite3.Error, Refused) as error:
            said = str(error)
        if said != before:
            raise Spoiled(
                f"the change couldn't be taken back: {said}\nThe store as it was before lies in {self.copy}; "
                f"put it in place of {self.path}, without {self.path.name}-wal, while nobody "
                "has either"
            )
