"""What is seen of a club from beside it, at one look."""

import asyncio
import re
import time
from dataclasses import dataclass, field
from pathlib import Path

from ficslink.lines import GameListed

from ficsd_companions.accounts.faults import Refused
from ficsd_companions.accounts.reading import copied
from ficsd_companions.accounts.records import GAMES_FROM

from . import guest, shelf

SECONDS = 10  # for the hall to answer
COUNTING = 50  # times as long as a count took is waited before the next one
ROW = re.compile(r'(ficsd_refused_total\{by="\w+",why="[\w ]+"\}) (\d+)')


@dataclass
class Seen:
    """One look; what isn't known is none."""

    members: int | None = None
    games: int | None = None
    accounts: int | None = None
    stored: int | None = None
    waits: float = 0  # seconds for which the disk of the store has taken nothing: no order waits longer
    store_bytes: int | None = None
    archive_bytes: int | None = None
    free_bytes: int | None = None
    refused: dict[str, int] = field(default_factory=dict)  # by the name and the labels of the metric
    troubles: list[str] = field(default_factory=list)  # in words


@dataclass
class Places:
    """Where it is looked."""

    store: Path
    port: int | None = None
    archive: Path | None = None
    counts: list[Path] = field(default_factory=list)


class Watcher:
    """Looks again and again; `waited` is for how long the disk has taken nothing, as another has seen it."""

    def __init__(self, places: Places, waited: float = 0) -> None:
        self.places = places
        self.full_since: float | None = time.monotonic() - waited if waited else None
        self.kept: tuple[int, int] | None = None  # accounts and games, as they were counted last
        self.marks: shelf.Marks = []
        self.next_count = 0.0

    def look(self) -> Seen:
        seen = Seen()
        self.look_at_disk(seen)
        try:
            self.look_at_store(seen)
        except OSError as error:
            seen.troubles.append(f"the store can't be looked at: {error}")
        if self.places.port:
            try:
                seen.members = guest.members(self.places.port)
                answer = asyncio.run(guest.answer_to("games", self.places.port, SECONDS))
                seen.games = len(answer.all(GameListed))
            except guest.NoAnswer as why:
                seen.troubles.append(str(why))
        if self.places.archive:
            seen.archive_bytes = size_of(self.places.archive)
        for file in self.places.counts:
            seen.refused |= counted(file)
        return seen

    def look_at_disk(self, seen: Seen) -> None:
        """Whether the disk takes bytes, and since when it hasn't."""
        try:
            seen.free_bytes = shelf.free_mebibytes(self.places.store) * 2**20
            why = shelf.why_no_room(self.places.store)
        except OSError as error:
            why = error.strerror
        if not why:
            self.full_since = None
            return
        self.full_since = self.full_since or time.monotonic()
        seen.waits = time.monotonic() - self.full_since
        seen.troubles.append(
            f"the disk of the store takes nothing ({why}), for {seen.waits:.0f} seconds: what is new isn't kept"
        )

    def look_at_store(self, seen: Seen) -> None:
        """How much is in the store. It is counted anew where it has changed, and where the last count was long ago for
        what it took."""
        store = self.places.store
        files = [it for it in (store, shelf.log_of(store)) if it.exists()]
        seen.store_bytes = sum(it.stat().st_size for it in files)
        begin, marks = time.monotonic(), shelf.marks(store)
        if marks != self.marks and begin >= self.next_count:
            try:
                self.kept, self.marks = counts_of(store), marks
            except Refused as why:
                seen.troubles.append(f"the store can't be counted: {why}")
            self.next_count = time.monotonic() + COUNTING * (time.monotonic() - begin)
        if self.kept:
            seen.accounts, seen.stored = self.kept


def counts_of(store: Path) -> tuple[int, int]:
    """How many accounts and games a store has."""
    with copied(store) as copy:
        line = "SELECT count(*) FROM records WHERE key < ?"
        accounts = int(copy.base.execute(line, (GAMES_FROM,)).fetchone()[0])
        return accounts, int(copy.base.execute("SELECT count(*) FROM records").fetchone()[0]) - accounts


def size_of(folder: Path) -> int | None:
    """The bytes of all files below a folder; none where it can't be read."""
    try:
        return sum(it.stat().st_size for it in folder.rglob("*") if it.is_file()) if folder.is_dir() else None
    except OSError:
        return None


def counted(file: Path) -> dict[str, int]:
    """What a go-between has refused, as it stands in its file; nothing where it has none."""
    try:
        return {name: int(count) for name, count in ROW.findall(file.read_text(encoding="utf-8"))}
    except (OSError, UnicodeDecodeError):
        return {}
