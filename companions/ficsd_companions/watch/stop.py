"""What the unit of a server does at a stop, around the cutting of all links, by which running games of one board
between players with accounts are adjourned: `note` writes down what runs before it, and `keep` waits behind it until
the store has stopped growing, and says what is kept.

usage: stop_server note FILE [--seconds N] --port P --store STORE
       stop_server keep FILE [--seconds N] [--counting M] --store STORE
       stop_server keep FILE --ended --store STORE

FILE is what `note` writes and `keep` reads. `note` takes N seconds at most, 10 where they are left out, so that nothing
holds the cutting off. `keep` waits N seconds at most, 60 where they are left out, and 10 more to look at the disk; then
`ficsd check` counts what is kept for M seconds at most, 30 where they are left out. With `--ended` the server has ended
already, and nothing is waited for. Copies of the store are made beside
FILE, which lies in memory, since the disk may be full. Where the server has ended by itself neither does anything.
Statuses: 0; 4, of `keep`: the disk takes nothing, so what is new isn't kept; 2 other words than these.
"""

import argparse
import json
import os
import signal
import sqlite3
import time
from dataclasses import asdict, dataclass
from pathlib import Path
from typing import Any

from ficsd_companions.accounts.records import BadRecord
from ficsd_companions.cli.program import program
from ficsd_companions.cli.words import count, port

from . import guest, shelf

LOOK_EVERY = 0.1  # seconds
AT_MOST = {"note": 10, "keep": 60}  # seconds, where no others are said
TO_LOOK = 10  # seconds behind the wait, to look at the store and its disk
TO_WRITE = 1  # seconds of `note` behind the wait for room in a full hall
# for so many seconds nothing is put: one where all that ran is kept, more where something is missing or may be
AT_REST, AT_REST_WITH_SOME_MISSING = 1, 5
NOT_KEPT = 4
FAULT, WARNING = "<3>", "<4>"  # by which the journal knows a line of an error, and one of a warning


class Chosen(argparse.Namespace):
    """The words of the command line."""

    act: str
    file: Path
    store: Path
    port: int
    seconds: int | None
    counting: int
    has_ended: bool
    program: str

    @property
    def most(self) -> int:
        """How many seconds it may take."""
        return self.seconds or AT_MOST[self.act]


@dataclass(frozen=True)
class Noted:
    """What `note` has found before the links are cut, as far as it knew it."""

    shelf: int = 0  # games that were adjourned before
    running: int | None = None  # games that a cut link adjourns; none where nobody knows
    numbers: tuple[int, ...] | None = None  # of those that were adjourned before; none where nobody knows
    players: tuple[tuple[str, ...], ...] = ()  # of those that run

    @classmethod
    def of(cls, known: dict[str, Any]) -> "Noted":
        """What was written down so; `TypeError` where it wasn't."""
        numbers, players = known.pop("numbers"), known.pop("players")
        return cls(**known, numbers=numbers and tuple(numbers), players=tuple(map(tuple, players)))

    def missing(self, games: int) -> int:
        """How many of the games that ran aren't among so many on the shelf; none where nobody knows."""
        return max(0, self.shelf + self.running - games) if self.running else 0


def end_in(seconds: int) -> None:
    """Ends by a TimeoutError what takes longer."""

    def late(*_: object) -> None:
        raise TimeoutError(f"it took longer than {seconds} seconds")

    signal.signal(signal.SIGALRM, late)
    signal.alarm(seconds)


def note(chosen: Chosen) -> int:
    """Writes down how many games are on the shelf, and how many run that a cut link adjourns."""
    known = Noted()
    end_in(chosen.most)
    try:
        with shelf.copied(chosen.store, chosen.file.parent) as base:
            numbers = tuple(sorted(shelf.numbers_of_games(base)))
        known = Noted(len(numbers), None, numbers)
        running = guest.games_of_one_board(chosen.port, chosen.most - TO_WRITE)
        with shelf.copied(chosen.store, chosen.file.parent) as base:
            names, numbers = shelf.names_of_accounts(base), tuple(sorted(shelf.numbers_of_games(base)))
        players = tuple(it for it in running if all(name.lower() in names for name in it))
        known = Noted(len(numbers), len(players), numbers, players)
    except (guest.NoAnswer, OSError, sqlite3.Error) as why:
        print(f"ficsd: which games run isn't known: {why}")
    signal.alarm(0)
    chosen.file.write_text(json.dumps(asdict(known)), encoding="utf-8")
    return 0


def noted(file: Path) -> Noted:
    """What `note` has written down."""
    try:
        known = Noted.of(json.loads(file.read_text(encoding="utf-8")))
        file.unlink()
    except (OSError, ValueError, TypeError, KeyError):
        return Noted()
    return known


def missing_now(chosen: Chosen, before: Noted) -> int:
    """How many of the games that ran aren't in the store by now."""
    if not before.running:
        return 0
    with shelf.copied(chosen.store, chosen.file.parent) as base:
        return before.missing(shelf.count_of_games(base))


def wait_until_at_rest(chosen: Chosen, before: Noted) -> int:
    """Waits until nothing was put for a while, and answers how many games are missing."""
    end = time.monotonic() + chosen.most
    marks, since, left = shelf.marks(chosen.store), time.monotonic(), None
    least = AT_REST_WITH_SOME_MISSING if before.running is None else AT_REST
    while (now := time.monotonic()) < end:
        if marks != (marks := shelf.marks(chosen.store)):
            since, left = now, None
        elif now - since >= least:
            left = missing_now(chosen, before) if left is None else left
            if not left or now - since >= AT_REST_WITH_SOME_MISSING:
                return left
        time.sleep(LOOK_EVERY)
    left = missing_now(chosen, before)
    if left or now - since < least:
        # to put one record may take longer than that, so where some are missing nobody knows whether more come
        print(f"{FAULT}ficsd: the store hadn't come to rest after {chosen.most} seconds")
    return left


def keep(chosen: Chosen) -> int:
    """Waits for the store, and says what is kept and what isn't."""
    before = noted(chosen.file)
    why_full, left = None, 0
    try:
        end_in(chosen.most + TO_LOOK)
        if not chosen.has_ended:
            left = wait_until_at_rest(chosen, before)
        why_full = shelf.why_no_room(chosen.store)
        end_in(chosen.counting)
        accounts, games = counts(chosen)
        left = before.missing(games)
        tell_kept(accounts, games, before.running, left)
        if left or before.running is None:
            tell_which(chosen, before)
    except TimeoutError as why:
        print(f"{FAULT}ficsd: what is kept couldn't be counted: {why}")
    except (shelf.Unreadable, OSError, sqlite3.Error) as why:
        print(f"{FAULT}ficsd: the store can't be read: {why}")
        return NOT_KEPT
    return tell_lost(why_full, before.running, left)


def counts(chosen: Chosen) -> tuple[int, int]:
    """How many accounts and games are kept: as `check` says, or behind the server's end as its records stand."""
    if not chosen.has_ended:
        return shelf.counts(chosen.program, chosen.store)
    with shelf.copied(chosen.store, chosen.file.parent) as base:
        return len(shelf.names_of_accounts(base)), shelf.count_of_games(base)


def tell_kept(accounts: int, games: int, running: int | None, left: int) -> None:
    ran = ""
    if running:
        ran = f"; {running - left} of the {running} that ran between players with accounts are among them"
    print(f"ficsd: kept: {accounts} accounts and {games} adjourned games{ran}")


def tell_which(chosen: Chosen, before: Noted) -> None:
    """Says which games were adjourned at this stop, and which of those that ran aren't kept, where these are known."""
    if before.numbers is None:
        return
    try:
        with shelf.copied(chosen.store, chosen.file.parent) as base:
            adjourned = shelf.players_of_games(base, set(before.numbers))
    except (OSError, sqlite3.Error, BadRecord):
        return  # what is kept was told; that the disk is full is told behind it
    pairs = [frozenset(it) for it in adjourned]
    lost = [it for it in before.players if frozenset(it) not in pairs]
    for what, games in (("adjourned at this stop", adjourned), ("not kept", lost)):
        if games:
            print(f"ficsd: {what}: {', '.join(' - '.join(it) for it in games)}")


def tell_lost(why_full: str | None, running: int | None, left: int) -> int:
    """Says what is lost, and answers the status that this has."""
    if why_full and running and not left:  # what is new is put in its order, so all before these games is there too
        print(f"{WARNING}ficsd: the disk takes nothing ({why_full}); what is new was kept in the room that the log had")
    elif why_full:
        print(
            f"{FAULT}ficsd: LOST: the disk takes nothing ({why_full}), so accounts and games that are new since then "
            f"are lost{f', {left} of those that ran just now among them' if left else ''}"
        )
        return NOT_KEPT
    elif left:
        print(
            f"{FAULT}ficsd: LOST: {left} games that ran; where links can't be cut (`man ficsd`, STOPPING) all of "
            "them are"
        )
    return 0


def main() -> int:
    words = argparse.ArgumentParser(prog="stop_server", description=(__doc__ or "").split("\n\n")[0])
    most = count(10**6)
    words.add_argument("act", choices=("note", "keep"))
    words.add_argument("file", type=Path)
    words.add_argument("--store", type=Path, required=True)
    words.add_argument("--port", type=port, default=0)
    words.add_argument("--seconds", type=most)
    words.add_argument("--counting", type=most, default=30)
    words.add_argument("--ended", action="store_true", dest="has_ended")
    words.add_argument("--program", default=program())
    chosen = words.parse_args(namespace=Chosen())
    if "MAINPID" not in os.environ:
        return 0
    return note(chosen) if chosen.act == "note" else keep(chosen)
