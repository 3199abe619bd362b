"""Looks whether a server comes near one of its limits: adjourned games, accounts, members, and room on the disk of its
store. It says what it has found on one line, and each bound that is crossed on a line of its own. With --metrics it
tells what there is in the form that Prometheus reads, and with --every it goes on, a line each time.

It is no part of what is proved. It reads the store beside the server and enters the hall as a guest for a moment.
"""

import argparse
from pathlib import Path

from ficsd_companions.accounts import records
from ficsd_companions.cli.program import program
from ficsd_companions.cli.version import add_version
from ficsd_companions.cli.words import count, port, seconds

from . import guest, rounds, shelf
from .seen import Places

CROSSED = 3
WARNING = "<4>"  # by which the journal knows a line of a warning
STORE = Path("/var/lib/ficsd/club.db")
KEPT = Path("/run/fics_meter/metrics")  # where the unit that goes on keeps what it has seen


class Chosen(argparse.Namespace):
    """The words of the command line."""

    store: Path
    port: int | None
    shelf: int
    accounts: int
    members: int
    disk: int
    program: str
    metrics: str | None
    every: float | None
    archive: Path | None
    counts: list[Path]


def look(chosen: Chosen) -> tuple[list[str], list[str]]:
    """What was found, and the bounds that are crossed, each in words."""
    accounts, games = shelf.counts(chosen.program, chosen.store)
    free, why = shelf.free_mebibytes(chosen.store), shelf.why_no_room(chosen.store)
    found = [
        f"{games} adjourned games of at most {records.MOST_GAMES}",
        f"{accounts} accounts of at most {records.MOST_ACCOUNTS}",
        f"{free} MiB free",
    ]
    crossed = []
    if games > chosen.shelf:
        crossed.append(
            f"more than {chosen.shelf} adjourned games; where the shelf is full no game begins. "
            "`fics_accounts clear` makes room"
        )
    if accounts > chosen.accounts:
        crossed.append(f"more than {chosen.accounts} accounts; `fics_accounts remove` makes room")
    if free < chosen.disk:
        crossed.append(f"less than {chosen.disk} MiB free on the disk of the store")
    if why:
        crossed.append(f"the disk of the store takes nothing ({why}): what is new isn't kept")
    if chosen.port:
        try:
            members = guest.members(chosen.port)
        except guest.HallFull as full:
            members = guest.MOST_MEMBERS
            crossed.append(str(full))
        found.append(f"{members} members of at most {guest.MOST_MEMBERS}")
        if chosen.members < members < guest.MOST_MEMBERS:
            crossed.append(f"more than {chosen.members} members")
    return found, crossed


def read_words() -> Chosen:
    words = argparse.ArgumentParser(
        prog="fics_watch",
        description=(__doc__ or "").split("\n\n")[0],
        epilog="Statuses: 0 no bound is crossed; 1 the store or the hall couldn't be looked at, and why is said; "
        f"2 other words than these; {CROSSED} a bound is crossed.",
    )
    words.add_argument(
        "--store", type=Path, default=STORE, metavar="FILE", help="the store: %(default)s where it is left out"
    )
    words.add_argument(
        "--port", type=port, metavar="P", help="the server's port on this machine; without it members aren't counted"
    )
    bound = count(999_999_999, 0)
    for name, usual, says in (
        ("shelf", 9000, "adjourned games"),
        ("accounts", 3700, "accounts"),
        ("members", 230, "members"),
    ):
        words.add_argument(
            f"--{name}",
            type=bound,
            default=usual,
            metavar="N",
            help=f"the most {says} of which nothing is said: {usual} where it is left out",
        )
    words.add_argument(
        "--disk",
        type=bound,
        default=200,
        metavar="N",
        help="the fewest MiB of free room of which nothing is said: 200 where it is left out",
    )
    words.add_argument(
        "--program",
        default=program(),
        metavar="FILE",
        help="the ficsd that checks the store: the one that this belongs to where it is left out",
    )
    add_version(words)
    add_metrics(words)
    chosen = words.parse_args(namespace=Chosen())
    if chosen.metrics and not chosen.every:
        words.error("a file of metrics is kept with --every")
    return chosen


def add_metrics(words: argparse.ArgumentParser) -> None:
    """What is told of a club that runs."""
    words.add_argument(
        "--metrics",
        nargs="?",
        const="",
        metavar="FILE",
        help="the form that Prometheus reads, in place of bounds: on the standard output, or with --every kept in FILE",
    )
    words.add_argument(
        "--every",
        type=seconds(1, 86400),
        metavar="SECONDS",
        help="goes on until it is ended: a line each time, and a warning at once where the disk takes nothing",
    )
    words.add_argument(
        "--archive", type=Path, metavar="DIR", help="the folder into which fics_scribe writes, whose bytes are counted"
    )
    words.add_argument(
        "--counts",
        type=Path,
        action="append",
        default=[],
        metavar="FILE",
        help="what a go-between keeps by its own --counts; as often as wanted",
    )


def main() -> int:
    chosen = read_words()
    places = Places(chosen.store, chosen.port, chosen.archive, chosen.counts)
    try:
        if chosen.every:
            rounds.go_on(places, chosen.every, Path(chosen.metrics) if chosen.metrics else None)
        if chosen.metrics is not None:
            rounds.print_once(places, KEPT if chosen.store == STORE else None)
            return 0
        found, crossed = look(chosen)
    except (guest.NoAnswer, shelf.Unreadable, OSError) as why:
        print(f"{WARNING}fics_watch: {why}")
        return 1
    except KeyboardInterrupt:
        return 130
    print(f"fics_watch: {', '.join(found)}")
    for it in crossed:
        print(f"{WARNING}fics_watch: {it}")
    return CROSSED if crossed else 0
