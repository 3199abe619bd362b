"""The command line of fics_director."""

import argparse
import re
import shutil
from dataclasses import dataclass
from datetime import datetime
from pathlib import Path

from ficsd_companions.cli.program import built_program, program
from ficsd_companions.cli.version import add_version
from ficsd_companions.cli.words import Address, address, amount, count, handle, seconds
from ficslink.terms import Terms

from .due import Verdict

STATUSES = (
    "Statuses: 0 the evening is over, or Ctrl-C or SIGTERM; 1 the server refuses it, the file or the archive "
    "can't be used, or the program can't be run; 2 other words than these."
)


@dataclass(frozen=True)
class Chosen:
    """What the words choose."""

    server: Address
    file: Path
    program: str
    name: str
    password_file: Path | None
    terms: Terms
    rounds: int | None
    at: datetime | None
    absent: float  # in seconds
    both_away: Verdict
    chief: frozenset[str]  # in small letters
    channel: int | None
    pgn: Path | None
    archive: Path | None
    is_seeded: bool
    every: float


def terms(word: str) -> Terms:
    """MINUTES INCREMENT, and perhaps the variant."""
    read = Terms.parsed(word if re.search("[a-z]", word) else f"{word} chess")
    if not read or read.colour or read.kind == "bughouse":
        raise argparse.ArgumentTypeError("terms are as '5 0', '5 0 crazyhouse' or '5 0 fischer 518'")
    return read


def moment(word: str) -> datetime:
    """HH:MM of today, or a day too."""
    try:
        day, clock = word.split("T") if "T" in word else (f"{datetime.now():%Y-%m-%d}", word)
        return datetime.strptime(f"{day} {clock}", "%Y-%m-%d %H:%M")
    except ValueError:
        raise argparse.ArgumentTypeError("a time is as 20:00, of today, or as 2026-11-30T20:00") from None


def add_evening(words: argparse.ArgumentParser) -> None:
    """The words of what is played, when, by whom, and what is told of it."""
    add = words.add_argument
    add("--terms", type=terms, default=terms("5 0"), metavar="TERMS", help="of each game: '5 0' without")
    add("--rounds", type=count(63), metavar="N", help="ends behind round N; all rounds without")
    add(
        "--at",
        type=moment,
        metavar="TIME",
        help="when it begins, as 20:00 or 2026-11-30T20:00; without, when a chief tells it start",
    )
    add(
        "--absent",
        type=amount("minutes", 0.01, 1440),
        default=10.0,
        metavar="MINUTES",
        help="how long one who isn't there is waited for; 10 without",
    )
    add(
        "--both-away",
        choices=("half", "none"),
        default="none",
        help="where both are away each has half a point, or the game has no result; none without",
    )
    add(
        "--chief",
        type=handle,
        action="append",
        default=[],
        metavar="NAME",
        help="who may direct; more than once for several",
    )
    add("--channel", type=count(255, least=0), metavar="N", help="the channel in which all is told")
    add("--pgn", type=Path, metavar="FILE", help="writes the evening's games there at its end")
    add("--archive", type=Path, metavar="DIR", help="the archive of fics_scribe, for --pgn and --seeded")
    add(
        "--seeded",
        action="store_true",
        dest="is_seeded",
        help="numbers who has joined by the ratings that the archive makes; by who joined first without",
    )
    add(
        "--every",
        type=seconds(0.01, 10),
        default=0.05,
        metavar="S",
        help="how often it asks which games there are while a round is open: each 0.05 seconds without",
    )


def parser() -> argparse.ArgumentParser:
    words = argparse.ArgumentParser(
        prog="fics_director",
        epilog=STATUSES,
        description="Runs a round robin: pairs who joins, calls them, watches their games, keeps the table.",
    )
    add = words.add_argument
    add("--server", type=address, required=True, metavar="HOST:PORT", help="the server, as localhost:5000")
    add("--file", type=Path, required=True, metavar="FILE", help="the evening's lines, as `ficsd tourney` reads them")
    add(
        "--program",
        default=str(built_program() or program()),
        metavar="FILE",
        help="the program `ficsd`, which pairs; without, the one that was installed or built beside this one, or else "
        "the one on the path",
    )
    add("--name", type=handle, default="Director", metavar="NAME", help="its own name; Director without")
    add("--password-file", type=Path, metavar="FILE", help="a file with that name's password, readable by nobody else")
    add_evening(words)
    add_version(words)
    return words


def chosen(arguments: list[str]) -> Chosen:
    """What the words choose; ends with status 2 where they are others."""
    words = parser()
    read = words.parse_args(arguments)
    if bool(read.pgn or read.is_seeded) != bool(read.archive):
        words.error("--archive goes with --pgn or --seeded, and these with it")
    if not read.at and not read.chief:
        words.error("--at TIME or --chief NAME is wanted, else it never begins")
    if not shutil.which(read.program):
        words.error(f"{read.program} is no program that this user can run")
    read.absent *= 60
    read.both_away = Verdict.HALF if read.both_away == "half" else Verdict.NONE
    read.chief = frozenset(it.lower() for it in read.chief)
    return Chosen(**vars(read))
