"""The command line."""

import argparse
import re
from dataclasses import dataclass
from pathlib import Path

from ficsd_companions.cli.version import add_version
from ficsd_companions.cli.words import Address, address, count, handle

from .terms import VARIANTS, Span, Terms, Wanted

HOUSE = re.compile(r"house(?::([1-4]))?")
MOST_GAMES = 32
MOST_SEEKS = 3
LONGEST_TOLD = 400  # letters of a text that each who comes is told
DEPTH = 3  # of the house's search
EPILOG = """Statuses: 0 it has left, as SIGTERM or Ctrl-C told it; 1 the server isn't there, is full, or was lost and
didn't come back; 2 other words than these, no such engine, or a password file that can't be used; 3 the name can't be
had: somebody has it, or it has an account and the password is another one."""


@dataclass(frozen=True)
class Chosen:
    """What the operator has chosen."""

    server: Address
    name: str
    engine: str | None  # of UCI; none where the house plays
    depth: int
    option: list[tuple[str, str]]
    program: Path | None
    variants: tuple[str, ...] | None
    minutes: Span
    increments: Span
    most: int
    seek: list[Wanted]
    challenge: tuple[str, Wanted] | None
    take: int | None
    password: Path | None
    games: Path | None
    grace: int
    patience: int
    hall: bool
    greet: str | None
    count: int | None

    def terms(self, variants: tuple[str, ...]) -> Terms:
        """Which games it plays, with the variants that its engine has."""
        return Terms(variants, self.minutes, self.increments, self.most)


def name(word: str) -> str:
    """A handle that isn't that of a guest."""
    if word.lower() == "guest":
        raise argparse.ArgumentTypeError("guest is no name of one's own")
    return handle(word)


def variants(word: str) -> tuple[str, ...]:
    """Names of variants with commas between them."""
    chosen = tuple(word.split(","))
    if not set(chosen) <= set(VARIANTS):
        raise argparse.ArgumentTypeError(f"the variants are {', '.join(VARIANTS)}, with commas between them")
    return tuple(it for it in VARIANTS if it in chosen)


def span(word: str) -> Span:
    """N..M, or N alone."""
    found = re.fullmatch(r"(\d{1,3})(?:\.\.(\d{1,3}))?", word)
    least, most = (int(found[1]), int(found[2] or found[1])) if found else (1, 0)
    if not least <= most <= 600:
        raise argparse.ArgumentTypeError("that is N..M, or N alone, from 0 to 600")
    return Span(least, most)


def game(word: str) -> Wanted:
    """Terms of a game: minutes and increment, and perhaps a variant and a colour."""
    wanted = Wanted.parsed(word)
    if not wanted:
        raise argparse.ArgumentTypeError('a game is as "5 0", "2 12 crazyhouse" or "5 0 fischer 518 white"')
    return wanted


def challenge(word: str) -> tuple[str, Wanted]:
    """A name, and the terms of a game."""
    who, _, terms = word.strip().partition(" ")
    return name(who), game(terms)


def setting(word: str) -> tuple[str, str]:
    """NAME=VALUE of an engine's option."""
    option, sign, value = word.partition("=")
    if not sign or not option.strip() or any(not " " <= it <= "~" for it in word):
        raise argparse.ArgumentTypeError("an engine's option is NAME=VALUE")
    return option.strip(), value.strip()


def told(word: str) -> str:
    """A text that one can be told."""
    if not 0 < len(word) <= LONGEST_TOLD or any(not " " <= it <= "~" for it in word):
        raise argparse.ArgumentTypeError(f"a text is 1 to {LONGEST_TOLD} letters of ASCII")
    return word


def add_engine(words: argparse.ArgumentParser) -> None:
    """The words of who thinks."""
    add = words.add_argument
    add(
        "--engine",
        default="house:3",
        metavar="ENGINE",
        help="house:D, the server's own search D half-moves ahead, 1 to 4 (house:3 where it is left out); or an engine "
        "that speaks UCI, by its name on the PATH or in /usr/games, or by its file",
    )
    add(
        "--option",
        type=setting,
        action="append",
        default=[],
        metavar="NAME=VALUE",
        help='an option of the engine, as "Skill Level=3" or UCI_Elo=1500; may stand again',
    )
    add(
        "--program",
        type=Path,
        metavar="FILE",
        help="the server's program, for the house's search: the one that was installed or built beside this one "
        "where it is left out",
    )


def add_games(words: argparse.ArgumentParser) -> None:
    """The words of what it plays, and how it gets games."""
    add = words.add_argument
    add(
        "--variants",
        type=variants,
        metavar="LIST",
        help="what it plays, of chess, crazyhouse and fischer; all that its engine can where it is left out",
    )
    add("--minutes", type=span, default=Span(1, 30), metavar="N..M", help="1..30 where it is left out")
    add("--increments", type=span, default=Span(0, 30), metavar="N..M", help="seconds, 0..30 where it is left out")
    add(
        "--most",
        type=count(MOST_GAMES),
        default=4,
        metavar="N",
        help=f"how many games it plays at a time, up to {MOST_GAMES}; 4 where it is left out",
    )
    add(
        "--seek",
        type=game,
        action="append",
        default=[],
        metavar="TERMS",
        help='seeks such a game whenever it is free, as "5 0" or "5 0 fischer", which is any array; may stand up to '
        "three times",
    )
    add(
        "--challenge",
        type=challenge,
        metavar="NAME TERMS",
        help='challenges that member whenever both are free, as "Ann 5 0"',
    )
    add(
        "--take",
        type=count(3600, least=0),
        metavar="SECONDS",
        help="takes seeks that its words allow and that nobody else has taken for so long; none where it is left out",
    )


def add_stay(words: argparse.ArgumentParser) -> None:
    """The words of its account, and of how long it stays."""
    add = words.add_argument
    add(
        "--password",
        type=Path,
        metavar="FILE",
        help="the password of its account, in a file that only its user reads; where there is no such file it is "
        "made, and the account too",
    )
    add(
        "--games",
        type=Path,
        metavar="FILE",
        help="where it keeps the half-moves of its games, so that it can go on with adjourned ones",
    )
    add(
        "--grace",
        type=count(3600, least=0),
        default=60,
        metavar="SECONDS",
        help="how long it stays behind SIGTERM for games that can't be adjourned; 60 where it is left out",
    )
    add(
        "--patience",
        type=count(86400, least=0),
        default=120,
        metavar="SECONDS",
        help="how long it tries to come again behind a lost link; 120 where it is left out",
    )
    add("--hall", action="store_true", help="logs who comes and goes, and the games of others too")
    add("--greet", type=told, metavar="TEXT", help="tells that to each who comes")
    add("--count", type=count(999_999), metavar="N", help="leaves behind so many games")


def parser() -> argparse.ArgumentParser:
    """The reader of the words."""
    words = argparse.ArgumentParser(
        prog="fics_bot",
        description="An engine that is a member of a server: it plays whoever challenges it.",
        epilog=EPILOG,
    )
    add = words.add_argument
    add("--server", type=address, required=True, metavar="HOST:PORT", help="the server, as localhost:5000")
    add("--name", type=name, required=True, help="its name there")
    add_engine(words)
    add_games(words)
    add_stay(words)
    add_version(words)
    return words


def chosen(arguments: list[str]) -> Chosen:
    """What the words choose; ends with status 2 where they are others."""
    words = parser()
    read = words.parse_args(arguments)
    house = HOUSE.fullmatch(read.engine)
    if house and read.option:
        words.error("the house has no options; its depth stands behind it, as house:2")
    if len(read.seek) > MOST_SEEKS:
        words.error("there are three seeks at most")
    read.engine, read.depth = (None, int(house[1] or DEPTH)) if house else (read.engine, DEPTH)
    return Chosen(**vars(read))
