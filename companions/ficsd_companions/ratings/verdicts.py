"""Whether a game of the archive is rated, and why not. All of it stands in the archive's folder: the games' tags say
who had an account as the game was written; where they don't, the file `accounts` there may, a name a line. The file
`programs` names members besides House that are programs."""

import re
from collections.abc import Callable
from dataclasses import dataclass
from datetime import date
from enum import Enum
from pathlib import Path
from typing import NamedTuple

from ficsd_companions.archive.kept import Kept

from .pools import Pool, pool_of

HOUSE = "house"
GUEST = re.compile("guest[a-z]{4}")
SECOND_MOVE = 3  # the half-move with which the second move begins
SCORES = {"1-0": 1.0, "0-1": 0.0, "1/2-1/2": 0.5}
SAID = {"y": True, "n": False}  # by a tag of who has an account


class Why(Enum):
    """Whether a game is rated; why not is said of a player where a name stands in it."""

    RATED = "rated"
    NO_RESULT = "it has no result"
    TOO_SHORT = "it has fewer than two moves"
    NO_DAY = "its day isn't one of the calendar"
    NO_CONTROL = "its time control can't be read"
    NO_OTHER_BOARD = "the game of the other board doesn't stand beside it"
    TWICE = "{who} is in it twice"
    PROGRAM = "{who} is a program"
    GUEST = "{who} had no account"
    UNKNOWN = "nothing says whether {who} had an account"


class Verdict(NamedTuple):
    """What is said of a game."""

    why: Why
    who: str = ""
    pool: Pool | None = None

    @property
    def is_rated(self) -> bool:
        return self.why is Why.RATED

    def __str__(self) -> str:
        if self.is_rated and self.pool:
            return f"rated, {self.pool.value}"
        return "not rated: " + self.why.value.format(who=self.who)


@dataclass(frozen=True)
class Known:
    """The names in the files `accounts` and `programs`, in small letters."""

    accounts: frozenset[str] = frozenset()
    programs: frozenset[str] = frozenset()

    @classmethod
    def in_folder(cls, folder: Path) -> "Known":
        return cls(names_in(folder / "accounts"), names_in(folder / "programs"))

    def has_account(self, game: Kept, seat: int) -> bool | None:
        """Whether a player had an account; none where nothing says so."""
        name = game.players[seat].casefold()
        said = SAID.get(game.accounts[seat : seat + 1])
        if said is None and name in self.accounts:
            return True
        return False if said is None and GUEST.fullmatch(name) else said

    def is_program(self, name: str) -> bool:
        return name.casefold() == HOUSE or name.casefold() in self.programs


def names_in(file: Path) -> frozenset[str]:
    """The names of a file, a line each; none where there is no such file."""
    try:
        text = file.read_text(encoding="utf-8", errors="replace")
    except FileNotFoundError:
        return frozenset()
    return frozenset(it.strip().casefold() for it in text.splitlines() if it.strip())


def ordinal(day: str) -> int | None:
    """The number of a day in the calendar."""
    try:
        return date.fromisoformat(day).toordinal()
    except ValueError:
        return None


def boards_of(game: Kept, found: Callable[[str], Kept | None]) -> list[Kept]:
    """The games that are one for its players: of a pair of bughouse both, the one of less number first. `found` finds a
    game of the same day by its link. The other board is left out where the two don't name each other, or don't say the
    same of who has won."""
    other = found(game.partner) if game.partner else None
    if not other or other.partner != game.link or other.day != game.day or other.variant != "bughouse":
        return [game]
    ours, theirs = (SCORES.get(it.result) for it in (game, other))
    if (ours is None) != (theirs is None) or ours is not None and theirs is not None and ours + theirs != 1:
        return [game]
    return sorted([game, other])


def verdict(boards: list[Kept], known: Known) -> Verdict:
    """What is said of a game, or of the two of a pair."""
    game, pool = boards[0], pool_of(boards[0])
    players = [(it, seat) for it in boards for seat in (0, 1)]
    names = [it.players[seat] for it, seat in players]
    if any(it.result not in SCORES for it in boards):
        return Verdict(Why.NO_RESULT)
    if all(it.ply + it.half_moves < SECOND_MOVE for it in boards):
        return Verdict(Why.TOO_SHORT)
    if ordinal(game.day) is None:
        return Verdict(Why.NO_DAY)
    if not pool:
        return Verdict(Why.NO_CONTROL)
    if pool is Pool.BUGHOUSE and len(boards) == 1:
        return Verdict(Why.NO_OTHER_BOARD)
    if twice := next((it for it in names if [its.casefold() for its in names].count(it.casefold()) > 1), None):
        return Verdict(Why.TWICE, twice)
    for it, seat in players:
        if why := why_not(it, seat, known):
            return Verdict(why, it.players[seat])
    return Verdict(Why.RATED, pool=pool)


def why_not(game: Kept, seat: int, known: Known) -> Why | None:
    """Why a game isn't rated with this player."""
    if known.is_program(game.players[seat]):
        return Why.PROGRAM
    return {True: None, False: Why.GUEST, None: Why.UNKNOWN}[known.has_account(game, seat)]
