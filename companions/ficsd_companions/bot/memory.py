"""The half-moves of running and adjourned games, in a file: where a game goes on, the server tells its board alone."""

import json
import os
from collections.abc import Sequence
from dataclasses import asdict, dataclass, field
from pathlib import Path

from ficsd_companions.cli.replacing import replace
from ficslink.game import Game

from .journal import say
from .position import word_of, words_of

MOST = 500  # games; the oldest go first


@dataclass
class Kept:
    """A game: its players and terms, its half-moves from the array on, and the board to which they led."""

    white: str
    black: str
    terms: str
    words: list[str] = field(default_factory=list)
    ranks: list[str] = field(default_factory=list)

    def way_to(self, game: Game) -> list[str] | None:
        """The half-moves that led to the board with which a game begins or goes on; none where it is another game. The
        last one may have been made while nobody kept it any more: the board tells it."""
        board = game.board
        if (self.white, self.black, self.terms) != (game.white, game.black, str(game.terms)):
            return None
        if len(self.words) == board.ply and self.ranks == list(board.ranks):
            return self.words
        if len(self.words) + 1 == board.ply and is_step(self.ranks, board.ranks):
            return [*self.words, word_of(board)]
        return None


def is_step(before: Sequence[str], after: Sequence[str]) -> bool:
    """Whether a half-move may lie between two boards: it changes two squares as a rule, by a drop one, by castling up
    to four."""
    changed = [one for one, other in zip("".join(before), "".join(after)) if one != other]
    return bool(before) and 1 <= len(changed) <= 4


class Memory:
    """The kept games. Without a file they last as long as this program."""

    def __init__(self, path: Path | None) -> None:
        self.path = path
        self.games: list[Kept] = []

    def load(self) -> None:
        """Takes what the file has. One that can't be read is told, and stays beside the new one."""
        if not self.path or not self.path.exists():
            return
        try:
            self.games = [Kept(**it) for it in json.loads(self.path.read_text(encoding="ascii"))]
        except (OSError, ValueError, TypeError) as fault:
            aside = self.path.with_name(self.path.name + ".bad")
            say(f"{self.path} has no games that can be read ({fault}); it is kept as {aside}")
            os.replace(self.path, aside)

    def recall(self, game: Game) -> Kept:
        """What is kept of a game that begins or goes on."""
        for kept in reversed(self.games):
            if (way := kept.way_to(game)) is not None:
                kept.words = way
                return kept
        self.games = [*self.games, Kept(game.white, game.black, str(game.terms))][-MOST:]
        return self.games[-1]

    def note(self, kept: Kept, game: Game, led: Sequence[str]) -> None:
        """Keeps a game as it stands, where it is known from its beginning; `led` led to its first board."""
        words = words_of(game, led)
        kept.words, kept.ranks = words or [], list(game.board.ranks) if words is not None else []
        self.save()

    def forget(self, kept: Kept) -> None:
        """Forgets a game that is over."""
        self.games = [it for it in self.games if it is not kept]
        self.save()

    def save(self) -> None:
        """Writes the file, whole or not at all."""
        if not self.path:
            return
        try:
            replace(self.path, json.dumps([asdict(it) for it in self.games]), to_disk=False)
        except OSError as fault:
            say(f"the games can't be kept in {self.path}: {fault.strerror}")
