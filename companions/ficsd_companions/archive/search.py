"""Finds games: the newest first, and from a game on that was the last one of the page before."""

from bisect import bisect_left
from collections.abc import Iterable, Iterator
from dataclasses import dataclass, replace
from heapq import merge
from itertools import islice
from typing import NamedTuple

from .index import Index, Player
from .kept import LINK, Kept

A_PAGE = 50
MOST_PLAYERS = 30  # that are named for a part of a name


@dataclass(frozen=True)
class Wish:
    """What is looked for. A text that is empty asks for nothing."""

    name: str = ""  # a part of a player's name
    other: str = ""  # a part of the opponent's
    player: str = ""  # a player's whole name
    variant: str = ""
    result: str = ""
    day: str = ""
    before: str = ""  # the link of the last game that was shown: those before it are wanted

    @property
    def cursor(self) -> tuple[str, int] | None:
        link = LINK.fullmatch(self.before)
        return (link[1], int(link[2])) if link else None

    def has(self, game: Kept) -> bool:
        """Whether a game is one of those; which days and which players' are looked through is no part of it."""
        return (
            (not self.variant or game.variant == self.variant)
            and (not self.result or game.result == self.result)
            and (not self.name or are_in(game.players, self.name, self.other))
        )


class Found(NamedTuple):
    games: list[Kept]
    has_more: bool


def are_in(names: tuple[str, str], one: str, other: str) -> bool:
    """Whether parts of names are in those of two players, one in each."""
    first, second = (it.casefold() for it in names)
    one, other = one.casefold(), other.casefold()
    return one in first and other in second or one in second and other in first


def players(index: Index, part: str) -> list[Player]:
    """The players in whose names a text is; those whose names begin with it first, and then those of more games."""
    part = part.casefold()
    found = [player for name, player in index.players.items() if part in name]
    return sorted(found, key=lambda it: (not it.name.casefold().startswith(part), -len(it.games), it.name))


def backwards(games: list[Kept], cursor: tuple[str, int] | None) -> Iterator[Kept]:
    """Games in their order, the last one first, from before a place on."""
    end = bisect_left(games, cursor) if cursor else len(games)
    return (games[at] for at in range(end - 1, -1, -1))


def each_once(games: Iterable[Kept]) -> Iterator[Kept]:
    before = None
    for it in games:
        if it is not before:
            yield it
        before = it


def looked_through(index: Index, wish: Wish) -> Iterable[Kept]:
    """The games among which those are that are wished for."""
    cursor = wish.cursor
    if wish.player:
        player = index.player(wish.player)
        return backwards(player.games, cursor) if player else ()
    if wish.name:
        lists = [backwards(it.games, cursor) for it in players(index, wish.name)]
        return each_once(merge(*lists, reverse=True))
    days = [wish.day] if wish.day else reversed(index.known_days)
    looked = (index.days.get(it, []) for it in days if not cursor or it <= cursor[0])
    return (game for games in looked for game in backwards(games, cursor))


def found(index: Index, wish: Wish, most: int = A_PAGE) -> Found:
    """The first so many games, and whether there are more."""
    if wish.other and not wish.name:
        wish = replace(wish, name=wish.other, other="")
    games = list(islice(filter(wish.has, looked_through(index, wish)), most + 1))
    return Found(games[:most], len(games) > most)


def last(index: Index, white: str, black: str) -> Kept | None:
    """The newest game with these two as White and Black."""
    player = index.player(white)
    names = (white.casefold(), black.casefold())
    games = reversed(player.games) if player else ()
    return next((it for it in games if tuple(name.casefold() for name in it.players) == names), None)
