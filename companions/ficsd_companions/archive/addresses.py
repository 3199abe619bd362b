"""The paths below `/games/`. What isn't one of them is asked for in vain: no part of a path ever names a file."""

import re
from typing import NamedTuple

from .kept import LINK

DAY = re.compile(r"\d{4}-\d\d-\d\d")
PLAYER = re.compile(r"player/([^/]{1,80})")
LADDER = re.compile(r"ladder/([a-z]{1,20})")
FORMS = ("json", "pgn")
PAGE = "page"
LAST = "last"


class Place(NamedTuple):
    """What is asked for: `kind` is found, day, game, player, ladder, ratings or last, and `form` page, json or pgn."""

    kind: str
    form: str
    day: str = ""
    number: int = 0
    name: str = ""


def place_of(path: str) -> Place | None:
    """The place of a path behind `/games/`, without what percent signs stood for."""
    if path in ("", "found.json"):
        return Place("found", "json" if path else PAGE)
    if path == LAST:
        return Place(LAST, PAGE)
    if path == "ratings.json":
        return Place("ratings", "json")
    path, form = form_of(path)
    link, player, ladder = LINK.fullmatch(path), PLAYER.fullmatch(path), LADDER.fullmatch(path)
    if link:
        return Place("game", form, day=link[1], number=int(link[2]))
    if form != "pgn" and DAY.fullmatch(path):
        return Place("day", form, day=path)
    if form != "pgn" and player:
        return Place("player", form, name=player[1])
    if form != "pgn" and ladder:
        return Place("ladder", form, name=ladder[1])
    return None


def form_of(path: str) -> tuple[str, str]:
    """The path without its ending, and in which form it is asked for."""
    rest, _, ending = path.rpartition(".")
    return (rest, ending) if ending in FORMS else (path, PAGE)
