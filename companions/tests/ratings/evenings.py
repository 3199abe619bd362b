"""Archives of made-up evenings, the same ones for the same number."""

import random
from datetime import date, timedelta
from pathlib import Path

from tests.archive.archives import game, put

MOVES = "1. e4 {[%emt 0:00:00]} e5 {[%emt 0:00:00]} 2. Nf3 {[%emt 0:00:03]} Nc6 {[%emt 0:00:02]}"
PLAYERS = {"Ann": 2, "Ben": 1, "Cat": 0, "Dan": -1, "Eve": 1, "Fay": -2}  # how strong they are
CONTROLS = ("60", "120+1", "300", "180+2", "900+10", "1800", "-")
VARIANTS = {"Crazyhouse": "-crazyhouse.pgn", "Chess960": "-fischer.pgn"}
YES = {"WhiteAccount": "yes", "BlackAccount": "yes"}


def rated(number: int, white: str = "Ann", black: str = "Ben", result: str = "1-0", **tags: str) -> str:
    """A game that counts, where its tags don't say otherwise."""
    return game(number, white, black, result, **{"movetext": MOVES, **YES, **tags})


def pair(number: int, names: list[str], result: str, day: str) -> str:
    """A pair of bughouse: the first and the last of four play against the other two."""
    mirrored = {"1-0": "0-1", "0-1": "1-0", "1/2-1/2": "1/2-1/2"}[result]
    its = {"day": day, "Variant": "Bughouse", "TimeControl": "180"}
    first = rated(number, names[0], names[1], result, **its, Partner=f"{day}/{number + 1}")
    return first + rated(number + 1, names[2], names[3], mirrored, **its, Partner=f"{day}/{number}")


def one_game(chance: random.Random, number: int, day: str) -> tuple[str, str, int]:
    """A game by chance: its text, the end of its file's name, and how many numbers it takes."""
    names = chance.sample(list(PLAYERS), 4)
    ahead = PLAYERS[names[0]] - PLAYERS[names[1]]
    result = chance.choices(("1-0", "0-1", "1/2-1/2"), (3 + max(0, ahead), 3 + max(0, -ahead), 1))[0]
    kind = chance.random()
    if kind < 0.15:
        return pair(number, names, result, day), "-bughouse.pgn", 2
    if kind < 0.3:
        variant = chance.choice(list(VARIANTS))
        return rated(number, *names[:2], result, day=day, Variant=variant), VARIANTS[variant], 1
    if kind < 0.4:  # what counts for nothing
        tags = chance.choice(
            ({"WhiteAccount": "no"}, {"movetext": "1. e4 {[%emt 0:00:00]} e5 {[%emt 0:00:00]}"}, {"white": "House"})
        )
        return rated(number, **{"white": names[0], "black": names[1], "result": result, "day": day, **tags}), ".pgn", 1
    return rated(number, *names[:2], result, day=day, TimeControl=chance.choice(CONTROLS)), ".pgn", 1


def put_days(folder: Path, days: int, seed: int = 1) -> list[str]:
    """Puts so many days with games into an archive, of which some are far from the one before; the days."""
    chance, day = random.Random(seed), date(2026, 1, 1)
    put_there = []
    for _ in range(days):
        number = 1
        for _ in range(chance.randrange(1, 9)):
            text, ending, takes = one_game(chance, number, str(day))
            put(folder, text, str(day), ending)
            number += takes
        put_there.append(str(day))
        day += timedelta(days=chance.choice((1, 1, 1, 2, 7, 60)))
    return put_there
