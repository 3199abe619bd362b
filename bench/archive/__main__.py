"""What a large archive costs `fics_web --archive`: the index of a folder that is made for it, in this process, and the
ratings of its games.

It makes an archive of so many games of 100 a day by 2,000 players, a tenth of them of crazyhouse, and prints seconds of
processor time and memory.
"""

import argparse
import resource
import tempfile
import time
from collections.abc import Callable
from datetime import date, timedelta
from pathlib import Path

from bench.measure import machine
from ficsd_companions.archive import index
from ficsd_companions.archive.addresses import Place
from ficsd_companions.archive.answers import Archive
from ficsd_companions.ratings.pools import Pool
from ficsd_companions.ratings.rated import Ratings
from tests.archive.archives import game, put

A_DAY, PLAYERS = 100, 2000
MOVES = " ".join(
    f"{n}. Nf3 {{[%clk 0:04:{59 - n % 60:02}] [%emt 0:00:01]}} Nf6 {{[%clk 0:04:00] [%emt 0:00:02]}}"
    for n in range(1, 41)
)
RESULTS = ("1-0", "0-1", "1/2-1/2")


def name(n: int) -> str:
    """A handle of letters alone."""
    return "Player" + "".join(chr(97 + n // 26**at % 26) for at in range(3))


def make(folder: Path, games: int) -> int:
    """Writes so many games; how many bytes."""
    for start in range(0, games, A_DAY):
        day = str(date(2022, 1, 1) + timedelta(start // A_DAY))
        for ending, rest in ((".pgn", range(1, 10)), ("-crazyhouse.pgn", (0,))):
            numbers = [n for n in range(start, min(start + A_DAY, games)) if n % 10 in rest]
            tags = {"Variant": "Crazyhouse"} if ending != ".pgn" else {}
            put(
                folder,
                "".join(
                    game(
                        n - start + 1,
                        name(n * 7919 % PLAYERS),
                        name(n * 104729 % PLAYERS + 1),
                        RESULTS[n % 3],
                        day,
                        MOVES,
                        **tags,
                    )
                    for n in numbers
                ),
                day,
                ending,
            )
    return sum(it.stat().st_size for it in folder.rglob("*.pgn"))


def timed(what: str, act: Callable[[], object]) -> None:
    """Prints what an act took of the processor."""
    before, begin = time.process_time(), time.monotonic()
    act()
    print(
        f"{what}: {(time.process_time() - before) * 1000:.1f} ms ({(time.monotonic() - begin) * 1000:.0f} by the clock)"
    )


def kilobytes() -> int:
    return resource.getrusage(resource.RUSAGE_SELF).ru_maxrss


def look(archive: Archive, folder: Path, games: int) -> None:
    """Asks for what pages ask for."""
    day = str(date(2022, 1, 1) + timedelta((games - 1) // A_DAY))
    found = Place("found", "json")
    timed("nothing is new", archive.index.refresh)
    put(folder, game(A_DAY + 1, day=day), day)
    timed("one game is new", archive.index.refresh)
    index.AT_LEAST_SECONDS = 3600
    for what, place, asked in (
        ("the newest games", found, {}),
        ("a day", Place("day", "json", day=day), {}),
        ("a player", Place("player", "json", name=name(7)), {}),
        ("a part of a name that many have", found, {"name": "player"}),
        ("a part of a name that few have", found, {"name": "eraab", "other": "a"}),
        ("a variant that nobody played", found, {"variant": "bughouse"}),
        ("a game", Place("game", "json", day=day, number=2), {}),
    ):
        timed(what, lambda place=place, asked=asked: archive.told(place, asked))


def rate(archive: Archive, folder: Path) -> None:
    """Makes ratings of all games, whose players all have accounts, and counts the last day anew."""
    (folder / "accounts").write_text("\n".join(map(name, range(PLAYERS + 1))), encoding="utf-8")
    ratings, before = Ratings(archive.index), kilobytes()
    timed("all are rated", ratings.refresh)
    print(f"memory: {(kilobytes() - before) / 1024:.0f} MiB more")
    timed("a ladder", lambda: ratings.ladder(Pool.BLITZ))
    index.AT_LEAST_SECONDS = 0
    day = archive.index.known_days[-1]
    put(folder, game(A_DAY + 2, name(1), name(2), day=day, movetext=MOVES), day)
    timed("one game is new and rated", ratings.refresh)


def main() -> None:
    words = argparse.ArgumentParser(description=__doc__)
    words.add_argument("games", nargs="?", type=int, default=100_000, metavar="GAMES", help="%(default)s without it")
    games = words.parse_args().games
    print(machine())
    with tempfile.TemporaryDirectory(prefix="archive.") as name_of_folder:
        folder = Path(name_of_folder)
        size = make(folder, games)
        print(f"{games} games in {len(list(folder.rglob('*.pgn')))} files of {size / 1e6:.0f} MB")
        index.AT_LEAST_SECONDS = 0
        archive, before = Archive(folder), kilobytes()
        timed("all are read", archive.index.refresh)
        print(f"memory: {(kilobytes() - before) / 1024:.0f} MiB more")
        look(archive, folder, games)
        rate(archive, folder)


if __name__ == "__main__":
    main()
