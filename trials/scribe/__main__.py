"""Plays an evening of games by chance in all variants, has fics_scribe keep it, and holds the archive against what the
players' own links saw, half-move by half-move. No part of the gate.

A fifth of the games, or as many as are ended meanwhile, is played as the scribe is killed. It needs Debian's
pgn-extract. Ends with 0 where nothing is lost, twice or changed.
"""

import argparse
import asyncio
import itertools
import os
import pickle
import re
import shutil
import signal
import subprocess
import sys
import tempfile
import time
from pathlib import Path
from random import Random

from tests.kit import paths

from . import kept
from .evening import BOARDS, Evening
from .judge import Judge
from .players import Manner

AT_ONCE = Manner()
EXTRACT = shutil.which("pgn-extract", path=os.environ["PATH"] + ":/usr/games") or "pgn-extract"
BLIND = Manner(hears=False)
THINKING = Manner(thinks=3.0)


async def play(evening: Evening, games: int, kills: int) -> None:
    """The parts of the evening, one after another."""
    await evening.play("all variants", evening.tables(30, 6, 8), range(games // 2), [AT_ONCE])
    await evening.play("without waiting for news", evening.tables(6, 1), range(games // 10), [BLIND])
    tables = evening.tables_of_givers()
    together = asyncio.Barrier(len(tables) + 1)

    async def begin_together() -> None:
        await evening.all_boards()
        await together.wait()

    part = f"{BOARDS} boards at once"
    numbers = range(max(games // 5, BOARDS))
    await asyncio.gather(evening.play(part, tables, numbers, [AT_ONCE], together), begin_together())
    killing = asyncio.create_task(evening.kill(kills, Random(f"{evening.seed} kills")))
    numbers = itertools.takewhile(lambda it: it < games // 5 or not killing.done(), itertools.count())
    await evening.play("kills", evening.tables(30, 6, 8), numbers, [AT_ONCE, THINKING])
    await killing


def read_by_others(evening: Evening) -> list[str]:
    """What `tidy` and pgn-extract say of each file of chess that is wrong."""
    faults = []
    for file in sorted(evening.archive.glob("*/*.pgn")):
        is_whole = re.fullmatch(r"[\d-]+\.pgn", file.name)
        if not is_whole and not file.name.endswith("-begun.pgn"):
            continue
        count = file.read_text().count("[Event ")
        read = subprocess.run([EXTRACT, "-s", file], capture_output=True, text=True, check=False)
        if read.stderr or read.stdout.count("[Event ") != count:
            faults.append(f"pgn-extract reads {file.name}, with {count} games, as others: {read.stderr.strip()}")
        if is_whole:
            with open(file, "rb") as text:
                done = subprocess.run([paths.program, "tidy"], stdin=text, capture_output=True, text=True, check=False)
            if done.returncode or words(done.stdout) != words(file.read_text()):
                faults.append(f"tidy reads {file.name} as other games, status {done.returncode}")
        print(f"{file.name}: {count} games, read by pgn-extract{' and tidy' if is_whole else ''}")
    return faults


def words(text: str) -> list[list[str]]:
    """The movetext of each game without its comments."""
    return [re.sub(r"\{[^}]*\}", "", it[1]).split() for it in kept.GAME.findall(text + "\n")]


def judge(evening: Evening, slack: float) -> list[str]:
    """What is wrong with the archive, and a row of what became of the games of each part."""
    it = Judge(evening.played, *kept.read_with_what_waits(evening.archive), evening.dark, slack)
    faults = list(it.faults())
    for part, counts in it.counts.items():
        print(f"{part}: " + ", ".join(f"{name} {count}" for name, count in counts.items()))
    return faults


def main() -> int:
    words_of_it = argparse.ArgumentParser(prog="trial scribe", description=__doc__.split("\n\n", maxsplit=1)[0])
    words_of_it.add_argument("program", nargs="?", type=Path, default=paths.program, metavar="PROGRAM")
    words_of_it.add_argument("--games", type=int, default=2000, metavar="N", help="%(default)s without it")
    words_of_it.add_argument("--kills", type=int, default=20, metavar="N", help="%(default)s without it")
    words_of_it.add_argument("--seed", type=int, default=int(time.time()), metavar="N")
    words_of_it.add_argument(
        "--slack",
        type=float,
        default=2.0,
        metavar="S",
        help="the seconds before a kill and behind the next entrance in which half-moves may be "
        "missed; 2 without, which is for a busy machine",
    )
    words_of_it.add_argument("--keep", type=Path, metavar="FOLDER", help="where the archive stays")
    chosen = words_of_it.parse_args()
    paths.program = chosen.program.resolve()
    print(f"seed {chosen.seed}; {os.cpu_count()} processors, load {os.getloadavg()[0]:.1f}", flush=True)
    signal.signal(signal.SIGTERM, lambda *_: sys.exit(1))  # the server and the scribe end with it
    with tempfile.TemporaryDirectory(prefix="archive.") as folder:
        evening = Evening(chosen.keep or Path(folder), chosen.seed)
        faults = asyncio.run(whole(evening, chosen))
        faults += judge(evening, chosen.slack) + read_by_others(evening)
        for it in faults:
            print(f"WRONG: {it}")
    print(f"{len(faults)} faults")
    return 1 if faults else 0


async def whole(evening: Evening, chosen: argparse.Namespace) -> list[str]:
    begun = time.monotonic()
    await evening.begin()
    try:
        await play(evening, chosen.games, chosen.kills)
        await evening.end()
    finally:
        evening.stop()
    print(f"{time.monotonic() - begun:.0f} seconds")
    if chosen.keep:  # what was seen stays beside the archive, so that it can be judged once more
        (chosen.keep / "seen.pickle").write_bytes(pickle.dumps((evening.played, evening.dark)))
    return evening.faults


if __name__ == "__main__":
    sys.exit(main())
