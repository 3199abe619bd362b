"""Bots against bots: pairs of `companions/fics_bot` play each other over the built program, each pair one game after
another, and then one bot gives a simul to many. No part of the gate.

It needs Debian's stockfish and fairy-stockfish. Ends with 0 where each game ended by the rules of its variant, none on
time, and no bot was refused a half-move or lost its link.
"""

import argparse
import collections
import os
import re
import sys
import time
from pathlib import Path

from tests.kit import paths
from tests.kit.running import Run, Server, wait_until

# what the challenger plays by, what the challenged one does, the variant, and how much of all games
PAIRS = (
    ("stockfish", "house:3", "chess", 4),
    ("fairy-stockfish", "fairy-stockfish", "crazyhouse", 2),
    ("stockfish", "stockfish", "fischer", 2),
    ("stockfish", "house:3", "fischer", 1),
    ("fairy-stockfish", "house:2", "crazyhouse", 1),
)
LETTERS = "ABCDEFGHIJKLMNOPQRSTUVWXYZ"
OVER = re.compile(r"\S+ game \d+ with (\w+): (.+), (1-0|0-1|1/2-1/2|\*)")
BY_RULES = re.compile(r"\w+ checkmated|drawn by (stalemate|repetition|the 50 move rule|agreement)")
ON_TIME = re.compile(r"(\w+) forfeits on time")
FAULTS = re.compile(
    r"refused|no half-move|link is lost|answers nothing|any half-move|not done|isn't dealt with|Error|"
    r"has ended|the house's search"
)


class Bot(Run):
    """A bot that runs."""

    started: list["Bot"] = []

    def __init__(self, server: Server, name: str, engine: str, *words: object) -> None:
        super().__init__(
            paths.companion("fics_bot"),
            "--server",
            server.address,
            "--name",
            name,
            "--engine",
            engine,
            "--program",
            paths.program,
            "--minutes",
            "0..60",
            "--grace",
            "0",
            *words,
        )
        self.name = name
        self.started.append(self)

    def ends(self) -> list[tuple[str, ...]]:
        """(opponent, reason, result) of each game that is over."""
        return [found.groups() for it in list(self.log) if (found := OVER.fullmatch(it))]

    def running(self) -> int:
        """How many games it plays."""
        return sum(" begins:" in it for it in list(self.log)) - len(self.ends())

    def faults(self) -> list[str]:
        """The lines of its log that tell of a fault."""
        return [f"{self.name}: {it}" for it in self.log if FAULTS.search(it) and not OVER.fullmatch(it)]


def play_pairs(server: Server, games: int, terms: str) -> tuple[list[Bot], list[Bot]]:
    """The games of the pairs; who challenged, and all bots."""
    bots, pairs = [], []
    parts = sum(it[3] for it in PAIRS)
    for place, (engine, other, variant, part) in enumerate(PAIRS):
        first, second = f"Bot{LETTERS[2 * place]}", f"Bot{LETTERS[2 * place + 1]}"
        bots.append(Bot(server, second, other, "--most", "1"))
        bots[-1].begin()
        pairs.append(
            Bot(
                server,
                first,
                engine,
                "--most",
                "1",
                "--challenge",
                f"{second} {terms} {variant}",
                "--count",
                max(1, games * part // parts),
            )
        )
        print(f"{first} by {engine} against {second} by {other}: {variant}", flush=True)
    for it in pairs:
        it.rest()
    return pairs, bots + pairs


def play_simul(server: Server, givers: int, terms: str) -> tuple[list[Bot], list[Bot]]:
    """One bot against many; the one, and all bots."""
    others = [
        Bot(
            server,
            f"Taker{LETTERS[n]}",
            "house:2",
            "--most",
            "1",
            "--count",
            "1",
            "--challenge",
            f"Giver {terms} black",
        )
        for n in range(givers)
    ]
    for it in others:
        it.begin()
    giver = Bot(server, "Giver", "stockfish", "--most", "32")  # it comes last, and all challenge it at once
    giver.begin()
    most = 0

    def are_over() -> bool:
        nonlocal most
        most = max(most, giver.running())
        return all(it.process.poll() is not None for it in others)

    wait_until(are_over, seconds=3600)
    print(f"the giver played {most} games at a time", flush=True)
    return [giver], [giver, *others]


def told(bots: list[Bot], judged: list[Bot]) -> bool:
    """Prints how the games of the judged bots ended, and what went wrong; whether nothing did."""
    ends: collections.Counter[str] = collections.Counter()
    wrong = []
    for bot in judged:
        for opponent, reason, result in bot.ends():
            kind = re.sub(rf"^({bot.name}|{opponent}) ", "one ", reason)
            ends[kind] += 1
            lost = ON_TIME.fullmatch(reason)
            if lost:
                wrong.append(f"{lost[1]} lost on time against {opponent if lost[1] == bot.name else bot.name}")
            elif not BY_RULES.fullmatch(reason):
                wrong.append(f"{bot.name} against {opponent}: {reason}")
    for bot in bots:
        wrong += bot.faults()
    print(", ".join(f"{count} {kind}" for kind, count in ends.most_common()), flush=True)
    for it in wrong:
        print(f"wrong: {it}", flush=True)
    return not wrong


def main() -> int:
    words = argparse.ArgumentParser(prog="trial bots", description=__doc__.split("\n\n")[0])
    words.add_argument("--program", default=paths.program, type=Path, metavar="FILE", help="the server's program")
    words.add_argument(
        "--games", type=int, default=40, metavar="N", help="of the pairs together, %(default)s without it"
    )
    words.add_argument(
        "--givers",
        type=int,
        default=16,
        metavar="N",
        help="bots that play the one that gives the simul, %(default)s without it",
    )
    words.add_argument(
        "--terms",
        default="0 1",
        metavar="'M I'",
        help="minutes and seconds; without it 0 1: ten seconds, and one more for each half-move",
    )
    chosen = words.parse_args()
    paths.program = chosen.program.resolve()
    server = Server()
    began, fine = time.monotonic(), True
    try:
        for play, count in ((play_pairs, chosen.games), (play_simul, chosen.givers)):
            if count:
                judged, bots = play(server, count, chosen.terms)
                for it in bots:
                    it.terminate()
                fine &= told(bots, judged)
                print(
                    f"{time.monotonic() - began:.0f} seconds; load {os.getloadavg()[0]:.1f} on "
                    f"{os.cpu_count()} processors",
                    flush=True,
                )
    finally:
        for it in Bot.started:
            it.end()
        server.end()
    return 0 if fine else 1


if __name__ == "__main__":
    sys.exit(main())
