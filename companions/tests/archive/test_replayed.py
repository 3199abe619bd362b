"""Games of random moves, played by the server's own `replay`, kept as the scribe keeps them, and shown by the page:
each place has the men, the hands and the clocks that the server's board line has."""

import json
import subprocess
from datetime import datetime
from pathlib import Path
from typing import Any

from ficslink.board import Board
from ficslink.line import Line
from ficslink.lines import GameListed, GameOver, Hands, parse
from ficslink.terms import Terms
from ficsd_companions.scribe import bpgn, pgn
from ficsd_companions.scribe.sitting import Sitting

from tests.kit import paths

HERE = Path(__file__).parent
GAMES = 12
NOON = datetime(2026, 11, 30, 12)
LATE = 12  # half-moves that are missed by who comes late
OF_FIRST = "1|"  # who sees both boards of a pair

AllHands = dict[int, tuple[str, str]]
Row = dict[str, Any]  # what the archive tells of a game


def run(*words: object, text: str = "") -> str:
    return subprocess.run([str(it) for it in words], input=text, capture_output=True, text=True, check=True).stdout


def scripts(seed: int) -> list[dict[str, str]]:
    return [json.loads(it) for it in run("node", HERE / "random_games.mjs", seed, GAMES).splitlines()]


def lines_of(script: str) -> list[Line]:
    """What the server told the first player, as lines."""
    told = run(paths.program, "replay", text=script).split("\n")
    return [parse(it.removeprefix(OF_FIRST).strip("\r")) for it in told if it.startswith(OF_FIRST)]


def shown(rows: list[Row]) -> list[Any]:
    return [
        json.loads(it) for it in run("node", HERE / "shown.mjs", text="\n".join(map(json.dumps, rows))).splitlines()
    ]


class Evening:
    """A game or a pair as it was told."""

    def __init__(self, script: str, missed: int = 0) -> None:
        self.lines = lines_of(script)
        boards = {it.game: it for it in reversed(self.lines) if isinstance(it, Board)}
        terms = Terms.parsed(" ".join(script.split("\n", 1)[0].split()[3 if len(boards) == 1 else 5 :]))
        games = [GameListed(n, it.white, it.black, terms) for n, it in sorted(boards.items())]
        self.sitting = Sitting.of(games, NOON)
        # of each game and half-move the board line, the hands of both boards, and the last boards of both
        self.told: dict[tuple[int, int], tuple[Board, AllHands, dict[int, Board]]] = {}
        self.hands: AllHands = {n: ("", "") for n in boards}
        self.last: dict[int, Board] = {}
        for at, line in enumerate(it for it in self.lines if isinstance(it, (Board, Hands, GameOver))):
            self.hear(line, is_missed=at < missed)

    def hear(self, line: Line, is_missed: bool) -> None:
        if not is_missed:
            self.sitting.hear(line, NOON)
        if isinstance(line, Board):
            self.last[line.game] = line
            self.told[line.game, line.ply] = line, self.hands.copy(), self.last.copy()
        elif isinstance(line, Hands):
            self.hands[line.game] = (line.white_hand, line.black_hand)
            newest = next(reversed(self.told))
            board, _, last = self.told[newest]
            self.told[newest] = board, self.hands.copy(), last

    def rows(self) -> list[Row]:
        """What the archive tells of each of the games."""
        records = list(self.sitting.records.values())
        for it in records:
            it.link = f"2026-11-30/{it.number}"
        texts = {it.link: pgn.text(it, "here") for it in records}
        if len(records) == 1:
            return [{"link": records[0].link, "pgn": texts[records[0].link], "pair": None}]
        order = bpgn.text(*records, self.sitting.order, "here")
        return [
            {
                "link": it.link,
                "pgn": texts[it.link],
                "pair": {"link": other.link, "pgn": texts[other.link], "bpgn": order},
            }
            for it, other in (records, records[::-1])
        ]


def check(number: int, evening: Evening, kept: Any, has_hands: bool) -> None:
    """One game's places against what was told of it."""
    assert not kept["isCutOff"]
    plies = [ply for game, ply in evening.told if game == number]
    assert [it["ply"] for it in kept["places"]] == plies[-len(kept["places"]) :]
    for it in kept["places"]:
        line, hands, last = evening.told[number, it["ply"]]
        if it["ply"] == plies[-1]:  # a pair's game may go on at the other board
            hands, last = evening.hands, evening.last
        assert (it["ranks"], it["side"]) == (" ".join(line.ranks), line.side.lower()), it["ply"]
        assert it["clocks"] == {"w": max(0, line.left("white")), "b": max(0, line.left("black"))}
        if has_hands:
            assert it["hands"] == sorted_hands(hands[number]), it["ply"]
        other = 3 - number
        if "beside" in it and other in last:
            assert it["beside"]["ranks"] == " ".join(last[other].ranks)
            assert it["beside"]["hands"] == sorted_hands(hands[other])


def test_random_games_of_all_variants() -> None:
    evenings = [(row["variant"], Evening(row["script"])) for row in scripts(seed=62)]
    games = [(variant, evening, at, row) for variant, evening in evenings for at, row in enumerate(evening.rows(), 1)]
    counts = dict.fromkeys(("chess", "crazyhouse", "fischer", "bughouse"), 0)
    for (variant, evening, at, row), kept in zip(games, shown([it[-1] for it in games]), strict=True):
        check(at, evening, kept, has_hands=variant in ("crazyhouse", "bughouse"))
        assert kept["variant"].split()[0] == variant, row["pgn"]
        counts[variant] += len(kept["places"]) - 1
    assert all(it > 200 for it in counts.values()), counts


def test_games_that_were_come_to_late() -> None:
    """What is known begins with a position."""
    evenings = [Evening(it["script"], missed=LATE) for it in scripts(seed=63) if it["variant"] != "bughouse"]
    rows = [row for it in evenings for row in it.rows()]
    for evening, row, kept in zip(evenings, rows, shown(rows), strict=True):
        assert not kept["isCutOff"], row["pgn"]
        assert kept["places"][0]["ply"] > 0, row["pgn"]
        for it in kept["places"]:
            assert it["ranks"] == " ".join(evening.told[1, it["ply"]][0].ranks), row["pgn"]


def sorted_hands(hands: tuple[str, str]) -> list[str]:
    return ["".join(sorted(it)) for it in hands]
