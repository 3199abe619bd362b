"""The games of an archive, read from its files alone."""

import re
import shutil
import tempfile
from dataclasses import dataclass, field
from datetime import datetime, timedelta
from pathlib import Path

from ficsd_companions.scribe.archive import Archive

GAME = re.compile(r"((?:\[.*\]\n)+)\n((?:.+\n)+)\n")
TAG = re.compile(r'^\[(\w+) "(.*)"\]$', re.MULTILINE)
HALF_MOVE = re.compile(r"([^\s{}]+)\s\{(?:\[%clk (\d+:\d\d:\d\d)\] )?\[%emt (\d+:\d\d:\d\d)\]\}")
END = re.compile(r"(?:\{([^}%]+)\} )?(\S+)$")
OF_A_PAIR = re.compile(r"(\d+)([ABab])\. ([^\s{]+)(?:\{(-?\d+)\})?")


@dataclass(eq=False)
class Kept:
    """A game as it stands in a file."""

    tags: dict[str, str]
    file: str
    start: int  # how many half-moves were made before its first one
    ranks: tuple[str, ...] | None  # the men in the position that its FEN tells
    hands: tuple[str, str] | None
    half_moves: list[
        tuple[str, str, str]
    ]  # each with what its player's clock had, where there are clocks, and its time
    reason: str
    result: str

    @property
    def link(self) -> str:
        return self.tags["Link"]

    @property
    def begun(self) -> float:
        """When it was first seen, to a second."""
        return datetime.strptime(f"{self.tags['Date']} {self.tags['Time']}", "%Y.%m.%d %H:%M:%S").timestamp()

    @property
    def who(self) -> tuple[str, ...]:
        return self.tags["White"], self.tags["Black"], self.tags["TimeControl"], self.tags.get("Variant", "")


@dataclass
class Pair:
    """A game of BPGN: the half-moves of both boards, each with its board, its number, its word and the seconds left."""

    tags: dict[str, str]
    half_moves: list[tuple[str, int, str, int | None]] = field(default_factory=list)


def kept_of(file: str, head: str, movetext: str) -> Kept:
    tags = dict(TAG.findall(head))
    start, ranks, hands = 0, None, None
    if fen := tags.get("FEN"):
        placed, side, _, _, _, number = fen.split(" ")
        start = 2 * (int(number) - 1) + (side == "b")
        placed, _, held = placed.partition("[")
        ranks = tuple(re.sub(r"\d", lambda it: "-" * int(it[0]), it) for it in placed.split("/"))
        if held:
            hands = "".join(filter(str.isupper, held)), "".join(filter(str.islower, held)).upper()
    text = movetext.replace("\n", " ").strip()
    reason, result = END.search(text).groups()
    return Kept(tags, file, start, ranks, hands, HALF_MOVE.findall(text), reason or "", result)


def read(folder: Path) -> tuple[list[Kept], list[Pair]]:
    """All games, and all pairs."""
    games, pairs = [], []
    for file in sorted(folder.glob("[0-9]*/*gn")):
        text = file.read_text(encoding="utf-8")
        found = GAME.findall(text)
        if "".join(f"{head}\n{movetext}\n" for head, movetext in found) != text:
            raise ValueError(f"{file} has more in it than games")
        if file.suffix == ".pgn":
            games += [kept_of(file.name, *it) for it in found]
        else:
            pairs += [pair_of(*it) for it in found]
    return games, pairs


def pair_of(head: str, movetext: str) -> Pair:
    half_moves = [
        (board.upper(), 2 * int(number) - board.isupper(), word, int(left) if left else None)
        for number, board, word, left in OF_A_PAIR.findall(movetext.replace("\n", " "))
    ]
    return Pair(dict(TAG.findall(head)), half_moves)


def read_with_what_waits(folder: Path) -> tuple[list[Kept], list[Pair]]:
    """The same, and with the games whose end nobody saw, as they will stand there once they have waited for long."""
    with tempfile.TemporaryDirectory(prefix="archive.") as other:
        copy = shutil.copytree(folder, Path(other) / "archive")
        archive = Archive(copy, "")
        archive.open()
        for it in archive.left:
            archive.wait(it)
        for record in (record for it in archive.waits for record in it.sitting.records.values()):
            record.reason, record.result = "", "*"  # of an adjourned game nothing more is awaited
        for it in archive.given_up(datetime.now() + timedelta(days=1)):
            archive.finish(it)
        return read(copy)
