"""An archive, as whoever reads its files finds it."""

import re
from pathlib import Path

Game = tuple[dict[str, str], str]  # its tags and its movetext


def files_of(archive: Path) -> dict[str, str]:
    """The text of each file of games, by its name."""
    return {it.name: it.read_text(encoding="utf-8") for it in sorted(archive.glob("20*/*"))}


def games_of(archive: Path) -> list[Game]:
    """Each game of an archive's files of PGN."""
    found: list[Game] = []
    for name, text in files_of(archive).items():
        if name.endswith(".pgn"):
            for tags, movetext in re.findall(r"((?:\[.*\]\n)+)\n((?:.+\n)+)\n", text):
                found.append((dict(re.findall(r'\[(\w+) "(.*)"\]', tags)), movetext))
    return found


def half_moves_of(movetext: str) -> list[str]:
    """The half-moves of a movetext, without its comments, numbers and result."""
    words = re.sub(r"\{[^}]*\}", "", movetext).split()
    return [it for it in words[:-1] if not re.fullmatch(r"\d+\.+", it)]
