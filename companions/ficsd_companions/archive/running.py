"""What there was of a game that is played now, out of the scribe's journal of it: for who comes late."""

import json
from pathlib import Path

BOARDS = ("<12> ", "<b1> ")  # of the server's lines those that tell places and hands
FOLDER = "running"  # of the archive, with a journal for each desk


def lines_of(archive: Path, number: int, white: str, black: str) -> list[str]:
    """The lines of the game's places so far, in the order in which they came; none where nobody has kept it."""
    for path in sorted((archive / FOLDER).glob("*.lines"), reverse=True):  # what began last comes first
        try:
            with open(path, encoding="utf-8", errors="replace") as file:
                if [number, white, black] in players_of(file.readline()):
                    return [it.rstrip("\n") for it in file if it.startswith(BOARDS) and it.endswith("\n")]
        except OSError:  # it has just gone
            pass
    return []


def players_of(head: str) -> list[list[object]]:
    """The number and the players of each game that the first line of a journal names."""
    try:
        return [it[:3] for it in json.loads(head)["games"]]
    except (ValueError, KeyError, TypeError):
        return []
