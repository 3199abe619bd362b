"""Archives that are made by hand."""

from pathlib import Path


def game(
    number: int,
    white: str = "Ann",
    black: str = "Ben",
    result: str = "1-0",
    day: str = "2026-11-30",
    movetext: str = "",
    **tags: str,
) -> str:
    """A game's text, as the scribe writes it."""
    told = {
        "Event": "Casual game",
        "Site": "here",
        "Date": day.replace("-", "."),
        "Round": "-",
        "White": white,
        "Black": black,
        "Result": result,
        "Time": "20:15:00",
        "TimeControl": "300+3",
        "Termination": "normal",
        **tags,
        "Link": f"{day}/{number}",
    }
    head = "\n".join(f'[{name} "{value}"]' for name, value in told.items())
    moves = movetext or "1. e4 {[%clk 0:05:00] [%emt 0:00:00]} e5 {[%clk 0:05:00] [%emt 0:00:00]} {Ben resigns}"
    return f"{head}\n\n{moves} {result}\n\n"


def put(folder: Path, text: str, day: str = "2026-11-30", ending: str = ".pgn") -> Path:
    """Puts text behind a file of a day."""
    file = Path(folder, day[:4], day + ending)
    file.parent.mkdir(parents=True, exist_ok=True)
    with open(file, "a", encoding="utf-8") as out:
        out.write(text)
    return file
