"""The evening's games out of the archive that fics_scribe keeps."""

import re
from collections.abc import Mapping
from datetime import datetime
from pathlib import Path

from ficsd_companions.cli.replacing import replace

from .evening import Evening, Pair

GAME = re.compile(r"((?:\[[^\n]*\]\n)+)\n((?:[^\n]+\n)+)")
TAG = re.compile(r'^\[(\w+) "(.*)"\]$', re.MULTILINE)


def files(archive: Path) -> list[Path]:
    """The archive's files of games. `OSError` where it can't be reached: that is no empty one."""
    years = [it for it in sorted(archive.iterdir()) if it.name[0].isdigit() and it.is_dir()]
    return [it for year in years for it in sorted(year.iterdir()) if it.suffix == ".pgn"]


def begin(file: Path) -> None:
    """Makes the file of the games as the evening begins, empty, so that its age says since when games count."""
    file.touch()


def found(archive: Path, evening: Evening, since: datetime) -> dict[Pair, str]:
    """The games of the pairs that have a result, each the last one that began behind a moment and ended so."""
    wanted = {(pair.white, pair.black, score): pair for pair, score in evening.results.items()}
    games: dict[Pair, str] = {}
    for file in files(archive):
        if file.name[:10] < f"{since:%Y-%m-%d}":
            continue
        for head, movetext in GAME.findall(file.read_text(encoding="utf-8", errors="replace")):
            tags = dict(TAG.findall(head))
            pair = wanted.get((tags.get("White", ""), tags.get("Black", ""), tags.get("Result", "")))
            if pair and _began(tags) >= since.replace(microsecond=0):
                games[pair] = f"{head}\n{movetext}\n"
    return games


def _began(tags: dict[str, str]) -> datetime:
    try:
        return datetime.strptime(f"{tags.get('Date', '')} {tags.get('Time', '00:00:00')}", "%Y.%m.%d %H:%M:%S")
    except ValueError:
        return datetime.min


def _of_evening(file: Path, archive: Path, evening: Evening) -> dict[Pair, str]:
    return found(archive, evening, datetime.fromtimestamp(file.stat().st_mtime))


def _is_empty(file: Path) -> bool:
    return file.exists() and not file.stat().st_size


def are_there(file: Path, archive: Path, evening: Evening, seen: Mapping[Pair, str]) -> bool:
    """Whether the archive has all games that were seen to end with a result that stands; those of a file that has games
    aren't looked for."""
    standing = {pair for pair, score in seen.items() if evening.results.get(pair) == score}
    return not _is_empty(file) or standing <= _of_evening(file, archive, evening).keys()


def write(file: Path, archive: Path, evening: Evening) -> int:
    """Writes the games, in the order of the rounds; how many there are. A file that has games stays as it is."""
    if not _is_empty(file):
        return 0
    games = _of_evening(file, archive, evening)
    in_order = [games[pair] for pairs in evening.rounds for pair in pairs if pair in games]
    replace(file, "".join(in_order))
    return len(in_order)
