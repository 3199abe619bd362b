"""The archive: a folder with a file of PGN for each day and kind of game, and the journals of games that go on or wait.

FOLDER/2026/2026-11-30.pgn has the day's games of chess from the usual array, the files beside it, as
2026-11-30-crazyhouse.pgn, the others. A game is numbered within the day on which it ended, and that day and number are
its link. FOLDER/running/ has the journals of games that are played, FOLDER/waiting/ of those that were adjourned or
lost sight of.
"""

import logging
import os
import re
from collections.abc import Iterator
from datetime import date, datetime
from pathlib import Path

from ficslink.board import Board
from ficslink.lines import GameListed

from ficsd_companions.names.known import Names

from . import bpgn, journal, pgn, whole
from .journal import Journal
from .record import Record
from .sitting import Sitting

logger = logging.getLogger("fics_scribe")
LINK = re.compile(r'^\[Link[AB]? "(\d{4}-\d\d-\d\d)/(\d+)"\]$', re.MULTILINE)
GAME = re.compile(r"(?:\[.*\]\n)+\n(?:.+\n)+\n")
ENDS = ("1-0", "0-1", "1/2-1/2", "*")
FIRST_OF_A_FRESH_GAME = 2  # a game that is seen with fewer half-moves is known whole by itself


def kind_of(record: Record) -> str:
    """The ending of the name of the file that a game stands in."""
    if record.is_usual:
        return ""
    return "-begun" if record.terms.kind == "chess" else f"-{record.terms.kind}"


def whole_length(text: str) -> int:
    """How many characters of a file are whole games; what is behind them was cut off as it was written."""
    end = len(text)
    while end:
        start = max(text.rfind("\n[Event ", 0, end) + 1, 0)
        if game := GAME.match(text, start):
            if game[0].rstrip("\n").rsplit(None, 1)[-1] in ENDS:
                return game.end()
        end = start
    return 0


class Archive:
    """Where games are kept. The folder is one scribe's alone."""

    def __init__(self, folder: Path, site: str, names: Names | None = None) -> None:
        """`names` says who has an account, which the games' tags tell then."""
        self.folder, self.site, self.names = folder, site, names
        self.running, self.waiting = folder / "running", folder / "waiting"
        self._numbers: dict[str, int] = {}
        self._mended: set[Path] = set()
        self.left: list[Journal] = []  # of games that ran as the last scribe ended
        self.waits: list[Journal] = []
        try:
            for it in (folder, self.running, self.waiting):
                it.mkdir(parents=True, exist_ok=True)
        except OSError as fault:
            if fault.errno not in whole.FULL:  # else they are made with the first journal that finds room
                raise

    def open(self) -> list[Journal]:
        """Takes up what the last scribe left. Games that were over are written now, where they aren't; those for which
        the disk has no room."""
        self.waits = list(self._journals(self.waiting))
        found = list(self._journals(self.running))
        unwritten = []
        # those that have links first, since these are nobody else's
        for it in sorted(found, key=lambda it: not it.sitting.links):
            if not it.sitting.is_over:
                self.left.append(it)
                continue
            try:
                self.finish(it)
            except OSError as fault:
                if fault.errno not in whole.FULL:
                    raise
                unwritten.append(it)
        return unwritten

    def _journals(self, folder: Path) -> Iterator[Journal]:
        for path in sorted(folder.glob("*.lines")):
            if found := journal.restored(path):
                yield found
            else:
                logger.warning("%s is no journal, and stays as it is", path)

    # ---- sittings ----

    def begin(self, games: list[GameListed], boards: list[Board], now: datetime) -> Journal:
        """The journal for what is played at a desk, which isn't begun yet: that of a game that goes on here, or a new
        one."""
        found = self._goes_on(games, boards)
        if found:
            found.sitting.renumber(games[0].game)
            found.lie_in(self.running)
            return found
        # of a pair that doesn't go on, one board may be where it was
        is_late = any(it.sitting.is_of(games) and it.sitting.has_kept(boards) for it in self.left)
        sitting = Sitting.of(games, now, is_late)
        return Journal(self.running / journal.name_of(sitting), sitting)

    def _goes_on(self, games: list[GameListed], boards: list[Board]) -> Journal | None:
        for known in (self.left, self.waits):
            for it in reversed(known):
                is_late = all(board.ply >= FIRST_OF_A_FRESH_GAME for board in boards)
                may_go_on = known is self.left or it.sitting.is_adjourned or is_late
                if may_go_on and it.sitting.is_of(games) and it.sitting.goes_on_with(boards):
                    known.remove(it)
                    return it
        return None

    def wait(self, it: Journal) -> None:
        """Keeps a game that was adjourned, or lost sight of, until it is seen again."""
        self.waits.append(it)
        it.move_to(self.waiting)

    def given_up(self, before: datetime) -> list[Journal]:
        """The games that were lost sight of before that moment and never seen again. They wait no longer."""
        lost = [it for it in self.waits if not it.sitting.is_adjourned and is_older(it.path, before)]
        self.waits = [it for it in self.waits if it not in lost]
        return lost

    # ---- writing ----

    def finish(self, it: Journal) -> None:
        """Writes the games of a sitting that is over, whole and to the disk, and lets its journal go; or has it wait,
        where it was adjourned. `OSError` where that can't be done; the journal is kept then."""
        sitting = it.sitting
        if sitting.is_adjourned and sitting.has_half_moves and not sitting.links:
            self.wait(it)
            return
        if sitting.is_worth_keeping:
            may_stand = bool(sitting.links)
            if not may_stand:
                self._link(sitting)
            it.keep_links()
            self._write(sitting, may_stand)
        it.remove()

    def _link(self, sitting: Sitting) -> None:
        """Gives the games their links."""
        day = f"{sitting.first.ended or datetime.now():%Y-%m-%d}"
        for _ in sitting.records:
            self._numbers[day] = self._last_number(day) + 1
            sitting.links.append(f"{day}/{self._numbers[day]}")

    def _last_number(self, day: str) -> int:
        if day not in self._numbers:
            files = self._files(date.fromisoformat(day))
            found = (int(number) for file in files for its_day, number in LINK.findall(read(file)) if its_day == day)
            self._numbers[day] = max(found, default=0)
        return self._numbers[day]

    def _files(self, day: date) -> list[Path]:
        folder = self.folder / str(day.year)
        return sorted(it for it in folder.glob(f"{day}*") if it.suffix in (".pgn", ".bpgn"))

    def _write(self, sitting: Sitting, may_stand: bool) -> None:
        """Writes the games; `may_stand` where an earlier scribe may have done so, and ended before its journal did."""
        records = list(sitting.records.values())
        accounts = self.names.known() if self.names else None
        for record, link in zip(records, sitting.links):
            record.link = link
            if accounts is not None:
                record.accounts = record.white.casefold() in accounts, record.black.casefold() in accounts
        if sitting.is_pair:
            records[0].partner, records[1].partner = records[1].link, records[0].link
        texts = [(it.link, kind_of(it) + ".pgn", f'[Link "{it.link}"]', pgn.text(it, self.site)) for it in records]
        if sitting.is_pair:
            first, second = records
            texts.append(
                (
                    first.link,
                    "-bughouse.bpgn",
                    f'[LinkA "{first.link}"]',
                    bpgn.text(first, second, sitting.order, self.site),
                )
            )
        for link, ending, mark, text in texts:
            file = self._file_of(link, ending)
            if not (may_stand and file.exists() and mark in read(file)):
                try:
                    append(file, text)
                except OSError:
                    self._mended.discard(file)
                    raise

    def _file_of(self, link: str, ending: str) -> Path:
        """The file of that kind for a link's day, which ends with a whole game."""
        day = link.split("/")[0]
        file = self.folder / day[:4] / f"{day}{ending}"
        file.parent.mkdir(parents=True, exist_ok=True)
        if file not in self._mended:
            self._mend(file)
        return file

    def _mend(self, file: Path) -> None:
        """Takes away what is behind the last whole game: the scribe was ended as it wrote that, and its journal has
        it."""
        if file.exists():
            text = read(file)
            os.truncate(file, len(text[: whole_length(text)].encode()))
        self._mended.add(file)


def read(file: Path) -> str:
    return file.read_text(encoding="utf-8")


def append(file: Path, text: str) -> None:
    """Puts text behind a file's, to the disk, or leaves the file as it was."""
    out = os.open(file, os.O_WRONLY | os.O_CREAT | os.O_CLOEXEC, 0o666)
    try:
        whole.put(out, os.fstat(out).st_size, text.encode(), to_disk=True)
    finally:
        os.close(out)


def is_older(path: Path, moment: datetime) -> bool:
    """Whether a file was last written before a moment; not where there is none yet."""
    try:
        return datetime.fromtimestamp(path.stat().st_mtime) < moment
    except FileNotFoundError:
        return False
