"""The ratings of an archive, kept with it: where a day has changed it and the days behind it are counted anew, and no
other is."""

import os
from bisect import bisect_left
from collections.abc import Iterator
from pathlib import Path
from typing import NamedTuple

from ficsd_companions.archive.index import Index
from ficsd_companions.archive.kept import LINK, Kept

from .pools import Pool
from .table import Bout, Point, Standing, Table
from .verdicts import Known, Verdict, boards_of, ordinal, verdict

State = tuple[tuple[int, int], ...]


class Judged(NamedTuple):
    """A game and what is said of it; of a pair the verdict is that of both boards."""

    game: Kept
    verdict: Verdict
    is_counted: bool  # of a pair the board of less number alone is


class Ratings:
    """What everybody is behind the newest day of an archive. The same archive makes the same ratings."""

    def __init__(self, index: Index) -> None:
        self.index = index
        self.table, self.known = Table(), Known()
        self._serial = 0
        self._state: State = ()

    def refresh(self) -> None:
        """Counts what is new or was changed."""
        self.index.refresh()
        first = self._first_changed()
        if first is None:
            return
        self.table.cut(ordinal(first) or 0)  # a day that none is may stand before others: all are counted anew then
        first = first if ordinal(first) else ""
        for day in self.index.known_days[bisect_left(self.index.known_days, first) :]:
            number = ordinal(day)
            if number is not None:
                self.table.rate(number, self._bouts(day))

    def _first_changed(self) -> str | None:
        """The first day of which something has changed, or may count otherwise."""
        state = state_of(Path(self.index.folder))
        if state != self._state:
            self.known, self._state = Known.in_folder(Path(self.index.folder)), state
            self._serial = self.index.serial
            return ""
        changed = self.index.changed_since(self._serial)
        self._serial = self.index.serial
        return min(changed, default=None)

    def _bouts(self, day: str) -> Iterator[Bout]:
        for it in self.judged(day):
            if it.is_counted and it.verdict.pool:
                yield Bout.of(it.verdict.pool, self._boards(it.game))

    def _boards(self, game: Kept) -> list[Kept]:
        return boards_of(game, self._game)

    def _game(self, link: str) -> Kept | None:
        found = LINK.fullmatch(link)
        return self.index.game(found[1], int(found[2])) if found else None

    # ---- what is said ----

    @property
    def today(self) -> int:
        """The newest day, by which deviations have grown."""
        days = (ordinal(it) for it in reversed(self.index.known_days))
        return next((it for it in days if it is not None), 0)

    def judge(self, game: Kept) -> Judged:
        """What is said of a game."""
        boards = self._boards(game)
        found = verdict(boards, self.known)
        return Judged(game, found, found.is_rated and boards[0] is game)

    def judged(self, day: str) -> Iterator[Judged]:
        """The games of a day, in their order."""
        return map(self.judge, self.index.days.get(day, []))

    def standings(self, name: str) -> list[Standing]:
        """What somebody is in each pool with a rated game."""
        spelled = self.spelled(name)
        found = (self.table.standing(pool, spelled, self.today) for pool in Pool)
        return [it for it in found if it]

    def standing(self, pool: Pool, name: str) -> Standing | None:
        return self.table.standing(pool, self.spelled(name), self.today)

    def curve(self, pool: Pool, name: str) -> list[Point]:
        return self.table.curves[pool].get(name.casefold(), [])

    def ladder(self, pool: Pool) -> list[Standing]:
        """Everybody in a pool: those whose rating is sure first, and then the best first."""
        today = self.today
        all_of_it = (self.table.standing(pool, self.spelled(name), today) for name in self.table.curves[pool])
        return sorted(
            (it for it in all_of_it if it), key=lambda it: (it.is_provisional, -it.points, it.deviation, it.name)
        )

    def spelled(self, name: str) -> str:
        """A name as the archive spells it."""
        player = self.index.player(name)
        return player.name if player else name


def state_of(folder: Path) -> State:
    """By what it is seen that the files beside the games have changed."""
    states = []
    for name in ("accounts", "programs"):
        try:
            found = os.stat(folder / name)
            states.append((found.st_size, found.st_mtime_ns))
        except OSError:
            states.append((-1, 0))
    return tuple(states)
