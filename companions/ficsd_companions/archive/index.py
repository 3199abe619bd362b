"""All games of the archive in memory: by days, by players, by links.

A file is read once. One that has grown is read from the end of the last whole game on; one that was changed otherwise
is read anew."""

import logging
import os
import time
from bisect import bisect_left, insort
from collections import defaultdict
from collections.abc import Callable, Iterable

from .files import DayFile, bytes_of, files_of, games_of
from .kept import RESULTS, Kept, Span, Texts, kept_of, pair_of

logger = logging.getLogger("fics_web")
AT_LEAST_SECONDS = 1.0  # between two looks at the folder, however many ask
TAIL = 64  # bytes by which a file that has grown is told from one that was written anew


def complain(fault: str) -> None:
    """Says to the log of the page what is wrong."""
    logger.error("fics_web: %s", fault)


class Player:
    """A name under which games were played, and what came of them."""

    def __init__(self, name: str) -> None:
        self.name = name  # as it is spelled in the first game that was read
        self.games: list[Kept] = []
        self.tally: dict[str, list[int]] = {}  # of each variant how many were won, lost, drawn, and had no result

    def count(self, game: Kept, by: int) -> None:
        """Counts a game in, or out by -1."""
        at = RESULTS.index(game.result)
        if at < 2 and game.white.casefold() != self.name.casefold():
            at = 1 - at
        self.tally.setdefault(game.variant, [0, 0, 0, 0])[at] += by


class Read:
    """What was read of a file, from where an earlier reading ended on."""

    def __init__(self, before: "Read | None") -> None:
        self.state = (0, 0, 0)
        self.end: int = before.end if before else 0  # behind the last whole game
        self.tail = b""  # the last bytes before that
        self.pairs: dict[str, Span] = dict(before.pairs) if before else {}


class Index:
    """The games of a folder, which needn't be there yet."""

    def __init__(self, folder: str | os.PathLike[str], complains: Callable[[str], None] = complain) -> None:
        """`complains` takes why the archive can't be read."""
        self.folder, self._complains = os.fspath(folder), complains
        self.days: dict[str, list[Kept]] = {}
        self.known_days: list[str] = []  # in their order
        self.players: dict[str, Player] = {}
        self.pairs: dict[str, Span] = {}  # by the link of the first board
        self.count = 0
        self.serial = 0  # of the last look that has found something
        self._changed: dict[str, int] = {}  # of each day that of the last look that has changed it
        self._reads: dict[str, Read] = {}
        self._texts = Texts()
        self._looked = -AT_LEAST_SECONDS
        self._fault = ""

    # ---- what is there ----

    def game(self, day: str, number: int) -> Kept | None:
        """The game of that link."""
        games = self.days.get(day, [])
        at = bisect_left(games, (day, number))
        return games[at] if at < len(games) and games[at].number == number else None

    def beside(self, game: Kept) -> tuple[Kept | None, Kept | None]:
        """The games before and behind one, in that day."""
        games = self.days[game.day]
        at = bisect_left(games, game)
        return games[at - 1] if at else None, games[at + 1] if at + 1 < len(games) else None

    def days_beside(self, day: str) -> tuple[str | None, str | None]:
        """The days with games before and behind a day."""
        at = bisect_left(self.known_days, day)
        behind = at + (day in self.days)
        return (
            self.known_days[at - 1] if at else None,
            self.known_days[behind] if behind < len(self.known_days) else None,
        )

    def player(self, name: str) -> Player | None:
        return self.players.get(name.casefold())

    def changed_since(self, serial: int) -> list[str]:
        """The days with other games than behind an earlier look."""
        return [day for day, it in self._changed.items() if it > serial] if serial != self.serial else []

    # ---- reading ----

    def refresh(self) -> None:
        """Reads what is new, where nobody has looked for that a moment ago."""
        if time.monotonic() - self._looked < AT_LEAST_SECONDS:
            return
        fresh: list[Kept] = []
        seen: set[str] = set()
        faults: list[OSError] = []
        for file in files_of(os.path.realpath(self.folder), faults):
            seen.add(file.path)
            fresh += self._read(file, faults)
        if not faults:  # else what isn't seen may be there all the same
            self._forget(set(self._reads) - seen)
        self._add(sorted(fresh))
        self.serial = max(self._changed.values(), default=0)
        self._tell("; ".join(map(str, faults[:1])))
        self._looked = time.monotonic()

    def _tell(self, fault: str) -> None:
        """Says once why the archive can't be read, or can't be read whole."""
        if fault and fault != self._fault:
            self._complains(f"the archive can't be read: {fault}")
        self._fault = fault

    def _read(self, file: DayFile, faults: list[OSError]) -> list[Kept]:
        """The games of a file that weren't read yet. Where it can't be read what is known of it stays."""
        known = self._reads.get(file.path)
        if known and known.state == file.state:
            return []
        try:
            goes_on = known and self._has_grown(known, file)
            read = Read(known if goes_on else None)
            games = list(self._games(file, read))
            read.tail = bytes_of(file.path, max(0, read.end - TAIL), min(TAIL, read.end))
        except FileNotFoundError:
            return []  # it is gone again
        except OSError as fault:
            faults.append(fault)
            return []
        if known and not goes_on:
            self._forget({file.path})
        read.state = file.state
        self._reads[file.path] = read
        self.pairs |= read.pairs
        return games

    def _has_grown(self, known: Read, file: DayFile) -> bool:
        """Whether what was read of a file still stands there, and more behind it."""
        return (
            known.state[0] == file.state[0]
            and known.end <= file.size
            and known.state[1] < file.size
            and bytes_of(file.path, max(0, known.end - TAIL), min(TAIL, known.end)) == known.tail
        )

    def _games(self, file: DayFile, read: Read) -> Iterable[Kept]:
        path = self._texts.of(file.path)
        for offset, head, movetext in games_of(file.path, read.end):
            span = Span(path, offset, len(head) + len(movetext))
            read.end = offset + span.length
            if file.is_pairs:
                if link := pair_of(head):
                    read.pairs[link] = span
            elif game := kept_of(file.day, head, movetext, span, self._texts):
                yield game

    # ---- rows ----

    def _add(self, games: list[Kept]) -> None:
        """Takes rows in, which are in their order; of two with one link the first that was read."""
        for it in games:
            if self.game(it.day, it.number):
                continue
            if it.day not in self.days:
                self.days[it.day] = []
                insort(self.known_days, it.day)
            put(self.days[it.day], it)
            self._changed[it.day] = self.serial + 1
            for name in {name.casefold(): name for name in it.players}.values():
                player = self.players.setdefault(name.casefold(), Player(name))
                put(player.games, it)
                player.count(it, 1)
            self.count += 1

    def _forget(self, paths: set[str]) -> None:
        """Forgets what was read of files that are gone, or were changed."""
        if not paths:
            return
        gone: dict[str, list[Kept]] = defaultdict(list)
        for day in {it.rpartition("/")[2][:10] for it in paths} & set(self.days):
            for it in [it for it in self.days[day] if it.span.path in paths]:
                for name in {it.casefold() for it in it.players}:
                    gone[name].append(it)
                self.count -= 1
            self.days[day] = [it for it in self.days[day] if it.span.path not in paths]
            self._changed[day] = self.serial + 1
            if not self.days[day]:
                del self.days[day]
                self.known_days.remove(day)
        for name, games in gone.items():
            self._forget_games(name, games)
        for path in paths:
            for link in self._reads.pop(path).pairs if path in self._reads else ():
                self.pairs.pop(link, None)

    def _forget_games(self, name: str, games: list[Kept]) -> None:
        player = self.players[name]
        links = {it.link for it in games}
        player.games = [it for it in player.games if it.link not in links]
        for it in games:
            player.count(it, -1)
        if not player.games:
            del self.players[name]


def put(games: list[Kept], game: Kept) -> None:
    """Puts a row to its place; most come in their order."""
    if not games or games[-1] < game:
        games.append(game)
    else:
        insort(games, game)
