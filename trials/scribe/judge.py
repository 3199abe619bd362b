"""Holds an archive against what the players' links saw, half-move by half-move."""

from collections import Counter, defaultdict
from collections.abc import Iterator
from dataclasses import dataclass, field

from ficslink.arrays import USUAL, array
from ficslink.terms import Terms

from .kept import Kept, Pair
from .seen import HalfMove, Seen

VARIANTS = {"crazyhouse": "Crazyhouse", "fischer": "Chess960", "bughouse": "Bughouse"}
SECOND = 1.0  # to which a game's beginning is told
LAG = 60.0  # seconds by which a scribe, or a player, that gets no processor may be behind; both are told all the same
SHORT = 0.5  # seconds; on a busy machine a look takes nearly as long


@dataclass(eq=False)
class Played:
    """A game as it was played: what one of its witnesses saw."""

    seen: Seen
    part: str  # of the evening
    pieces: list[Kept] = field(default_factory=list)

    @property
    def who(self) -> tuple[str, ...]:
        terms = Terms.parsed(self.seen.terms)
        time = "-"
        if terms.is_timed:
            time = str(60 * terms.minutes or 10) + (f"+{terms.increment}" if terms.increment else "")
        return self.seen.white, self.seen.black, time, VARIANTS.get(terms.kind, "")

    def ranks_behind(self, ply: int, half_moves: list[HalfMove]) -> tuple[str, ...]:
        if ply:
            return half_moves[ply - 1].ranks
        number = Terms.parsed(self.seen.terms).array
        first = USUAL if number is None else array(number)
        return (first.lower(), "p" * 8, *["-" * 8] * 4, "P" * 8, first)

    def has(self, kept: Kept) -> bool:
        """Whether a game of the archive is this one, or a part of it."""
        if not self.seen.begun - LAG <= kept.begun <= self.seen.ended + LAG:
            return False
        if kept.reason:
            is_end = kept.start + len(kept.half_moves) == len(self.seen.half_moves)
            return (
                is_end
                and (kept.reason, kept.result) == (self.seen.reason, self.seen.result)
                and self._reads(kept, self.seen.half_moves)
            )
        return any(self._reads(kept, it) for it in (self.seen.half_moves, *self.seen.given_up))

    def seconds_from(self, kept: Kept) -> float:
        """How far the second in which the scribe first saw a game is from this one. The same two may have made the same
        half-moves twice."""
        return max(0.0, self.seen.begun - kept.begun - SECOND, kept.begun - self.seen.ended)

    def _reads(self, kept: Kept, half_moves: list[HalfMove]) -> bool:
        end = kept.start + len(kept.half_moves)
        if end > len(half_moves):
            return False
        if kept.ranks and kept.ranks != self.ranks_behind(kept.start, half_moves):
            return False
        if not kept.ranks and self.ranks_behind(0, half_moves)[7] != USUAL:
            return False
        if kept.hands is not None and not self.seen.given_up:
            held = self.seen.hands_behind(kept.start)
            if [sorted(it) for it in kept.hands] != [sorted(it) for it in held]:
                return False
        return kept.half_moves == [(it.short, self._clock(it), clock(it.took)) for it in half_moves[kept.start : end]]

    def _clock(self, it: HalfMove) -> str:
        """What a player's clock had behind a half-move, as PGN says it; nothing without clocks."""
        left = max(0, it.left)
        return clock(f"{left // 60}:{left % 60}") if self.who[2] != "-" else ""


def clock(took: str) -> str:
    minutes, seconds = map(int, took.split(":"))
    return f"{minutes // 60}:{minutes % 60:02}:{seconds:02}"


@dataclass
class Dark:
    """From when to when no scribe was there."""

    begun: float
    ended: float

    def is_near(self, moment: float, slack: float) -> bool:
        return self.begun - slack <= moment <= self.ended + slack


class Judge:
    """Says what is wrong, and counts what became of the games of each part."""

    def __init__(
        self, played: list[Played], kept: list[Kept], pairs: list[Pair], dark: list[Dark], slack: float
    ) -> None:
        self.played, self.kept, self.pairs = played, kept, pairs
        self.dark, self.slack = dark, slack
        self.counts: dict[str, Counter[str]] = defaultdict(Counter)

    def faults(self) -> Iterator[str]:
        yield from self._numbers()
        yield from self._assign()
        for it in self.played:
            yield from self._game(it)
        yield from self._pairs()

    def _numbers(self) -> Iterator[str]:
        """Each link is one game's, and none is left out."""
        by_day = defaultdict(list)
        for it in self.kept:
            day, number = it.link.split("/")
            by_day[day].append(int(number))
        for day, numbers in by_day.items():
            if sorted(numbers) != list(range(1, len(numbers) + 1)):
                yield f"{day}: {len(numbers)} games aren't numbered 1 to {len(numbers)}"

    def _assign(self) -> Iterator[str]:
        by_who = defaultdict(list)
        for it in self.played:
            by_who[it.who].append(it)
        for kept in sorted(self.kept, key=lambda it: not it.reason):
            fitting = [it for it in by_who[kept.who] if it.has(kept)]
            free = [it for it in fitting if not (kept.reason and any(other.reason for other in it.pieces))]
            if not fitting:
                yield f"{kept.link} ({kept.file}) was never played so"
            elif not free:
                yield f"{kept.link} ({kept.file}) stands there twice"
            else:
                best = min(free, key=lambda it: (it.seconds_from(kept), any(piece.reason for piece in it.pieces)))
                best.pieces.append(kept)

    def _is_dark(self, moment: float) -> bool:
        return any(it.is_near(moment, self.slack) for it in self.dark)

    def _game(self, it: Played) -> Iterator[str]:
        """What became of a game."""
        seen, count = it.seen, self.counts[it.part]
        who = f"{seen.white} - {seen.black} ({seen.terms}, {len(seen.half_moves)} half-moves, {seen.reason})"
        count["games"] += 1
        count["half-moves"] += len(seen.half_moves)
        ended = [piece for piece in it.pieces if piece.reason]
        if not seen.half_moves and seen.result == "*":
            count["nothing to keep"] += 1
        elif len(it.pieces) == 1 and ended and not ended[0].start:
            count["whole"] += 1
        elif not any(
            dark.begun - self.slack < seen.ended and seen.begun < dark.ended + self.slack for dark in self.dark
        ):
            if len(it.pieces) == 1 and ended:
                count["begun late"] += 1
                count["half-moves missed"] += ended[0].start
            elif not ended and seen.ended - seen.since < SHORT:
                count["shorter than a look"] += 1
            else:
                yield f"{who}: {len(it.pieces)} pieces, {len(ended)} with its end, and the scribe was there"
        else:
            count["in pieces" if it.pieces else "never seen"] += 1
            yield from (f"{who}: {fault}" for fault in self._in_pieces(it, ended))

    def _in_pieces(self, it: Played, ended: list[Kept]) -> Iterator[str]:
        """A game while which the scribe was killed: only what was played meanwhile may be missing, and what lies at
        most a half-move apart is one game."""
        pieces = sorted(it.pieces, key=lambda piece: (piece.start, len(piece.half_moves)))
        if not it.seen.given_up:
            apart = 0 if it.who[3] == "Bughouse" else 2  # a pair goes on where both of its boards do
            for one, other in zip(pieces, pieces[1:]):
                if other.start < one.start + len(one.half_moves) + apart:
                    yield f"torn between {one.link} and {other.link}"
        known = {ply for piece in pieces for ply in range(piece.start + 1, piece.start + len(piece.half_moves) + 1)}
        first = pieces[0].start if pieces else 0
        for half in it.seen.half_moves:
            is_late = half.ply <= first and half.moment < it.seen.begun + SECOND
            if half.ply not in known and not is_late and not self._is_dark(half.moment):
                yield f"half-move {half.ply} is lost"
                return
        if not ended and not self._is_dark(it.seen.ended):
            yield "its end is lost"

    def _pairs(self) -> Iterator[str]:
        """A pair's BPGN has the half-moves of both boards in the order in which they came."""
        by_link = {piece.link: it for it in self.played for piece in it.pieces}
        kept = {it.link: it for it in self.kept}
        for pair in self.pairs:
            links = pair.tags["LinkA"], pair.tags["LinkB"]
            if any(link not in by_link for link in links):
                continue  # said already
            if [kept[it].tags["Partner"] for it in links] != list(reversed(links)):
                yield f"{links} don't name each other"
            due = sorted(
                ((half, board) for board, link in zip("AB", links) for half in part_of(by_link[link].seen, kept[link])),
                key=lambda it: it[0].place,
            )
            is_timed = by_link[links[0]].who[2] != "-"
            if not any(
                pair.half_moves == [of_a_pair(*it, is_timed) for it in order]
                for order in orders(due, min(kept[it].begun for it in links))
            ):
                yield f"the pair of {links} has other half-moves than its games, or another order"
        bughouse = sum("Partner" in it.tags for it in self.kept)
        if bughouse != 2 * len(self.pairs):
            yield f"{bughouse} games of bughouse and {len(self.pairs)} pairs"


def orders(due: list[tuple[HalfMove, str]], begun: float) -> Iterator[list[tuple[HalfMove, str]]]:
    """The order of a pair's half-moves. Where each board had one as the scribe first saw them nobody tells it which
    came first, and the first board's may stand first."""
    yield due
    if [(half.ply, board) for half, board in due[:2]] == [(1, "B"), (1, "A")] and due[1][0].moment < begun + SECOND:
        yield [due[1], due[0], *due[2:]]


def of_a_pair(half: HalfMove, board: str, is_timed: bool) -> tuple[str, int, str, int | None]:
    return board, half.ply, half.short, half.left if is_timed else None


def part_of(seen: Seen, kept: Kept) -> list[HalfMove]:
    return seen.half_moves[kept.start : kept.start + len(kept.half_moves)]
