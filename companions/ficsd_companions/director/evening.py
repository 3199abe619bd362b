"""A round robin as its lines and the answers of `ficsd tourney` say it."""

from dataclasses import dataclass, field

REFUSED = "refused "
SCORES = ("1-0", "0-1", "1/2-1/2")


class BadFile(Exception):
    """The lines are none of a round robin, and why."""


@dataclass(frozen=True)
class Pair:
    """Two who meet, White first."""

    white: str
    black: str

    @property
    def players(self) -> tuple[str, str]:
        return self.white, self.black

    def other(self, player: str) -> str:
        """Whom a player meets."""
        return self.black if player == self.white else self.white

    def is_of(self, one: str, other: str) -> bool:
        """Whether these two meet, with whatever colours."""
        return {one.lower(), other.lower()} == {it.lower() for it in self.players}


@dataclass(frozen=True)
class Row:
    """A row of the table."""

    place: int
    player: str
    games: int
    half_points: int


@dataclass
class Evening:
    """What is so behind the lines: the open round is that of the last line `round N`, and none before the first one."""

    players: list[str] = field(default_factory=list)
    has_started: bool = False
    rounds: list[list[Pair]] = field(default_factory=list)
    open: int = 0
    results: dict[Pair, str] = field(default_factory=dict)
    table: list[Row] = field(default_factory=list)
    answers: list[str] = field(default_factory=list)  # the first line of the answer to each line of the file

    @property
    def pairs(self) -> list[Pair]:
        """The pairs of the open round."""
        return self.rounds[self.open - 1] if self.open else []

    def without_result(self) -> list[Pair]:
        """The pairs of the open round that have none."""
        return [it for it in self.pairs if it not in self.results]

    def named(self, player: str) -> str | None:
        """A player's name as it joined; capitals make no difference."""
        return next((it for it in self.players if it.lower() == player.lower()), None)

    def pair_of(self, player: str) -> Pair | None:
        """The pair of the open round in which somebody is."""
        return next((it for it in self.pairs if player.lower() in (it.white.lower(), it.black.lower())), None)


def questions(lines: list[str]) -> list[str]:
    """What is asked behind the lines, so that all is known: each round, and the table."""
    joined = sum(it.startswith("join ") for it in lines)
    return [f"round {it}" for it in range(1, joined + 1)] + ["table"] if "start" in lines else []


def read(lines: list[str], said: list[str]) -> Evening:
    """The evening of its lines, from what the program said to them and to `questions(lines)`."""
    evening, left = Evening(), list(said)
    for line in lines:
        if not line:  # the program skips it, and counts it
            evening.answers.append("")
            continue
        first = _answer(evening, line, left)[0]
        evening.answers.append(first)
        if not first.startswith(REFUSED):
            _take(evening, line)
    for question in questions(lines):
        rows = _answer(evening, question, left)
        if rows[0].startswith(REFUSED):
            continue
        if question == "table":
            evening.table = [_row(it) for it in rows]
        else:
            evening.rounds.append([Pair(*it.split(" - ")) for it in rows])
    _name_as_paired(evening)
    return evening


def _answer(evening: Evening, line: str, left: list[str]) -> list[str]:
    """Takes the lines that answer one."""
    if not left:
        raise BadFile(f"no answer to the line {line!r}")
    count = 1
    if not left[0].startswith(REFUSED):
        kind = line.split(" ")[0]
        count = {"round": len(evening.players) // 2, "table": len(evening.players)}.get(kind, 1)
    answer, left[:count] = left[:count], []
    return answer


def _take(evening: Evening, line: str) -> None:
    match line.split(" "):
        case ["join", player]:
            evening.players.append(player)
        case ["start"]:
            evening.has_started = True
        case ["round", number]:
            evening.open = int(number)
        case ["result", white, black, score]:
            evening.results[Pair(white, black)] = score


def _name_as_paired(evening: Evening) -> None:
    """Results by the names that the pairs have."""
    by_letters = {(it.white.lower(), it.black.lower()): it for pairs in evening.rounds for it in pairs}
    evening.results = {
        by_letters[pair.white.lower(), pair.black.lower()]: score for pair, score in evening.results.items()
    }


def _row(line: str) -> Row:
    place, player, games, half_points = line.split(" ")
    return Row(int(place), player, int(games), int(half_points))
