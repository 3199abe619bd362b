"""What the director says, in words. Nothing here tells anybody."""

from ficslink.terms import Terms

from .evening import Evening, Pair, Row

LONGEST = 400  # characters of a line of the table
WORDS = "join, table, round, when, help"
CHIEFS_WORDS = "start; result WHITE BLACK 1-0, or 0-1, or 1/2-1/2"


def points(half_points: int) -> str:
    """Half-points as points."""
    return f"{half_points // 2}{'.5' if half_points % 2 else ''}"


def row(it: Row) -> str:
    return f"{it.place} {it.player} {points(it.half_points)}/{it.games}"


def packed(texts: list[str], between: str) -> list[str]:
    """Texts, as many in a line as fit."""
    lines: list[str] = []
    for text in texts:
        if lines and len(lines[-1]) + len(between) + len(text) <= LONGEST:
            lines[-1] += between + text
        else:
            lines.append(text)
    return lines


def table(evening: Evening) -> list[str]:
    """The table, or who has joined."""
    if not evening.has_started:
        return joined(evening)
    return packed([row(it) for it in evening.table], ", ")


def joined(evening: Evening) -> list[str]:
    """Who has joined."""
    if not evening.players:
        return ["Nobody has joined."]
    return packed([f"{len(evening.players)} have joined: {evening.players[0]}", *evening.players[1:]], ", ")


def pairs(evening: Evening) -> list[str]:
    """The open round: its pairs, and the results that stand."""
    if not evening.open:
        return ["No round is open."]
    shown = [
        f"{it.white} - {it.black}" + (f" {evening.results[it]}" if it in evening.results else "")
        for it in evening.pairs
    ]
    return packed([f"Round {evening.open} of {len(evening.rounds)}: {shown[0]}", *shown[1:]], ", ")


def terms_of(terms: Terms) -> str:
    """Terms as they stand behind `match`."""
    return f"{terms.minutes} {terms.increment}" + ("" if terms.variant == "chess" else f" {terms.variant}")


def line_to_type(pair: Pair, player: str, terms: Terms) -> str:
    """The line by which a player challenges the other."""
    return f"match {pair.other(player).lower()} {terms_of(terms)} {'white' if player == pair.white else 'black'}"


def call(number: int, pair: Pair, player: str, terms: Terms) -> list[str]:
    """What one of a pair is told when it is to begin."""
    if player == pair.white:
        return [f"Round {number}: you have White against {pair.black}. Type: {line_to_type(pair, player, terms)}"]
    return [
        f"Round {number}: you have Black against {pair.white}, who challenges you. Then type: accept "
        f"{pair.white.lower()}",
        f"Or challenge by: {line_to_type(pair, player, terms)}",
    ]


def resume(pair: Pair, player: str) -> list[str]:
    """What one of a pair is told whose game is adjourned."""
    other = pair.other(player)
    return [f"Your game with {other} is adjourned, and has to be ended. Type: resume {other.lower()}"]


def not_as_paired(pair: Pair, player: str, terms: Terms) -> list[str]:
    """What both are told who have begun a game on other terms or with other colours."""
    return [
        f"This game doesn't count: {pair.white} has White against {pair.black}, {terms_of(terms)}. Type: abort",
        f"Behind its end type: {line_to_type(pair, player, terms)}",
    ]


def help_for(name: str, is_chief: bool) -> list[str]:
    """Its words."""
    lines = [f"I direct a round robin. I know these words: {WORDS}. As: tell {name} join"]
    return lines + ([f"You may direct: {CHIEFS_WORDS}"] if is_chief else [])
