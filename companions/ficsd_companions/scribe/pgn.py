"""A record as PGN (export form: the seven tags first, movetext in lines of fewer than 80 characters)."""

import textwrap
from collections.abc import Iterator

from .record import HalfMove, Record

WIDTH = 79
STARTING_SECONDS = 10  # a game of 0 minutes with an increment begins with so many
TERMINATIONS = {  # what the standard calls an end, by the words of the server's reason behind the name
    "checkmated": "normal",
    "resigns": "normal",
    "drawn by stalemate": "normal",
    "drawn by agreement": "normal",
    "drawn by the 50 move rule": "normal",
    "drawn by repetition": "normal",
    "partner's game ended": "normal",
    "forfeits on time": "time forfeit",
    "drawn by time": "time forfeit",
    "forfeits by disconnection": "abandoned",
    "aborted": "abandoned",
}
VARIANTS = {"crazyhouse": "Crazyhouse", "fischer": "Chess960", "bughouse": "Bughouse"}


def termination(reason: str) -> str:
    """The standard's word for how a game ended."""
    return next((it for words, it in TERMINATIONS.items() if reason.endswith(words)), "unterminated")


def time_control(record: Record) -> str:
    """The seconds at the start, and what a half-move adds."""
    terms = record.terms
    if not terms.is_timed:
        return "-"
    start = 60 * terms.minutes or STARTING_SECONDS
    return f"{start}+{terms.increment}" if terms.increment else str(start)


def tags(record: Record, site: str) -> Iterator[tuple[str, str]]:
    yield from (
        ("Event", "Casual game"),
        ("Site", site),
        ("Date", f"{record.begun:%Y.%m.%d}"),
        ("Round", "-"),
        ("White", record.white),
        ("Black", record.black),
        ("Result", record.result),
    )
    yield "Time", f"{record.begun:%H:%M:%S}"
    yield "TimeControl", time_control(record)
    yield "Termination", termination(record.reason)
    if record.terms.kind in VARIANTS:
        yield "Variant", VARIANTS[record.terms.kind]
    if fen := record.fen():
        yield from (("SetUp", "1"), ("FEN", fen))
    if record.accounts:
        yield from (("WhiteAccount", yes_or_no(record.accounts[0])), ("BlackAccount", yes_or_no(record.accounts[1])))
    yield "Link", record.link
    if record.partner:
        yield "Partner", record.partner


def yes_or_no(is_so: bool) -> str:
    return "yes" if is_so else "no"


def quoted(text: str) -> str:
    return text.replace("\\", "\\\\").replace('"', '\\"')


def clock(took: str) -> str:
    """Minutes and seconds, as 75:04, as hours, minutes and seconds."""
    minutes, seconds = took.split(":")
    return f"{int(minutes) // 60}:{int(minutes) % 60:02}:{seconds}"


def times(it: HalfMove) -> str:
    """What the player's clock has behind a half-move, where there are clocks, and the time that it took. The one can't
    be counted from the other, since both are told without their milliseconds."""
    left = max(0, it.left or 0)
    has = "" if it.left is None else f"[%clk {clock(f'{left // 60}:{left % 60:02}')}] "
    return f"{{{has}[%emt {clock(it.took)}]}}"


def tokens(half_moves: list[HalfMove]) -> Iterator[str]:
    """The words of the movetext; behind each half-move stand its times."""
    for at, it in enumerate(half_moves):
        number, is_whites = (it.ply + 1) // 2, it.ply % 2 == 1
        if is_whites or at == 0:
            yield f"{number}." if is_whites else f"{number}..."
        yield it.short
        yield times(it)


def movetext(record: Record) -> str:
    """The half-moves, how it ended in the server's own words, and the result. A comment is never broken in two."""
    words = [*tokens(record.half_moves), *([f"{{{record.reason}}}"] if record.reason else []), record.result]
    glued = " ".join(it.replace(" ", "\x00") for it in words)
    lines = textwrap.wrap(glued, WIDTH, break_long_words=False, break_on_hyphens=False)
    return "\n".join(lines).replace("\x00", " ")


def text(record: Record, site: str) -> str:
    """The game as it stands in a file: tags, movetext, and an empty line behind each."""
    head = "\n".join(f'[{name} "{quoted(value)}"]' for name, value in tags(record, site))
    return f"{head}\n\n{movetext(record)}\n\n"
