"""A pair's game of bughouse as one BPGN game: the half-moves of both boards in the order in which they came.

A half-move of White on the first board is `1A.`, of Black `1a.`, on the second board `1B.` and `1b.`; behind each
stand the seconds that its player has left.
"""

import textwrap

from .pgn import WIDTH, quoted, termination, time_control
from .record import HalfMove, Record


def token(it: HalfMove, board: str) -> str:
    letter = board if it.ply % 2 else board.lower()
    left = f"{{{it.left}}}" if it.left is not None else ""
    return f"{(it.ply + 1) // 2}{letter}. {it.short}{left}"


def text(first: Record, second: Record, order: list[tuple[str, HalfMove]], site: str) -> str:
    """`order` has the half-moves of both, each with its board, A or B."""
    tags = [
        ("Event", "Casual bughouse game"),
        ("Site", site),
        ("Date", f"{first.begun:%Y.%m.%d}"),
        ("WhiteA", first.white),
        ("BlackA", first.black),
        ("WhiteB", second.white),
        ("BlackB", second.black),
        ("TimeControl", time_control(first)),
        ("Result", first.result),
        ("Termination", termination(first.reason)),
        ("LinkA", first.link),
        ("LinkB", second.link),
    ]
    if fens := [(name, fen) for name, it in (("FENA", first), ("FENB", second)) if (fen := it.fen())]:
        tags += [("SetUp", "1"), *fens]
    head = "\n".join(f'[{name} "{quoted(value)}"]' for name, value in tags)
    reasons = [it.reason for it in (first, second) if it.reason and "partner" not in it.reason]
    words = [token(it, board) for board, it in order] + [f"{{{it}}}" for it in reasons[:1]] + [first.result]
    glued = " ".join(it.replace(" ", "\x00") for it in words)
    lines = textwrap.wrap(glued, WIDTH, break_long_words=False, break_on_hyphens=False)
    return head + "\n\n" + "\n".join(lines).replace("\x00", " ") + "\n\n"
