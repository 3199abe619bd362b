"""How the house begins a game of chess: by lines that are played everywhere, another one each time. Its search would
play the same game each time, and begin it oddly."""

import random
from collections.abc import Sequence

LINES = """
e2e4 e7e5 g1f3 b8c6 f1b5 a7a6 b5a4 g8f6 O-O f8e7
e2e4 e7e5 g1f3 b8c6 f1c4 f8c5 c2c3 g8f6 d2d3 d7d6
e2e4 e7e5 g1f3 b8c6 d2d4 e5d4 f3d4 g8f6 d4c6 b7c6
e2e4 e7e5 g1f3 g8f6 f3e5 d7d6 e5f3 f6e4 d2d4 d6d5
e2e4 e7e5 b1c3 g8f6 f1c4 b8c6 d2d3 f8b4
e2e4 c7c5 g1f3 d7d6 d2d4 c5d4 f3d4 g8f6 b1c3 a7a6
e2e4 c7c5 g1f3 b8c6 d2d4 c5d4 f3d4 g7g6 b1c3 f8g7
e2e4 c7c5 b1c3 b8c6 g2g3 g7g6 f1g2 f8g7
e2e4 e7e6 d2d4 d7d5 b1c3 g8f6 c1g5 f8e7
e2e4 e7e6 d2d4 d7d5 e4e5 c7c5 c2c3 b8c6
e2e4 c7c6 d2d4 d7d5 b1c3 d5e4 c3e4 c8f5 e4g3 f5g6
e2e4 d7d5 e4d5 d8d5 b1c3 d5a5 d2d4 g8f6
e2e4 g8f6 e4e5 f6d5 d2d4 d7d6 g1f3 c8g4
d2d4 d7d5 c2c4 e7e6 b1c3 g8f6 c1g5 f8e7
d2d4 d7d5 c2c4 c7c6 g1f3 g8f6 b1c3 d5c4
d2d4 d7d5 c2c4 d5c4 g1f3 g8f6 e2e3 e7e6
d2d4 d7d5 g1f3 g8f6 c1f4 c7c5 e2e3 b8c6
d2d4 g8f6 c2c4 g7g6 b1c3 f8g7 e2e4 d7d6 g1f3 O-O
d2d4 g8f6 c2c4 e7e6 b1c3 f8b4 e2e3 O-O
d2d4 g8f6 c2c4 e7e6 g1f3 b7b6 g2g3 c8b7
d2d4 f7f5 g2g3 g8f6 f1g2 e7e6 g1f3 f8e7
c2c4 e7e5 b1c3 g8f6 g1f3 b8c6 g2g3 d7d5
c2c4 c7c5 g1f3 g8f6 b1c3 b8c6 g2g3 g7g6
g1f3 d7d5 g2g3 g8f6 f1g2 e7e6 O-O f8e7
"""
BOOK = tuple(tuple(line.split()) for line in LINES.split("\n") if line)


def next_word(words: Sequence[str]) -> str | None:
    """A half-move by which some line goes on that begins with these half-moves; none where none does."""
    at = len(words)
    ways = {line[at] for line in BOOK if len(line) > at and line[:at] == tuple(words)}
    return random.choice(sorted(ways)) if ways else None
