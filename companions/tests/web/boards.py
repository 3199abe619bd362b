"""Board lines that a played server writes."""

START = "rnbqkbnr pppppppp -------- -------- -------- -------- PPPPPPPP RNBQKBNR W -1 1 1 1 1 0"
AFTER_E4 = "rnbqkbnr pppppppp -------- -------- ----P--- -------- PPPP-PPP RNBQKBNR B 4 1 1 1 1 0"


def start(relation: int, game: int = 1) -> str:
    """A board before the first half-move."""
    return f"<12> {START} {game} Ann Ben {relation} 2 12 39 39 120 120 1 none (0:00) none 0"


def after_e4(relation: int, game: int = 1) -> str:
    """A board behind 1. e4."""
    return f"<12> {AFTER_E4} {game} Ann Ben {relation} 2 12 39 39 120 120 1 P/e2-e4 (0:00) e4 0"
