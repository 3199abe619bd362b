"""A half-move where nobody finds one: words are tried at the server until it takes one, since it knows the rules."""

from collections.abc import Iterator

from ficslink import Board

FILES = "abcdefgh"
SQUARES = [file + rank for rank in "12345678" for file in FILES]


def tried(board: Board, hand: str) -> Iterator[str]:
    """The words to try: first of what captures, then of other steps, then of drops, and then castling. Each allowed
    half-move is among them but for those of pawns that become less than a queen."""
    is_own = str.isupper if board.side == "W" else str.islower
    own = [square for square, man in board.men() if is_own(man)]
    free = [it for it in SQUARES if board.man(it) == "-"]
    others = [square for square, man in board.men() if not is_own(man)]
    for ends in (others, free):
        for end in ends:
            yield from (start + end + becomes(board.man(start), end) for start in own if is_way(start, end))
    for man in dict.fromkeys(hand):
        yield from (f"{man}@{end}" for end in free)
    yield from ("O-O", "O-O-O")


def is_way(start: str, end: str) -> bool:
    """Whether some kind of man may go from one square to the other on an empty board."""
    across, up = abs(ord(start[0]) - ord(end[0])), abs(int(start[1]) - int(end[1]))
    return across == up or 0 in (across, up) or across * up == 2


def becomes(man: str, end: str) -> str:
    """What stands behind the squares where a pawn comes to its last rank."""
    return "=Q" if man + end[1] in ("P8", "p1") else ""
