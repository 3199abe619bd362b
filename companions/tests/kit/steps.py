"""Half-moves that a board of chess allows, for a guest that plays on whatever the other side does."""

from collections.abc import Iterator, Mapping

from ficslink import Board
from ficslink.board import FILES

Square = tuple[int, int]  # a1 is 0, 0
Men = Mapping[Square, str]

STRAIGHT = ((0, 1), (1, 0), (0, -1), (-1, 0))
DIAGONAL = ((1, 1), (1, -1), (-1, -1), (-1, 1))
JUMPS = ((1, 2), (2, 1), (2, -1), (1, -2), (-1, -2), (-2, -1), (-2, 1), (-1, 2))
# where the men but pawns go, and how many steps
REACHES = {
    "K": (STRAIGHT + DIAGONAL, 1),
    "Q": (STRAIGHT + DIAGONAL, 7),
    "R": (STRAIGHT, 7),
    "B": (DIAGONAL, 7),
    "N": (JUMPS, 1),
}


def steady(board: Board) -> str:
    """A half-move that the board allows; where there is one, one that the other side answers by no check, so that no
    mate comes."""
    men, is_white = men_of(board), board.side == "W"
    ways = list(allowed(men, is_white))
    start, end = next((it for it in ways if not may_be_checked(after(men, *it), is_white)), ways[0])
    return spelled(start) + spelled(end)


def spelled(it: Square) -> str:
    """A square as the server writes it."""
    return f"{FILES[it[0]]}{it[1] + 1}"


def men_of(board: Board) -> Men:
    """The men of a board, each on its square."""
    return {(FILES.index(square[0]), int(square[1]) - 1): man for square, man in board.men()}


def allowed(men: Men, is_white: bool) -> Iterator[tuple[Square, Square]]:
    """What that side may play but castling, taking a pawn in passing and a pawn's step to its last rank."""
    for start, end in of(men, is_white):
        is_last = men[start] in "Pp" and end[1] in (0, 7)
        if not is_last and not is_attacked(after(men, start, end), is_white):
            yield start, end


def may_be_checked(men: Men, is_white: bool) -> bool:
    """Whether the other side has a step by which it attacks the king of that side."""
    return any(is_attacked(after(men, *it), is_white) for it in of(men, not is_white))


def is_attacked(men: Men, is_white: bool) -> bool:
    """Whether the king of that side is attacked."""
    return any(men.get(end) == ("K" if is_white else "k") for _, end in of(men, not is_white))


def after(men: Men, start: Square, end: Square) -> Men:
    """The men once one has gone from a square to another."""
    return {**{at: man for at, man in men.items() if at != start}, end: men[start]}


def of(men: Men, is_white: bool) -> Iterator[tuple[Square, Square]]:
    """All steps of a side's men, its king's safety aside."""
    return ((start, end) for start, man in men.items() if man.isupper() == is_white for end in ends(men, start))


def ends(men: Men, start: Square) -> Iterator[Square]:
    """Where the man on a square may go, its king's safety aside."""
    man = men[start]
    if man in "Pp":
        yield from ends_of_pawn(men, start, 1 if man == "P" else -1)
        return
    ways, most = REACHES[man.upper()]
    for across, up in ways:
        for steps in range(1, most + 1):
            end = (start[0] + across * steps, start[1] + up * steps)
            if not is_square(end) or end in men and men[end].isupper() == man.isupper():
                break
            yield end
            if end in men:
                break


def ends_of_pawn(men: Men, start: Square, up: int) -> Iterator[Square]:
    """Where a pawn may go."""
    file, rank = start
    for steps in range(1, 3 if rank == (1 if up == 1 else 6) else 2):
        if (file, rank + up * steps) in men or not is_square((file, rank + up * steps)):
            break
        yield file, rank + up * steps
    for end in ((file - 1, rank + up), (file + 1, rank + up)):
        if end in men and men[end].isupper() != men[start].isupper():
            yield end


def is_square(it: Square) -> bool:
    """Whether that is on the board."""
    return 0 <= it[0] < 8 and 0 <= it[1] < 8
