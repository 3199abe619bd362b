"""Half-moves by chance, from a board line."""

from collections.abc import Iterator
from itertools import takewhile
from random import Random

from ficslink.board import FILES, Board

STRAIGHT, SKEW = ((1, 0), (-1, 0), (0, 1), (0, -1)), ((1, 1), (1, -1), (-1, 1), (-1, -1))
KNIGHTS = tuple((across * one, up * other) for across, up in ((1, 2), (2, 1)) for one in (1, -1) for other in (1, -1))
WAYS = {"N": (KNIGHTS, 1), "B": (SKEW, 7), "R": (STRAIGHT, 7), "Q": (STRAIGHT + SKEW, 7), "K": (STRAIGHT + SKEW, 1)}


def words(board: Board, hand: str, dice: Random) -> list[str]:
    """Words of all half-moves, in an order by chance. Some leave the own king attacked, which the server refuses."""
    is_own = str.isupper if board.side == "W" else str.islower
    men = dict(board.men())
    found = [word for square, man in men.items() if is_own(man) for word in steps(board, men, square, man)]
    free = [file + rank for file in FILES for rank in "12345678" if file + rank not in men]
    found += [f"{man}@{dice.choice(free)}" for man in set(hand)]
    rights = (board.white_short, board.white_long) if board.side == "W" else (board.black_short, board.black_long)
    found += [word for word, may in zip(("O-O", "O-O-O"), rights) if may]
    dice.shuffle(found)
    return found


def steps(board: Board, men: dict[str, str], square: str, man: str) -> Iterator[str]:
    if man.upper() == "P":
        yield from pawn_steps(board, men, square, man)
        return
    ways, longest = WAYS[man.upper()]
    for across, up in ways:
        for end in line(square, across, up, longest, men):
            if end not in men or men[end].isupper() != man.isupper():
                yield square + end


def line(square: str, across: int, up: int, longest: int, men: dict[str, str]) -> Iterator[str]:
    """The squares in one direction, up to the first man and with it."""
    for far in range(1, longest + 1):
        file, rank = FILES.index(square[0]) + far * across, int(square[1]) + far * up
        if not (0 <= file < 8 and 1 <= rank <= 8):
            return
        yield f"{FILES[file]}{rank}"
        if f"{FILES[file]}{rank}" in men:
            return


def pawn_steps(board: Board, men: dict[str, str], square: str, man: str) -> Iterator[str]:
    up, second = (1, "2") if man == "P" else (-1, "7")
    farthest = 2 if square[1] == second else 1
    ends = list(takewhile(lambda it: it not in men, line(square, 0, up, farthest, men)))
    passed = FILES[board.double_push] + ("6" if board.side == "W" else "3") if board.double_push >= 0 else ""
    for across in (-1, 1):
        ends += [
            it
            for it in line(square, across, up, 1, men)
            if it == passed or it in men and men[it].isupper() != man.isupper()
        ]
    for end in ends:
        yield square + end + ("=Q" if end[1] in "18" else "")
