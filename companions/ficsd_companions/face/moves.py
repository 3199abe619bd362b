"""Moves as hands that know FICS spell them, put into the spelling that the server reads.

A word that can be read in one way only is put so. `bxc4` may be a pawn's or a bishop's: it is the bishop's where, on
the board that the player sees, a bishop goes there and no pawn of file b; else it stays as it is, which is the pawn's.
"""

import re

from ficslink.board import Board

DIAGONALS = ((1, 1), (1, -1), (-1, 1), (-1, -1))
SQUARE = "[a-h][1-8]"
PROMOTION = "(?:=?[QRBNqrbn])?"
NUMBER = re.compile(r"\d{1,4} ?\.[. ]*")  # as before e4 in `1. e4` and before Nf6 in `12. ... Nf6`
REMARK = re.compile(r"[+#!?]+$")
CASTLING = re.compile("[oO0]-[oO0](?:-[oO0])?|oo|OO|ooo|OOO")
DROP = re.compile(f"[PNBRQpnbrq]@{SQUARE}")
SQUARES = re.compile(f"({SQUARE})[x-]?({SQUARE}{PROMOTION})")
LONG = re.compile(f"([KQRBNPkqrbnp]{SQUARE})-({SQUARE}{PROMOTION})")
NAMED = re.compile(f"[KQRBNPkqrnp]?[a-h]?[1-8]?x?{SQUARE}{PROMOTION}")
BISHOP = re.compile(f"b[a-h][1-8]?x?{SQUARE}")  # with a file or a square behind the small letter
EITHER = re.compile(f"bx?({SQUARE})")


def spelled(text: str, board: Board | None = None) -> str | None:
    """The move that a line spells, as the server reads it; none where it is no move. `board` is the line of the board
    on which the player makes it; none where that isn't known."""
    number = NUMBER.match(text)
    word = REMARK.sub("", text[number.end() :] if number else text)
    if CASTLING.fullmatch(word):
        return "-".join("O" * len(word.replace("-", "")))
    if DROP.fullmatch(word):
        return word[0].upper() + word[1:]
    if SQUARES.fullmatch(word):
        return of_squares(word)
    either = EITHER.fullmatch(word)
    if either:
        return word.capitalize() if board and is_the_bishops(board, either[1]) else word
    word = LONG.sub(r"\1\2", word)
    if BISHOP.fullmatch(word):
        return word.capitalize()
    if NAMED.fullmatch(word):
        return word[0].upper() + word[1:] if word[0] in "kqrnp" else word
    return None


def of_squares(word: str) -> str:
    """A move from a square to another: a sign of capture between them is dropped, and a promotion is in small."""
    word = word.replace("x", "")
    return word[:-1].rstrip("=") + "=" + word[-1].lower() if word[-1].isalpha() else word


def is_the_bishops(board: Board, target: str) -> bool:
    """Whether a bishop of the side to move goes to that square, and no pawn of its file b, whatever their king says."""
    men = dict(board.men())
    if men.get(target, "-").isupper() == (board.side == "W") and target in men:
        return False
    return bishop_goes(board, men, target) and not pawn_goes(board, men, target)


def bishop_goes(board: Board, men: dict[str, str], target: str) -> bool:
    """Whether the first man on one of the diagonals from there is a bishop of the side to move."""
    own = "B" if board.side == "W" else "b"
    for across, up in DIAGONALS:
        file, rank = ord(target[0]) + across, int(target[1]) + up
        while ord("a") <= file <= ord("h") and 1 <= rank <= 8 and f"{chr(file)}{rank}" not in men:
            file, rank = file + across, rank + up
        if men.get(f"{chr(file)}{rank}") == own:
            return True
    return False


def pawn_goes(board: Board, men: dict[str, str], target: str) -> bool:
    """Whether a pawn of the side to move and of file b goes there, forward or by taking, en passant too."""
    own, step, home = ("P", 1, 2) if board.side == "W" else ("p", -1, 7)
    file, rank = target[0], int(target[1])
    if file != "b":
        passed = rank == home + 4 * step and board.double_push == ord(file) - ord("a")
        return abs(ord(file) - ord("b")) == 1 and men.get(f"b{rank - step}") == own and (target in men or passed)
    if target in men:
        return False
    before, first = f"b{rank - step}", f"b{rank - 2 * step}"
    return men.get(before) == own or before not in men and rank - 2 * step == home and men.get(first) == own
