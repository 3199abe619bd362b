"""What a game looks like to an engine, and whether it can still be won.

`led` are the words of the half-moves that led to the first board that was told, where it isn't the array: of a game
that goes on from another day they may be known.
"""

import re
from collections.abc import Sequence

from ficslink import Board
from ficslink.game import Game

LONG = re.compile(r"([PNBRQK])/(?:([a-h][1-8])|@@)-([a-h][1-8])(=[NBRQ])?")
CASTLINGS = {"o-o": "O-O", "o-o-o": "O-O-O"}
NO_MATE = (0, 3)  # the material with which nobody mates a bare king: nothing, a knight, a bishop


def kind_of(game: Game) -> str:
    """The variant without the number of its array."""
    return game.terms.kind if game.terms else "chess"


def word_of(board: Board) -> str:
    """The previous half-move as the server takes it: `e2e4` for `P/e2-e4`."""
    found = LONG.fullmatch(board.long)
    if not found:
        return CASTLINGS[board.long]
    man, start, end, becomes = found.groups("")
    return (start or f"{man}@") + end + becomes


def words_of(game: Game, led: Sequence[str]) -> list[str] | None:
    """All half-moves from the array on; none where they aren't known."""
    first = game.boards[0].ply
    if len(led) < first:
        return None
    return [*led[:first], *map(word_of, game.boards[1:])]


def for_house(game: Game, led: Sequence[str]) -> str | None:
    """What the house's search reads: the variant and all half-moves; none where they aren't known."""
    words = words_of(game, led)
    if words is None or not game.terms:
        return None
    return "".join(f"{it}\n" for it in (game.terms.variant, *words))


def for_uci(game: Game) -> str:
    """What stands behind UCI's word `position`: the first board that was told, and the half-moves behind it."""
    kind, first = kind_of(game), game.boards[0]
    if kind == "crazyhouse" and not game.is_whole:
        return f"fen {game.fen()}"  # the men in hand are those of the present board
    is_usual = game.is_whole and kind != "fischer"
    place = "startpos" if is_usual else f"fen {first.fen(game.array)}"
    moves = game.moves(by_rook=kind == "fischer")
    return f"{place} moves {' '.join(moves)}" if moves else place


def is_dead(game: Game) -> bool:
    """Whether no men are left that mate, which ends nothing by itself."""
    board = game.board
    if kind_of(game) == "crazyhouse" or any(man in "Pp" for _, man in board.men()):
        return False
    less, more = sorted((board.white_material, board.black_material))
    return less == 0 and more in NO_MATE
