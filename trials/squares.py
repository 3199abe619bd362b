"""Words of half-moves, from a board line."""

from collections.abc import Iterator

SLIDES = {"r": ((0, 1), (1, 0), (0, -1), (-1, 0)), "b": ((1, 1), (1, -1), (-1, 1), (-1, -1))}
SLIDES["q"] = SLIDES["r"] + SLIDES["b"]
JUMPS = {"n": ((1, 2), (2, 1), (-1, 2), (-2, 1), (1, -2), (2, -1), (-1, -2), (-2, -1)), "k": SLIDES["q"]}


def tries(board: str) -> list[str]:
    """Words of moves that the side to move may try on a board line: most are allowed, some leave the king in check."""
    fields = board.split()
    ranks, white = fields[1:9][::-1], fields[9] == "W"
    words = []
    for rank in range(8):
        for file in range(8):
            man = ranks[rank][file]
            if man == "-" or man.isupper() != white:
                continue
            for to_file, to_rank in aims(ranks, file, rank, man.lower(), white):
                last = man.lower() == "p" and to_rank in (0, 7)
                words.append(f"{'abcdefgh'[file]}{rank + 1}{'abcdefgh'[to_file]}{to_rank + 1}{'=Q' if last else ''}")
    return words


def aims(ranks: list[str], file: int, rank: int, man: str, white: bool) -> Iterator[tuple[int, int]]:
    """The squares to which a man may go, but for what its king says, en passant and castling."""

    def at(to_file: int, to_rank: int) -> str | None:
        return ranks[to_rank][to_file] if 0 <= to_file < 8 and 0 <= to_rank < 8 else None

    def is_free(there: str | None) -> bool:
        return there is not None and (there == "-" or there.isupper() != white)

    if man == "p":
        step = 1 if white else -1
        if at(file, rank + step) == "-":
            yield file, rank + step
            if rank == (1 if white else 6) and at(file, rank + 2 * step) == "-":
                yield file, rank + 2 * step
        for side in (-1, 1):
            there = at(file + side, rank + step)
            if there not in (None, "-") and is_free(there):
                yield file + side, rank + step
    for across, up in JUMPS.get(man, ()):
        if is_free(at(file + across, rank + up)):
            yield file + across, rank + up
    for across, up in SLIDES.get(man, ()):
        to_file, to_rank = file + across, rank + up
        while is_free(at(to_file, to_rank)):
            yield to_file, to_rank
            if at(to_file, to_rank) != "-":
                break
            to_file, to_rank = to_file + across, to_rank + up
