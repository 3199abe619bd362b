"""The arrays of Fischer random by the server's own numbers, which docs/RULES.md gives."""

from itertools import combinations

USUAL = "RNBQKBNR"
_KNIGHTS = tuple(combinations(range(5), 2))


def array(number: int) -> str:
    """White's first rank, from file a to file h, in the array of that number."""
    if not 0 <= number < 960:
        raise ValueError(f"an array has a number from 0 to 959, and not {number}")
    files = [""] * 8
    number, light = divmod(number, 4)
    files[1 + 2 * light] = "B"
    number, dark = divmod(number, 4)
    files[2 * dark] = "B"
    knights, queen = divmod(number, 6)
    _put(files, queen, "Q")
    free = [file for file, man in enumerate(files) if not man]
    for index in _KNIGHTS[knights]:
        files[free[index]] = "N"
    for man in "RKR":
        _put(files, 0, man)
    return "".join(files)


def _put(files: list[str], index: int, man: str) -> None:
    """Puts a man on the free file of that index."""
    files[[file for file, it in enumerate(files) if not it][index]] = man
