"""Words answered a second, and peak memory, of `ficsd board`, on inputs that this script makes."""

from bench.measure import print_table, program_for

# knights out and home again: always allowed, and never a capture
ROUND = ["g1f3", "g8f6", "f3g1", "f6g8"]
HALF_MOVES = 1200


def accepted(games: int) -> list[bytes]:
    """A whole game of 1,200 half-moves, `games` runs of the program one after the other."""
    words = (ROUND * (HALF_MOVES // len(ROUND)))[:HALF_MOVES]
    return [("\n".join(words) + "\n").encode()] * games


def refused(count: int) -> list[bytes]:
    """One run with `count` words that no man can follow."""
    return [b"e2e5\n" * count]


def empty(count: int) -> list[bytes]:
    """One run with `count` empty lines."""
    return [b"\n" * count]


def main() -> None:
    cases = [
        ("accepted, 20 games", accepted(20), 20 * HALF_MOVES),
        ("refused, 10^4", refused(10_000), 10_000),
        ("refused, 10^5", refused(100_000), 100_000),
        ("refused, 10^6", refused(1_000_000), 1_000_000),
        ("empty lines, 10^7", empty(10_000_000), 10_000_000),
    ]
    print_table(program_for("fics_server", __doc__), "board", "words", cases)


if __name__ == "__main__":
    main()
