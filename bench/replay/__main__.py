"""Events answered a second, and peak memory, of `ficsd replay`, on scripts that this script makes."""

from collections.abc import Iterable

from bench.measure import print_table, program_for

# knights out and home again: always allowed, and never a capture
ROUND = ["g1f3", "g8f6", "f3g1", "f6g8"]
HALF_MOVES = 1200


def script(events: Iterable[tuple[int, str]]) -> list[bytes]:
    """A script of one game of 2 minutes and 12 seconds; each event comes 10 ms after the one before."""
    lines = ["seat Ann Ben 2 12 chess"]
    lines += [f"{10 * number} {session} {event}" for number, (session, event) in enumerate(events)]
    return [("\n".join(lines) + "\n").encode()]


def accepted() -> list[bytes]:
    """A whole game of 1,200 half-moves."""
    return script([(1 + number % 2, f"> {ROUND[number % 4]}") for number in range(HALF_MOVES)])


def quiet(count: int) -> list[bytes]:
    """Nothing comes from either player."""
    return script([(1 + number % 2, "?") for number in range(count)])


def out_of_turn(count: int) -> list[bytes]:
    """Black moves again and again while White is to move."""
    return script([(2, "> e7e5")] * count)


def main() -> None:
    sizes = [(1_000, "10^3"), (10_000, "10^4"), (100_000, "10^5")]
    cases = [("accepted moves", accepted(), HALF_MOVES)]
    cases += [(f"quiets, {name}", quiet(count), count) for count, name in sizes]
    cases += [(f"moves out of turn, {name}", out_of_turn(count), count) for count, name in sizes]
    print_table(program_for("fics_server", __doc__), "replay", "events", cases)


if __name__ == "__main__":
    main()
