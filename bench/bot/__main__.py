"""Processor time of the bot's search beside that of the plain one, of the program `pace_bot`.

Both searches run in one process, on one thread, one after the other: the one with bounds in all positions,
and then the plain one, which looks at every list of half-moves. The bench stops where their values differ.
"""

import sys

from bench.measure import lines_with_seconds, machine, program_for


def main() -> None:
    program = program_for("pace_bot", __doc__)
    print(machine())
    print(f"{'position':<12}{'depth':>6}{'value':>8}{'seconds':>9}{'plain':>9}{'times':>8}")
    bounded = {}
    for (way, name, depth, value), seconds in lines_with_seconds([program, "more"]):
        if way == "best":
            bounded[name] = (value, seconds)
            continue
        known, ours = bounded[name]
        if known != value:
            sys.exit(f"bench: {name}: {known} with bounds, {value} without")
        print(f"{name:<12}{depth:>6}{value:>8}{ours:>9.2f}{seconds:>9.2f}{seconds / max(ours, 0.01):>8.0f}", flush=True)


if __name__ == "__main__":
    main()
