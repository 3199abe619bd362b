"""Acts answered a second over the server of one thread and over the hall, and what a member does in a full hall, by
`pace_hall`."""

import os
import re
import shutil
import subprocess
import sys
import tempfile
import time
from collections.abc import Iterator
from pathlib import Path

from bench.measure import checked, machine, words_for

Run = tuple[float, float, int]  # its seconds, those of processors, and the acts that it says it made
THREADS = [1, 2, 4, 8]
LOOK_ROUNDS = 50_000
MOVE_ROUNDS = 600
# what a member does in a full hall, and how often
DEEDS = {
    "enter": 2_000,
    "match": 2_000,
    "start": 2_000,
    "post": 2_000,
    "partner": 2_000,
    "join": 2_000,
    "tell": 2_000,
    "stored": 2_000,
    "resume": 2_000,
    "adjourn": 200,
}
RUNS = 5
# what is asked of the shelf, over how many games, and how often a thing is done whose instructions are counted
ASKED, SHELVES, SHELF_ROUNDS, FULL_ROUNDS = ("stored", "resume", "adjourn"), (0, 100, 1_000, 9_000), 20, 200
COUNTED = re.compile(r"Collected : (\d+)")


def run(program: str, words: list[object]) -> Run:
    """Runs the program once on these words: the seconds, the processor seconds, and the acts that it says it made."""
    start = time.perf_counter()
    process = subprocess.Popen([program, *map(str, words)], stdout=subprocess.PIPE, text=True)
    said = process.stdout.read()
    _, status, used = os.wait4(process.pid, 0)
    seconds = time.perf_counter() - start
    if status != 0 or not said.endswith(("acts\n", "rounds\n")):
        sys.exit(f"bench: {' '.join(map(str, words))}: status {status}, {said!r}")
    return seconds, used.ru_utime + used.ru_stime, int(said.split()[0])


def least(program: str, words: list[object]) -> Run:
    """The least seconds and the least processor seconds of some runs on these words, and the acts that are made."""
    runs = [run(program, words) for _ in range(RUNS)]
    return min(row[0] for row in runs), min(row[1] for row in runs), runs[0][2]


def pace(program: str, place: str, what: str, threads: int, tables: int, rounds: int) -> tuple[int, float, float]:
    """The acts of a job, and the seconds and processor seconds that they take beyond the seating and the start."""
    start, idle, _ = least(program, [place, what, threads, tables, 0])
    whole, busy, acts = least(program, [place, what, threads, tables, rounds])
    return acts, whole - start, busy - idle


def cases() -> Iterator[tuple[str, str, str, int, int, int]]:
    """Each case: its name, the place, what is done, the threads, the tables of each, and the rounds at each."""
    yield "looks: one server", "server", "looks", 1, 1, LOOK_ROUNDS
    for threads in THREADS:
        yield f"looks: hall, {threads} apart", "apart", "looks", threads, 1, LOOK_ROUNDS
    for threads in THREADS[1:]:
        yield f"looks: hall, {threads} at one desk", "same", "looks", threads, 1, LOOK_ROUNDS
    yield "moves: one server", "server", "moves", 1, 128, MOVE_ROUNDS
    for threads in THREADS:
        yield f"moves: hall, {threads} apart", "apart", "moves", threads, 128 // threads, MOVE_ROUNDS


def full_hall(program: str) -> None:
    """Prints what each deed takes in a full hall, beyond what it takes to fill the hall."""
    print(f"{'in a full hall':<28}{'rounds':>10}{'us of processor a round':>26}")
    _, filled, _ = least(program, ["full", "enter", 0])
    for deed, rounds in DEEDS.items():
        _, busy, _ = least(program, ["full", deed, rounds])
        print(f"{deed:<28}{rounds:>10}{1e6 * (busy - filled) / rounds:>26.2f}", flush=True)


def instructions(program: str, words: list[object]) -> int:
    """The instructions of a run of the program on these words, which valgrind counts."""
    with tempfile.NamedTemporaryFile() as file:
        counter = ["valgrind", "--tool=callgrind", f"--callgrind-out-file={file.name}", program, *map(str, words)]
        ran = subprocess.run(counter, capture_output=True, text=True, check=False)
    found = COUNTED.search(ran.stderr)
    if ran.returncode or not found or not ran.stdout.endswith(("acts\n", "rounds\n")):
        sys.exit(f"bench: {' '.join(map(str, words))}: status {ran.returncode}, {ran.stdout!r}, {ran.stderr[-300:]!r}")
    return int(found[1])


def instructions_of_round(program: str, words: list[object], rounds: int) -> int:
    """Those of one round, beyond the start and what is there before the first one."""
    return (instructions(program, [*words, rounds]) - instructions(program, [*words, 0])) // rounds


def print_instructions(programs: list[str]) -> None:
    """Prints the tables of this folder's page that count instructions, the second one with a column a program."""
    if not shutil.which("valgrind"):
        sys.exit("bench: Debian's package valgrind isn't there, which counts instructions")
    print("| Games on the shelf |" + "".join(f" {games:,} |" for games in SHELVES))
    print("|---|" + "---|" * len(SHELVES))
    for what in ASKED:
        counts = [instructions_of_round(programs[0], ["shelf", what, games], SHELF_ROUNDS) for games in SHELVES]
        print(f"| `{what}` |" + "".join(f" {count:,} |" for count in counts), flush=True)
    print("\n| Deed |" + "".join(f" {Path(it).name} |" for it in programs))
    print("|---|" + "---|" * len(programs))
    for deed in DEEDS:
        counts = [instructions_of_round(it, ["full", deed], FULL_ROUNDS) for it in programs]
        print(f"| `{deed}` |" + "".join(f" {round(count, -2):,} |" for count in counts), flush=True)


def timings(program: str) -> None:
    """Prints the acts a second of each case, and what a member does in a full hall takes."""
    print(f"{'case':<28}{'acts':>10}{'seconds':>10}{'acts/s':>12}{'pace':>8}{'us of processor':>17}{'cost':>8}")
    base: dict[str, tuple[float, float]] = {}
    for name, place, what, threads, tables, rounds in cases():
        acts, seconds, busy = pace(program, place, what, threads, tables, rounds)
        first = base.setdefault(what, (acts / seconds, busy / acts))
        print(
            f"{name:<28}{acts:>10}{seconds:>10.3f}{acts / seconds:>12.0f}{acts / seconds / first[0]:>8.2f}"
            f"{1e6 * busy / acts:>17.2f}{busy / acts / first[1]:>8.2f}",
            flush=True,
        )
    full_hall(program)


def main() -> None:
    words = words_for("pace_hall", __doc__)
    words.add_argument(
        "--instructions",
        action="store_true",
        help="counts the instructions of what is asked of the shelf and done in a full hall, by valgrind, in place of "
        "all else",
    )
    words.add_argument(
        "--beside",
        metavar="OTHER",
        type=Path,
        help="with --instructions, another program whose column stands beside it, as one built from another revision",
    )
    chosen = words.parse_args()
    program = checked(chosen.program, "pace_hall")
    print(machine())
    if chosen.instructions:
        others = [checked(chosen.beside, "pace_hall")] if chosen.beside else []
        print_instructions([program, *others])
        return
    timings(program)


if __name__ == "__main__":
    main()
