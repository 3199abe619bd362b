"""Runs the program `test_turn` again and again: three threads make 10,000 acts each on two counters behind turns, one
on the first counter and two on both, so that the table gives back 30000 and 20000. Fails at the first run that
doesn't."""

import argparse
import os
import subprocess
import sys

from tests.kit import paths

CRATE = paths.TOP / "crates" / "test_turn"
PROGRAM = CRATE / "out" / "test_turn"
DUE = "30000 20000\n"
PATIENCE = 120  # seconds


def main() -> int:
    words = argparse.ArgumentParser(prog="trial turns", description=__doc__)
    words.add_argument("runs", nargs="?", type=int, default=20, metavar="N", help="%(default)s without it")
    runs = words.parse_args().runs
    if not os.access(PROGRAM, os.X_OK):
        subprocess.run(["rt", "run"], cwd=CRATE, stdin=subprocess.DEVNULL, stdout=subprocess.DEVNULL, check=True)
    for run in range(1, runs + 1):
        got = subprocess.run([PROGRAM], stdin=subprocess.DEVNULL, stdout=subprocess.PIPE, text=True, timeout=PATIENCE)
        if got.stdout != DUE:
            print(f"run {run}: {got.stdout}", file=sys.stderr)
            return 1
    print(f"{runs} runs, each with {DUE}", end="")
    return 0


if __name__ == "__main__":
    sys.exit(main())
