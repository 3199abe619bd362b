"""Leaves a second, and processor time beside Stockfish's, of the program `perft`.

Stockfish is Debian's (`apt-get install stockfish`); without it, its columns are left out. Both programs count the
same lists on one thread each, one after the other, and both count the last half-moves of a list without making them.
"""

import os
import subprocess
import sys

from bench.measure import lines_with_seconds, machine, processor_seconds, program_for

STOCKFISH = "/usr/games/stockfish"
# each word makes the lists one half-move longer
LONGER = ["more", "more"]
# the positions of `perft` in Forsyth-Edwards notation, for Stockfish, which knows no crazyhouse
POSITIONS = {
    "start": "rnbqkbnr/pppppppp/8/8/8/8/PPPPPPPP/RNBQKBNR w KQkq - 0 1",
    "kiwipete": "r3k2r/p1ppqpb1/bn2pnp1/3PN3/1p2P3/2N2Q1p/PPPBBPPP/R3K2R w KQkq - 0 1",
    "italian": "r4rk1/1pp1qppp/p1np1n2/2b1p1B1/2B1P1b1/P1NP1N2/1PP1QPPP/R4RK1 w - - 0 10",
    "endgame": "8/2p5/3p4/KP5r/1R3p1k/8/4P1P1/8 w - - 0 24",
    "promotion": "rnbq1k1r/pp1Pbppp/2p5/8/2B5/8/PPP1NnPP/RNBQK2R w KQ - 1 8",
    "passing": "rnbqkbnr/ppp2ppp/8/3P4/3Pp3/8/PPP1QPPP/RNB1KBNR b KQkq d3 0 4",
    "corner": "rnbqkbnr/P1ppppp1/8/7p/8/8/1PPPPPPP/RNBQKBNR w KQkq - 0 5",
    # Fischer random, where a right is told by the rook's file
    "array_0": "bbqnnrkr/pppppppp/8/8/8/8/PPPPPPPP/BBQNNRKR w HFhf - 0 1",
    "array_96": "bbqnrnkr/pppppppp/8/8/8/8/PPPPPPPP/BBQNRNKR w HEhe - 0 1",
    "array_468": "rbbnnkrq/pppppppp/8/8/8/8/PPPPPPPP/RBBNNKRQ w GAga - 0 1",
    "array_518": "rnbqkbnr/pppppppp/8/8/8/8/PPPPPPPP/RNBQKBNR w HAha - 0 1",
    "array_681": "qrkbbnnr/pppppppp/8/8/8/8/PPPPPPPP/QRKBBNNR w HBhb - 0 1",
    "array_959": "rkrnnqbb/pppppppp/8/8/8/8/PPPPPPPP/RKRNNQBB w CAca - 0 1",
    "wing": "r2k1r1b/qpp1pppp/1n1p1n2/N3P3/p1PNb3/8/PP1P1PPP/R1QKBR1B b FAfa - 0 9",
    "far": "rk1b1rnn/ppp1p1p1/3p3p/5p2/P2q1B2/1B3N1P/1P1QPPP1/RK3R1N w FAfa - 0 9",
    "beside": "bbr3kr/pppp3p/3npqn1/3N1pp1/PN2B3/2P3P1/1P1PPP1P/B1R1Q1KR b HChc - 3 9",
    "centre": "bbrkq1nr/p2p1pp1/1p1n4/1Qp1p3/1N2P1pP/2P5/PP1PNP2/BBRK3R w HChc - 0 9",
}


class Stockfish:
    """A running Stockfish, whose start isn't measured."""

    def __init__(self) -> None:
        self.process = subprocess.Popen(
            [STOCKFISH], stdin=subprocess.PIPE, stdout=subprocess.PIPE, text=True, bufsize=1
        )
        self.process.stdin.write("setoption name UCI_Chess960 value true\n")
        self.say("isready", "readyok")

    def say(self, text: str, until: str) -> str:
        """Sends a line, and gives the first line of the answer that begins so."""
        self.process.stdin.write(text + "\n")
        for line in self.process.stdout:
            if line.startswith(until):
                return line
        sys.exit("bench: Stockfish ended")

    def count(self, fen: str, length: int) -> tuple[int, float]:
        """How many lists there are, and the processor time of counting them."""
        self.process.stdin.write(f"position fen {fen}\n")
        self.say("isready", "readyok")
        before = processor_seconds(self.process.pid)
        line = self.say(f"go perft {length}", "Nodes searched:")
        return int(line.split()[2]), processor_seconds(self.process.pid) - before

    def close(self) -> None:
        self.process.stdin.write("quit\n")
        self.process.wait()


def main() -> None:
    program = program_for("perft", __doc__)
    other = Stockfish() if os.access(STOCKFISH, os.X_OK) else None
    print(machine())
    print(f"{'position':<12}{'length':>7}{'lists':>13}{'seconds':>9}{'M/s':>7}{'Stockfish':>11}{'times':>7}")
    # ours to the end first, so that the two never run side by side
    for (name, length, lists), seconds in list(lines_with_seconds([program, *LONGER])):
        found = int(lists)
        row = f"{name:<12}{length:>7}{found:>13}{seconds:>9.2f}{found / max(seconds, 0.01) / 1e6:>7.1f}"
        if other and name in POSITIONS:
            count, theirs = other.count(POSITIONS[name], int(length))
            if count != found:
                sys.exit(f"bench: {name}: Stockfish counts {count} lists of {length}")
            row += f"{theirs:>11.2f}{seconds / max(theirs, 0.01):>7.1f}"
        print(row, flush=True)
    if other:
        other.close()


if __name__ == "__main__":
    main()
