"""Games a second and peak memory of `ficsd tidy` beside `pgn-extract`, and whether each reads what the other writes.

The commands `pgn-extract` and `stockfish` are Debian's packages of these names. 1,000 games are played at random, by a
fixed seed, over the lists of allowed half-moves that Stockfish gives, with comments, glyphs and
variations strewn in; `pgn-extract` writes them in its own way. It ends with 1 where something came otherwise than it
should.
"""

import random
import subprocess
import sys
import tempfile

from bench.measure import machine, program_for, run_to_end

EXTRACT = "/usr/games/pgn-extract"
STOCKFISH = "/usr/games/stockfish"
# the seven tags, no comments, glyphs and variations, and lines of at most 79 bytes
PLAIN = ["-7", "-C", "-N", "-V", "-w79"]
GAMES = 1_000
LARGE = 100_000_000
RESULTS = ["1-0", "0-1", "1/2-1/2", "*"]
wrong: list[str] = []


class Moves:
    """The allowed half-moves behind others, as Stockfish lists them."""

    def __init__(self) -> None:
        self.engine = subprocess.Popen([STOCKFISH], stdin=subprocess.PIPE, stdout=subprocess.PIPE, text=True)

    def behind(self, played: list[str]) -> list[str]:
        print(f"position startpos moves {' '.join(played)}\ngo perft 1", file=self.engine.stdin, flush=True)
        moves = []
        for line in self.engine.stdout:
            word, _, count = line.partition(":")
            if word == "Nodes searched":
                return moves
            if count.strip() == "1" and word[0] in "abcdefgh":
                moves.append(word)


def spelled(move: str, kings: set[str]) -> str:
    """A half-move in long algebraic form, which `pgn-extract` reads; `kings` has the homes where kings still stand."""
    if move[:2] in kings:
        kings.discard(move[:2])
        if move in ("e1g1", "e8g8"):
            return "O-O"
        if move in ("e1c1", "e8c8"):
            return "O-O-O"
    return move[:4] + ("=" + move[4].upper() if len(move) > 4 else "")


def random_game(chance: random.Random, moves: Moves, number: int) -> str:
    """The text of a game of up to 160 half-moves with what annotators put between them; no mate and no stalemate ends
    it, so that any result may stand behind it."""
    played: list[str] = []
    told: list[list[str]] = []
    kings = {"e1", "e8"}
    for _ in range(chance.randint(1, 160)):
        allowed = moves.behind(played)
        if not allowed:
            told.pop()
            break
        move = chance.choice(allowed)
        other = spelled(chance.choice(allowed), set(kings))
        words = [f"{len(played) // 2 + 1}."] if len(played) % 2 == 0 else []
        words.append(spelled(move, kings) + chance.choice(["", "", "", "!", "?!"]))
        told.append(words + chance.choice([[], [], [], [], ["$14"], ["{a (comment)}"], [f"({other} {{better}})"]]))
        played.append(move)
    result = chance.choice(RESULTS)
    tags = f'[Event "Random \\"games\\""]\n[Round "{number}"]\n[White "Ann"]\n[Black "Ben"]\n[Result "{result}"]\n\n'
    return tags + " ".join(sum(told, []) + [result]) + "\n\n"


def extracted(text: bytes, *options: str) -> tuple[bytes, list[str]]:
    """What `pgn-extract` writes, and the complaints that it makes of a text."""
    with tempfile.NamedTemporaryFile(suffix=".pgn") as source:
        source.write(text)
        source.flush()
        done = subprocess.run([EXTRACT, "-s", *options, source.name], capture_output=True, check=False)
    return done.stdout, [line for line in done.stderr.decode().splitlines() if not line.startswith("Games: ")]


def tidied(program: str, text: bytes) -> tuple[bytes, int]:
    """What `tidy` writes, and its status."""
    done = subprocess.run([program, "tidy"], input=text, capture_output=True, check=False)
    return done.stdout, done.returncode


def says(name: str, good: bool) -> None:
    if not good:
        wrong.append(name)
    print(f"{name}: {'yes' if good else 'NO'}")


def main() -> None:
    program = program_for("fics_server", __doc__)
    chance = random.Random(1)
    moves = Moves()
    played = "".join(random_game(chance, moves, number) for number in range(1, GAMES + 1)).encode()
    outside, complaints = extracted(played, "-w75")
    says("pgn-extract reads the games that were played", complaints == [] and outside.count(b"[Event ") == GAMES)
    plain, _ = extracted(played, *PLAIN)
    ours, status = tidied(program, outside)
    says("tidy reads what pgn-extract writes", status == 0 and ours.count(b"[Event ") == GAMES)
    says("tidy writes an export as it is", tidied(program, ours) == (ours, 0))
    theirs, complaints = extracted(ours, "-7", "-w79")
    says("pgn-extract reads the exports without a complaint", complaints == [])
    says("it writes them again as they are", theirs == ours)
    says("both write the same of the games that were played", plain == ours)
    with tempfile.NamedTemporaryFile(suffix=".pgn") as large:
        copies = LARGE // len(outside) + 1
        for _ in range(copies):
            large.write(outside)
        large.flush()
        print(machine())
        print(f"{'program':<14}{'MB':>8}{'games':>10}{'seconds':>10}{'games/s':>10}{'MB/s':>8}{'peak MiB':>10}")
        size, games = copies * len(outside) / 1e6, copies * GAMES
        for name, words in (("tidy", [program, "tidy"]), ("pgn-extract", [EXTRACT, "-s", *PLAIN])):
            with open(large.name, "rb") as source:
                seconds, peak = run_to_end(words, source)
            print(
                f"{name:<14}{size:>8.0f}{games:>10}{seconds:>10.1f}{games / seconds:>10.0f}"
                f"{size / seconds:>8.1f}{peak / 1024:>10.1f}"
            )
    sys.exit(1 if wrong else 0)


if __name__ == "__main__":
    main()
