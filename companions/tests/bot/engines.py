"""Engines that speak UCI, each in its own way. They know no chess: their half-moves are those of a list, by how many
were made before."""

import sys
from pathlib import Path

# as White and as Black, whatever the other does in the first ones
LINE = ("e2e4", "a7a6", "d2d4", "b7b6", "g1f3", "c7c6", "f1e2", "d7d6", "e1g1", "e7e6", "a2a3", "g7g6")

SCRIPT = '''#!{python}
import os, signal, sys, time
KIND, LINE, COUNT = {kind!r}, {line!r}, {count!r}
def say(text):
    print(text, flush=True)
def so_often():
    """How many times this engine was asked for a half-move, in all its processes."""
    with open(COUNT, "a") as file:
        file.write("x")
    return os.path.getsize(COUNT)
moves = []
for line in sys.stdin:
    words = line.split()
    if not words:
        continue
    if words[0] == "uci":
        if KIND == "mute" and os.path.exists(COUNT) and os.path.getsize(COUNT) > 1:
            time.sleep(3600)
        say("id name Fake \\x1b[31m" + KIND)
        say("option name UCI_Variant type combo default chess var chess var crazyhouse")
        say("option name UCI_Chess960 type check default false")
        say("option name Skill Level type spin default 20 min 0 max 20")
        say("uciok")
    elif words[0] == "isready":
        say("readyok")
    elif words[0] == "setoption":
        with open(COUNT + ".options", "a") as file:
            file.write(line)
    elif words[0] == "position":
        moves = words[words.index("moves") + 1:] if "moves" in words else []
    elif words[0] == "go":
        with open(COUNT + ".go", "a") as file:
            file.write(line)
        times = so_often()
        if KIND in ("dies", "mute") and times == 2:
            os.kill(os.getpid(), signal.SIGKILL)
        elif KIND == "always dies":
            print("no more", file=sys.stderr, flush=True)
            sys.exit(3)
        elif KIND == "nonsense":
            say("bestmove h\\x1b[2Jx")
        elif KIND == "illegal":
            say("bestmove a1a8")
        elif KIND == "silent":
            pass
        elif KIND == "floods":
            sys.stdout.write("x" * (1 << 21))
            sys.stdout.flush()
        elif KIND == "shuffles":
            say("bestmove " + ("g1f3", "f3g1")[len(moves) // 2 % 2])
        else:
            time.sleep(2 if KIND == "slow" else 0)
            value = {{"worse": -50, "better": 50}}.get(KIND, 0)
            say(f"info depth 1 score cp {{value}} pv " + LINE[len(moves)])
            say("bestmove " + LINE[len(moves)])
    elif words[0] == "quit":
        break
'''


def engine(folder: Path, kind: str) -> Path:
    """The file of an engine of that kind; beside it `FILE.count` has a byte for each half-move it was asked for."""
    path = folder / kind.replace(" ", "_")
    path.write_text(SCRIPT.format(python=sys.executable, kind=kind, line=LINE, count=f"{path}.count"))
    path.chmod(0o755)
    return path
