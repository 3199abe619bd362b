"""Engines that say which position a FEN or a list of moves is, and which moves it has."""

import os
import re
import shutil
import subprocess
from collections.abc import Sequence

PATH = os.environ.get("PATH", "") + ":/usr/games"


class Engine:
    """A UCI engine, for one variant."""

    def __init__(self, name: str, **options: str) -> None:
        program = shutil.which(name, path=PATH)
        if not program:
            raise AssertionError(f"{name} isn't there; Debian's package {name} has it")
        self.process = subprocess.Popen([program], stdin=subprocess.PIPE, stdout=subprocess.PIPE, text=True)
        for option, value in options.items():
            self.say(f"setoption name {option} value {value}")

    def say(self, *lines: str) -> None:
        assert self.process.stdin
        self.process.stdin.write("".join(f"{it}\n" for it in lines))
        self.process.stdin.flush()

    def until(self, begin: str) -> list[str]:
        """What it writes up to the line that begins so, and with it."""
        assert self.process.stdout
        lines: list[str] = []
        while not lines or not lines[-1].startswith(begin):
            line = self.process.stdout.readline()
            if not line:
                raise AssertionError("the engine has ended")
            lines.append(line.strip())
        return lines

    def fen(self, start: str, moves: Sequence[str] = ()) -> str:
        """The position behind these moves, as it says itself."""
        self.say(f"position fen {start} moves {' '.join(moves)}", "d")
        return self.until("Fen: ")[-1].removeprefix("Fen: ")

    def moves(self, fen: str) -> list[str]:
        """The moves of a position."""
        self.say(f"position fen {fen}", "go perft 1")
        return [it.removesuffix(": 1") for it in self.until("Nodes searched") if re.fullmatch(r"\S+: 1", it)]

    def end(self) -> None:
        with self.process:
            self.process.kill()
