"""The file of an evening: its lines are the whole of the director's state, and `ficsd tourney` reads them.

A change is asked of that program first, and what it refuses isn't written. The file is replaced whole and flushed, so
whoever reads it, at whatever moment, finds all lines of the one state or of the other.
"""

import asyncio
import subprocess
from collections.abc import Sequence
from pathlib import Path

from ficsd_companions.cli.replacing import replace

from .evening import REFUSED, BadFile, Evening, questions, read

SECONDS = 60.0  # for the program to answer


class Refused(Exception):
    """The program refuses a line; the text is its answer, `word` the name of the refusal."""

    def __init__(self, answer: str) -> None:
        self.word = answer.rpartition(" ")[2]
        super().__init__(answer)


class Ledger:
    """The lines, and the evening that they make."""

    def __init__(self, path: Path, program: str) -> None:
        self.path, self.program = path, program
        self.lines: list[str] = []
        self.evening = Evening()

    async def open(self) -> None:
        """Reads the file; where there is none the evening is new. `BadFile` where a line of it is bad or refused."""
        try:
            text = self.path.read_text(encoding="ascii")
        except FileNotFoundError:
            text = ""
        except (OSError, UnicodeDecodeError) as fault:
            raise BadFile(f"{self.path} can't be read: {fault}") from fault
        lines = text.replace("\r", "").rstrip("\n").split("\n") if text.strip() else []
        evening = await self._evening(lines)
        for number, answer in enumerate(evening.answers, 1):
            if answer.startswith(REFUSED):
                raise BadFile(f"{self.path}: line {number} ({lines[number - 1]}) is {answer}")
        self.lines, self.evening = lines, evening

    async def add(self, line: str) -> None:
        """Adds a line. `Refused` where the program refuses it."""
        await self._change(self.lines + [line], len(self.lines))

    async def number(self, players: Sequence[str]) -> None:
        """Puts who has joined into another order, before it starts."""
        await self._change([f"join {it}" for it in players], 0)

    async def rule(self, white: str, black: str, score: str) -> None:
        """Writes a result, in the place of one that stands. `Refused` where no round has these two with these
        colours."""
        line, head = f"result {white} {black} {score}", f"result {white} {black} ".lower()
        at = next((number for number, it in enumerate(self.lines) if it.lower().startswith(head)), len(self.lines))
        await self._change(self.lines[:at] + [line] + self.lines[at + 1 :], at)

    async def _change(self, lines: list[str], at: int) -> None:
        evening = await self._evening(lines)
        if evening.answers[at].startswith(REFUSED):
            raise Refused(evening.answers[at])
        self._write(lines)
        self.lines, self.evening = lines, evening

    def _write(self, lines: list[str]) -> None:
        replace(self.path, "".join(f"{it}\n" for it in lines))

    async def _evening(self, lines: list[str]) -> Evening:
        """Asks the program."""
        asked = lines + questions(lines)
        if not asked:
            return Evening()
        done = await asyncio.to_thread(self._run, "".join(f"{it}\n" for it in asked))
        answers = done.stdout.splitlines()
        if done.returncode:
            raise BadFile(f"{self.path}: {answers[-1] if answers else 'no answer'} (status {done.returncode})")
        return read(lines, answers)

    def _run(self, asked: str) -> subprocess.CompletedProcess[str]:
        try:
            return subprocess.run(
                [self.program, "tourney"],
                input=asked,
                stdout=subprocess.PIPE,
                stderr=subprocess.DEVNULL,
                encoding="ascii",
                errors="replace",
                timeout=SECONDS,
                check=False,
            )
        except OSError as fault:
            raise BadFile(f"{self.program} can't be run: {fault.strerror}") from fault
        except subprocess.TimeoutExpired as fault:
            raise BadFile(f"{self.program} tourney doesn't answer within {SECONDS:g} seconds") from fault
