"""The house's own search: the server's program, asked by its command `bot`, a process for each question."""

import asyncio
import os
import re
from dataclasses import dataclass

from .uci import how, tied

ANSWER = re.compile(r"(\S+) (-?\d+)\n")
PAWN = 100  # its values are in pawns
DEEPEST = {"chess": 4, "fischer": 4, "crazyhouse": 3}
STEP = 6  # one half-move further ahead takes at least so many times as long
LAST_RESORT_SECONDS = 20.0


class HouseFault(Exception):
    """The search answered nothing that is a half-move."""


@dataclass(frozen=True)
class Answer:
    """A half-move as the server takes it, and its value for who moves, in hundredths of a pawn."""

    word: str
    value: int


class House:
    """The search, so many half-moves ahead at most. So many searches go at a time; others wait for their turn."""

    def __init__(self, program: str, depth: int, searches: int | None = None) -> None:
        self.program, self.depth = program, depth
        self.turns = asyncio.Semaphore(searches or max(1, (os.cpu_count() or 1)))

    async def best(
        self, kind: str, text: str, seconds: float, most: float = LAST_RESORT_SECONDS, level: int | None = None
    ) -> Answer:
        """The best half-move as far ahead as it gets in about so many seconds, and no further than a level says. One
        half-move ahead it looks in any case, for at most `most` seconds."""
        loop = asyncio.get_running_loop()
        begun = loop.time()
        answer, depth, took = None, 1, 0.0
        while depth <= min(level or self.depth, self.depth, DEEPEST[kind]):
            left = seconds - (loop.time() - begun)
            if answer and left < took * STEP:
                break
            asked = loop.time()
            try:
                async with asyncio.timeout(2 * left if answer else most):
                    answer = await self.look(depth, text)
            except TimeoutError:
                break
            took = loop.time() - asked
            depth += 1
        if not answer:
            raise HouseFault(f"the house's search answers nothing within {most:.1f} seconds")
        return answer

    async def look(self, depth: int, text: str) -> Answer:
        """The best half-move so many half-moves ahead."""
        if not os.access(self.program, os.X_OK):
            raise HouseFault(f"{self.program} can't be run")
        async with self.turns:
            try:
                process = await asyncio.create_subprocess_exec(
                    *tied([self.program, "bot", str(depth)]),
                    stdin=asyncio.subprocess.PIPE,
                    stdout=asyncio.subprocess.PIPE,
                    stderr=asyncio.subprocess.DEVNULL,
                    start_new_session=True,
                )
            except OSError as fault:
                raise HouseFault(f"{self.program} can't be run: {fault.strerror}") from fault
            try:
                written, _ = await process.communicate(text.encode())
            finally:
                if process.returncode is None:
                    process.kill()
                    await process.wait()
        said, status = written.decode("ascii", "replace"), process.returncode or 0
        answer = ANSWER.fullmatch(said)
        if status or not answer or answer[1] == "none":
            raise HouseFault(f"the house's search ended {how(status)} and said {said.strip()!r}")
        return Answer(answer[1], PAWN * int(answer[2]))
