"""An engine that speaks UCI, as a program of its own."""

import asyncio
import os
import re
import shutil
import signal
from dataclasses import dataclass

from .clock import Budget

BEGIN_SECONDS = 60.0  # for a first answer, also where the machine is busy
STOP_SECONDS = 2.0
LONGEST_LINE = 1 << 20
GAMES = "/usr/games"  # where Debian has its engines, which isn't on every PATH
MATE = 100_000  # what a mate is worth, in hundredths of a pawn, less its distance
OPTION = re.compile(r"option name (.+?) type (\w+)(.*)")
BEST = re.compile(r"bestmove\b\s*(\S*).*")
MOVE = re.compile(r"(?:[a-h][1-8]){2}[nbrq]?|[PNBRQ]@[a-h][1-8]")
SCORE = re.compile(r"info .*\bscore (cp|mate) (-?\d+)\b(?! (?:lower|upper)bound)")


class EngineFault(Exception):
    """The engine died, answers nonsense, or answers nothing within its time."""


class Died(EngineFault):
    """The engine has ended."""


class NoEngine(Exception):
    """There is no such engine, or it isn't one."""


@dataclass(frozen=True)
class Found:
    """A half-move in the engine's spelling, and its value for who moves, in hundredths of a pawn, where it said one."""

    move: str
    value: int | None


def path_of(name: str) -> str:
    """The file of an engine that is named by its file, or by a word on the PATH."""
    found = shutil.which(name, path=os.pathsep.join((os.environ.get("PATH", os.defpath), GAMES)))
    if not found:
        raise NoEngine(f"there is no engine {name}: no such program, on the PATH or as a file")
    return os.path.abspath(found)


def tied(words: list[str]) -> list[str]:
    """The words of a program that ends with this one, however this one ends."""
    tie = shutil.which("setpriv")
    return [tie, "--pdeathsig", "KILL", "--", *words] if tie else words


class Engine:
    """One process of an engine."""

    def __init__(self, path: str, settings: dict[str, str]) -> None:
        self.path, self.settings = path, settings
        self.process: asyncio.subprocess.Process | None = None
        self.offered: dict[str, str] = {}  # the rest of an option's line, by the option's name
        self.name = os.path.basename(path)
        self.last = ""  # the last line that was no answer: an engine that dies may have said there why

    async def begin(self) -> None:
        """Starts it, and sets its options."""
        try:
            self.process = await asyncio.create_subprocess_exec(
                *tied([self.path]),
                stdin=asyncio.subprocess.PIPE,
                stdout=asyncio.subprocess.PIPE,
                stderr=asyncio.subprocess.STDOUT,
                limit=LONGEST_LINE,
                start_new_session=True,
            )
        except OSError as fault:
            raise NoEngine(f"{self.path} can't be run: {fault.strerror}") from fault
        self.send("uci")
        while (line := await self.line(BEGIN_SECONDS)) != "uciok":
            self.learn(line)
        for name, value in self.settings.items():
            self.set(name, value)
        await self.is_ready()

    def learn(self, line: str) -> None:
        """Takes a line behind `uci`."""
        option = OPTION.fullmatch(line)
        if option:
            self.offered[option[1]] = option[3]
        elif line.startswith("id name "):
            self.name = line.removeprefix("id name ")

    def plays(self, kind: str) -> bool:
        """Whether it plays a kind of game, as far as its options tell."""
        if kind == "crazyhouse":
            return "crazyhouse" in self.offered.get("UCI_Variant", "").split()
        return kind == "chess" or kind == "fischer" and "UCI_Chess960" in self.offered

    def set(self, name: str, value: str) -> None:
        """Sets an option; NoEngine where it has none of this name."""
        if name not in self.offered:
            raise NoEngine(f"{self.name} has no option {name}")
        self.send(f"setoption name {name} value {value}")

    async def is_ready(self) -> None:
        """Waits until it has done all that it was told."""
        self.send("isready")
        while await self.line(BEGIN_SECONDS) != "readyok":
            pass

    async def begin_game(self, kind: str) -> None:
        """Makes it ready for a game of that kind."""
        if "UCI_Variant" in self.offered:
            self.set("UCI_Variant", "crazyhouse" if kind == "crazyhouse" else "chess")
        if "UCI_Chess960" in self.offered:
            self.set("UCI_Chess960", "true" if kind == "fischer" else "false")
        self.send("ucinewgame")
        await self.is_ready()

    async def best(self, position: str, is_white: bool, budget: Budget) -> Found:
        """Its half-move in a position, which is what stands behind UCI's word `position`."""
        self.last = ""
        self.send(f"position {position}")
        self.send(go(is_white, budget))
        try:
            async with asyncio.timeout(budget.fail):
                return await self.answer(budget.stop)
        except TimeoutError as fault:
            raise EngineFault(f"{self.name} answers nothing within {budget.fail:.1f} seconds") from fault

    async def answer(self, stop: float) -> Found:
        """What it finds, where it is told to stop after so many seconds."""
        stopper = asyncio.get_running_loop().call_later(stop, self.send, "stop")
        value = None
        try:
            while not (best := BEST.fullmatch(line := await self.line(None))):
                if score := SCORE.match(line):
                    value = value_of(score[1], int(score[2]))
            if not MOVE.fullmatch(best[1]):
                raise EngineFault(f"{self.name} answers {line!r}, which is no half-move")
            return Found(best[1], value)
        finally:
            stopper.cancel()

    async def line(self, seconds: float | None) -> str:
        """The next line that it writes."""
        assert self.process and self.process.stdout
        try:
            async with asyncio.timeout(seconds):
                line = await self.process.stdout.readline()
        except TimeoutError as fault:
            raise EngineFault(f"{self.name} answers nothing within {seconds:.0f} seconds") from fault
        except ValueError as fault:
            raise EngineFault(f"{self.name} writes a line of more than {LONGEST_LINE} bytes") from fault
        if not line:
            status = await self.process.wait()
            raise Died(f"{self.name} has ended {how(status)}" + (f", behind {self.last!r}" if self.last else ""))
        text = line.decode("utf-8", "replace").strip()
        if not text.startswith("info "):
            self.last = text
        return text

    def send(self, line: str) -> None:
        """Tells it a line; nothing where it has ended, which the next reading finds."""
        assert self.process and self.process.stdin
        if not self.process.stdin.is_closing():
            self.process.stdin.write(line.encode() + b"\n")

    def kill(self) -> None:
        """Ends it at once."""
        if self.process and self.process.returncode is None:
            try:
                os.killpg(self.process.pid, signal.SIGKILL)
            except ProcessLookupError:
                pass

    async def end(self) -> None:
        """Ends it, by its own word if it hears that."""
        if not self.process:
            return
        self.send("quit")
        try:
            async with asyncio.timeout(STOP_SECONDS):
                await self.process.communicate()
        except (TimeoutError, ValueError, OSError):
            pass
        finally:
            self.kill()
            await self.process.wait()


def how(status: int) -> str:
    """How a program has ended, in words."""
    return f"by {signal.Signals(-status).name}" if status < 0 else f"with status {status}"


def go(is_white: bool, budget: Budget) -> str:
    """The command to think."""
    if not budget.is_timed:
        return f"go movetime {round(budget.stop * 1000)}"
    clocks = [round(it * 1000) for it in (budget.own, budget.other)]
    white, black = clocks if is_white else clocks[::-1]
    step = round(budget.increment * 1000)
    return f"go wtime {white} btime {black} winc {step} binc {step}"


def value_of(unit: str, number: int) -> int:
    """A score in hundredths of a pawn. `mate 0` and below is being mated."""
    if unit == "cp":
        return number
    return MATE - number if number > 0 else -MATE - number
