"""How late an opponent's half-move is heard, and what that costs the server.

Pairs of players move their knights to and fro, each behind some seconds of thinking. Counted is what lies between the
sending of a move and the coming of its board to the other: by plain links, and by graphical clients' go-between. Beside
it stands the server's share of a processor, with these games and with an idle hall. Programs that are compared run at
the same time.
"""

import argparse
import asyncio
import random
import socket
import time
from collections.abc import Iterator, Sequence
from contextlib import ExitStack, contextmanager
from dataclasses import dataclass, field
from pathlib import Path

from bench.measure import checked, machine, processor_seconds, words_for
from tests.kit import paths
from tests.kit.ports import free_port
from tests.kit.running import Run, Server

DANCE = ("Nf3", "Nf6", "Ng1", "Ng8")
PATIENCE = 60  # seconds
QUIET_SECONDS = 20  # until who types nothing counts as idle
IN_A_TURN = 16  # players who come in at a time


class Player(asyncio.Protocol):
    """One link, which counts the boards that come over it."""

    transport: asyncio.Transport

    def __init__(self) -> None:
        self.text, self.boards = "", 0
        self.came = 0.0  # when the last piece came
        self.has_come = asyncio.Event()

    @classmethod
    async def at(cls, port: int) -> "Player":
        transport, player = await asyncio.get_running_loop().create_connection(cls, "127.0.0.1", port)
        transport.get_extra_info("socket").setsockopt(socket.IPPROTO_TCP, socket.TCP_NODELAY, 1)
        player.transport = transport
        return player

    def data_received(self, data: bytes) -> None:
        self.came = time.monotonic()
        piece = data.decode("latin-1")
        self.boards += (self.text[-4:] + piece).count("<12> ")
        self.text = (self.text + piece)[-10_000:]
        self.has_come.set()

    def say(self, line: str) -> None:
        self.transport.write(line.encode() + b"\n")

    async def until(self, *ends: str) -> None:
        """Waits until one of these texts stands last."""
        async with asyncio.timeout(PATIENCE):
            while not self.text.endswith(ends):
                self.has_come.clear()
                await self.has_come.wait()

    async def until_told(self, text: str) -> None:
        async with asyncio.timeout(PATIENCE):
            while text not in self.text:
                self.has_come.clear()
                await self.has_come.wait()

    async def until_board(self, number: int) -> float:
        """When so many boards had come."""
        async with asyncio.timeout(PATIENCE):
            while self.boards < number:
                self.has_come.clear()
                await self.has_come.wait()
        return self.came

    async def enter(self, name: str) -> None:
        """Logs in, at the server or at the go-between."""
        await self.until("login: ")
        self.say(name)
        await self.until("fics% ", '":')
        if self.text.endswith('":'):
            self.say("")
        await self.until("fics% ")


@dataclass
class Kind:
    """One way to one program: where its players come in, and what they heard."""

    name: str
    server: Server
    port: int
    late: list[float] = field(default_factory=list)  # milliseconds

    async def players(self, letter: str, count: int) -> list[Player]:
        """So many players who are in."""
        gate = asyncio.Semaphore(IN_A_TURN)

        async def one(n: int) -> Player:
            async with gate:
                player = await Player.at(self.port)
                await player.enter(name_of(letter, n))
                return player

        return await asyncio.gather(*map(one, range(count)))

    async def game(self, players: Sequence[Player], place: int, think: Sequence[float], seconds: float) -> None:
        """A game of two for so many seconds."""
        names = [name_of("p", 2 * place), name_of("p", 2 * place + 1)]
        players[0].say(f"match {names[1]} 0 0 white")
        await players[1].until_told("Challenge: ")
        players[1].say("accept")
        for it in players:
            await it.until_board(1)
        end = time.monotonic() + seconds
        half_moves = 0
        while time.monotonic() < end:
            mover, other = players[half_moves % 2], players[1 - half_moves % 2]
            await asyncio.sleep(random.uniform(*think))
            sent = time.monotonic()
            mover.say(DANCE[half_moves % 4])
            half_moves += 1
            self.late.append(1000 * (await other.until_board(half_moves + 1) - sent))
            await mover.until_board(half_moves + 1)

    async def evening(self, pairs: int, think: Sequence[float], seconds: float) -> None:
        """So many games at a time; a row of what was heard."""
        people = await self.players("p", 2 * pairs)
        before, begin = processor_seconds(self.server.id), time.monotonic()
        await asyncio.gather(*(self.game(people[2 * n : 2 * n + 2], n, think, seconds) for n in range(pairs)))
        share = (processor_seconds(self.server.id) - before) / (time.monotonic() - begin)
        for it in people:
            it.transport.close()
        late = sorted(self.late)
        self.late = []
        columns = "".join(f"{it:>10.1f}" for it in (late[len(late) // 2], late[len(late) * 9 // 10], late[-1]))
        print(f"{self.name + f', {pairs} pairs':<44}{columns}{len(late):>12}{100 * share:>9.1f} %", flush=True)

    async def idle(self, links: int, seconds: float) -> None:
        """The share of a processor that a hall takes in which nobody types."""
        people = await self.players("i", links)
        await asyncio.sleep(QUIET_SECONDS)
        before = processor_seconds(self.server.id)
        await asyncio.sleep(seconds)
        share = (processor_seconds(self.server.id) - before) / seconds
        print(f"{self.name + f', {links} idle links':<44}{100 * share:>51.1f} %", flush=True)
        for it in people:
            it.transport.close()


def name_of(letter: str, n: int) -> str:
    """The handle of the n-th player."""
    return "Bench" + letter + chr(97 + n // 26 % 26) + chr(97 + n % 26)


@contextmanager
def opened(programs: Sequence[Path]) -> Iterator[list[Kind]]:
    """A server of each program, and a go-between before each: first the plain ways, then those by the go-between."""
    with ExitStack() as stack:
        plain, by_face = [], []
        for program in programs:
            paths.program = program
            server, port = Server(), free_port()
            stack.callback(server.terminate)
            face = Run(
                paths.companion("fics_face"), "--server", server.address, "--listen", port, "--links-from-one", 256
            )
            stack.callback(face.end)
            face.begin()
            plain.append(Kind(program.name, server, server.port))
            by_face.append(Kind(f"{program.name} by fics_face", server, port))
        yield plain + by_face


async def compare(kinds: Sequence[Kind], chosen: argparse.Namespace) -> None:
    plain, by_face = kinds[: len(kinds) // 2], kinds[len(kinds) // 2 :]
    for pairs in chosen.pairs:
        await asyncio.gather(*(it.evening(pairs, chosen.think, chosen.seconds) for it in plain))
    await asyncio.gather(*(it.evening(min(chosen.pairs), chosen.think, chosen.seconds) for it in by_face))
    if chosen.idle:
        await asyncio.gather(*(it.idle(chosen.idle, chosen.seconds) for it in plain))


def main() -> None:
    words = words_for("fics_server", __doc__)
    words.add_argument("--beside", type=Path, action="append", default=[], metavar="FILE", help="another program")
    words.add_argument("--pairs", type=int, nargs="+", default=[4, 64, 120], metavar="N", help="%(default)s")
    words.add_argument(
        "--think", type=float, nargs=2, default=[0.5, 3], metavar=("LEAST", "MOST"), help="seconds, %(default)s"
    )
    words.add_argument("--seconds", type=float, default=40, metavar="N", help="of each row, %(default)s without it")
    words.add_argument("--idle", type=int, default=256, metavar="N", help="links, %(default)s without it; 0 for none")
    chosen = words.parse_args()
    programs = [Path(checked(it)) for it in (chosen.program, *chosen.beside)]
    print(machine(), time.strftime("%Y-%m-%d", time.gmtime()))
    print(
        f"{'milliseconds':<44}{'median':>10}{'9 of 10':>10}{'most':>10}{'half-moves':>12}{'processor':>11}", flush=True
    )
    with opened(programs) as kinds:
        asyncio.run(compare(kinds, chosen))


if __name__ == "__main__":
    main()
