"""A server over a store with accounts of whoever plays, and the programs that look at it from beside it."""

import os
import signal
import subprocess
from collections.abc import Iterable, Iterator
from contextlib import ExitStack, closing
from pathlib import Path

import pytest

from tests.kit import paths, records
from tests.kit.link import Link
from tests.kit.ports import free_port
from tests.kit.running import PATIENCE, Run, ended, wait_until

PLAYERS = 24
MEMBERS = 256

Words = tuple[object, ...]
Done = subprocess.CompletedProcess[str]


def slow(seconds: float) -> Words:
    """The words that run a program on whose disk each sync takes so long."""
    delay = f"inject=fdatasync:delay_enter={int(seconds * 1e6)}"
    return ("strace", "-f", "--seccomp-bpf", "-qqq", "-o", "/dev/null", "-e", "trace=fdatasync", "-e", delay)


def full(call: str) -> Words:
    """The words that run a program, or with -p and its number behind them go on with one, of which that call finds a
    full disk."""
    return ("strace", "-f", "-qqq", "-o", "/dev/null", "-e", f"trace={call}", "-e", f"inject={call}:error=ENOSPC")


def run(name: str, *words: object, ahead: Words = (), env: dict[str, str] | None = None) -> Done:
    """What a program of companions/ has said once it has ended."""
    return ended(*ahead, paths.companion(name), *words, env=env)


class Club:
    """A server, once it serves, and who plays there; the password of each account is that of the kit's records."""

    def __init__(self, folder: Path, ends: ExitStack) -> None:
        self.folder, self.ends = folder, ends
        self.path, self.port = folder / "club.db", free_port()
        self.names = [records.handle_of(n) for n in range(PLAYERS)]

    def serve(self, rows: Iterable[records.Row] = (), ahead: Words = ()) -> None:
        """Starts it over a store that has these games."""
        records.make_store(self.path, [*(records.account(it, records.PASSWORD) for it in self.names), *rows])
        words = paths.program, "serve", "--port", self.port, "--store", self.path
        self.server = Run(*ahead, *words, start_new_session=True)
        self.ends.callback(self.server.rest)
        self.ends.callback(os.killpg, self.server.id, signal.SIGKILL)  # what slows it down, and the server
        self.server.begin()

    def enter(self, name: str, *password: str) -> Link:
        link = Link(self.port)
        self.ends.enter_context(closing(link.link))
        link.say(name, *password)
        link.until("Entered as", PATIENCE)
        return link

    def play(self, white: str, black: str, *, registered: bool = True) -> list[Link]:
        """A game that has begun; its two links."""
        words = [records.PASSWORD] if registered else []
        links = [self.enter(it, *words) for it in (white, black)]
        links[0].say(f"match {black} 2 12 white")
        links[1].until("^Challenge", PATIENCE)
        links[1].say("accept")
        for it in links:
            it.until("^<12>", PATIENCE)
        return links

    def fill_hall(self, others: int = 0) -> list[Link]:
        """Guests, until with so many others nobody else can come."""
        letters = "ABCDEFGHIJKLMNOPQRSTUVWXYZ"
        return [self.enter(f"Full{letters[it // 26]}{letters[it % 26]}") for it in range(MEMBERS - others)]

    def play_all(self) -> list[Link]:
        """A game of each two."""
        return [it for n in range(0, PLAYERS, 2) for it in self.play(*self.names[n : n + 2])]

    # ---- what is beside it ----

    def look(self, *words: object) -> Done:
        return run("fics_watch", "--store", self.path, "--port", self.port, "--program", paths.program, *words)

    def act(self, name: str, *words: object, ahead: Words = ()) -> Done:
        """What the unit does at a stop."""
        common = "--store", self.path, "--program", paths.program, "--counting", PATIENCE
        env = os.environ | {"MAINPID": "1"}
        return run("stop_server", name, self.folder / "running", *common, *words, ahead=ahead, env=env)

    def stop(self, links: Iterable[Link], *words: object, ahead: Words = ()) -> Done:
        """Notes what runs, cuts the links, and says what is kept."""
        noted = self.act("note", "--port", self.port, "--seconds", PATIENCE)
        assert (noted.returncode, noted.stdout) == (0, ""), noted.stderr
        for it in links:
            it.link.close()
        return self.act("keep", *words, ahead=ahead)

    def fill_disk(self) -> None:
        """From now on the server finds its disk full."""
        words = [str(it) for it in (*full("pwrite64"), "-p", self.server.id)]
        fills = self.ends.enter_context(subprocess.Popen(words, stdin=subprocess.DEVNULL))
        self.ends.callback(fills.terminate)
        status = Path(f"/proc/{self.server.id}/status")
        assert wait_until(lambda: "TracerPid:\t0\n" not in status.read_text(encoding="utf-8"))


@pytest.fixture
def club(tmp_path: Path) -> Iterator[Club]:
    with ExitStack() as ends:
        yield Club(tmp_path, ends)
