"""Clubs by `./club`, and guests that come to them."""

import subprocess
from collections.abc import AsyncIterator
from contextlib import suppress
from pathlib import Path
from typing import Any

import pytest

from tests.kit import paths
from tests.kit.guests import Guest
from tests.kit.ports import free_ports_for_a_club
from tests.kit.running import PATIENCE, Run


class Club(Run):
    """A club, in its own group of processes, as a terminal has them."""

    def __init__(self, *words: object, **more: Any) -> None:
        self.port = free_ports_for_a_club()
        self.page_port = self.port + 2
        self.guests: list[Guest] = []
        super().__init__(paths.CLUB, "--port", self.port, *words, start_new_session=True, **more)

    def open(self) -> None:
        """Waits until it is open."""
        self.until(rf"^Open http://localhost:{self.page_port}/ and challenge House$", self.out)

    async def guest(self, name: str, password: str | None = None) -> Guest:
        """A guest that is in; one with a password has an account."""
        self.guests.append(await Guest.enter(self.port, name, password))
        return self.guests[-1]

    def parts(self) -> dict[str, int]:
        """The processes that it has started, by a word of their command."""
        found = {}
        for it in Path("/proc").glob("[0-9]*"):
            with suppress(OSError):
                parent = int((it / "stat").read_text().rpartition(")")[2].split()[1])
                words = (it / "cmdline").read_text()
                if parent == self.id:
                    found[next((name for name in ("fics_bot", "fics_web") if name in words), "server")] = int(it.name)
        return found

    async def close(self) -> None:
        """Ends it in order where it didn't end by itself."""
        for it in self.guests:
            await it.leave()
        if self.process.poll() is None:
            self.process.terminate()
            with suppress(subprocess.TimeoutExpired):
                self.process.wait(PATIENCE)
        self.end()


class Clubs:
    """The clubs of a test."""

    def __init__(self) -> None:
        self.all: list[Club] = []

    def begun(self, *words: object, **more: Any) -> Club:
        """A club that isn't open yet."""
        self.all.append(Club(*words, **more))
        return self.all[-1]

    def opened(self, *words: object, engine: str = "house:1") -> Club:
        """A club that is open, over the program that is tried."""
        club = self.begun("--program", paths.program, "--engine", engine, *words)
        club.open()
        return club


@pytest.fixture
async def clubs() -> AsyncIterator[Clubs]:
    it = Clubs()
    yield it
    for club in it.all:
        await club.close()
