"""A go-between before a server that the test plays. Each line of that, and what the go-between has to say to it, were
written down by hand from the server's pages and FICS's forms."""

import os
import select
import socket
import time
from collections.abc import Iterable, Iterator
from contextlib import suppress
from pathlib import Path

import pytest

from tests.kit import paths
from tests.kit.ports import free_port
from tests.kit.running import PATIENCE, Run

LINKS = 256
# what is typed, what the server is asked, what it answers, and what the client is shown
Row = tuple[str, list[str], list[str], str]
GREETING = "Free Internet Chess Server profile\n\rlogin: "


class End:
    """An end of a link, which is read up to a text."""

    def __init__(self, link: socket.socket) -> None:
        self.link, self.heard = link, b""

    def until(self, end: bytes) -> str:
        """What comes up to that text and with it."""
        deadline = time.monotonic() + PATIENCE
        while end not in self.heard:
            if not select.select([self.link], [], [], max(0, deadline - time.monotonic()))[0]:
                raise AssertionError(f"no {end!r} behind {self.heard[-500:]!r}")
            piece = self.link.recv(65536)
            if not piece:
                raise EOFError(f"closed behind {self.heard[-500:]!r}")
            self.heard += piece
        at = self.heard.index(end) + len(end)
        part, self.heard = self.heard[:at], self.heard[at:]
        return part.decode("latin-1")

    def rest(self) -> str:
        """What comes up to the end of the link."""
        while piece := self.link.recv(65536):
            self.heard += piece
        return self.heard.decode("latin-1")

    def say(self, text: str) -> None:
        self.link.sendall(text.encode("latin-1"))


class Face:
    """A go-between that runs, and all links of it."""

    def __init__(self, links_from_one: int) -> None:
        self.door = socket.create_server(("127.0.0.1", 0), backlog=LINKS)
        self.door.settimeout(PATIENCE)
        self.server_port: int = self.door.getsockname()[1]
        self.port, self.open = free_port(), [self.door]
        words = "--server", f"127.0.0.1:{self.server_port}", "--listen", self.port
        self.run = Run(paths.companion("fics_face"), *words, "--links-from-one", links_from_one)
        self.watch = self.accept()  # the go-between's own link
        self.run.begin()

    def close(self) -> None:
        """Ends the server, and the go-between by that."""
        for it in self.open:
            it.close()
        try:
            self.run.rest()
        finally:
            self.run.end()

    def accept(self) -> socket.socket:
        """The server takes a link."""
        self.open.append(self.door.accept()[0])
        return self.open[-1]

    def connect(self, address: str = "127.0.0.1") -> socket.socket:
        """A client comes, from that address of this machine."""
        self.open.append(socket.create_connection(("127.0.0.1", self.port), source_address=(address, 0)))
        return self.open[-1]

    def link(self) -> tuple[End, End]:
        """A client, and its link at the server, before the login."""
        client = End(self.connect())
        server = End(self.accept())
        server.say(GREETING)
        client.until(b"login: ")
        return client, server

    def entered(self, name: str = "Ann") -> tuple[End, End]:
        """A client that is in, and its link at the server."""
        client, server = self.link()
        client.say(name + "\n\n")
        server.until(name.encode() + b"\n")
        server.say(f"Entered as {name}.\n\rfics% ")
        shown = client.until(b"fics% ")
        assert f"**** Starting FICS session as {name}(U) ****\n\rfics% " in shown
        return client, server

    def memory(self) -> int:
        """What the go-between holds, in bytes."""
        pages = Path(f"/proc/{self.run.id}/statm").read_text(encoding="utf-8").split()[1]
        return int(pages) * os.sysconf("SC_PAGE_SIZE")


def end_of(link: socket.socket, seconds: float) -> str | None:
    """What came before the link's other side ended it; none where it doesn't end it within so many seconds."""
    link.settimeout(seconds)
    heard = b""
    with suppress(ConnectionError):
        try:
            while piece := link.recv(65536):
                heard += piece
        except TimeoutError:
            return None
    return heard.decode("latin-1")


def check(client: End, server: End, typed: str, asked: Iterable[str], answer: Iterable[str], shown: str) -> None:
    """One line: what is typed, what the server is asked, what it answers, and what the client is shown."""
    client.say(typed + "\n")
    for line, reply in zip(asked, answer):
        assert server.until(b"\n") == line + "\n", typed
        server.say(reply + "fics% ")
    assert client.until(b"fics% ") == shown.replace("\n", "\n\r") + "fics% ", typed


@pytest.fixture
def links_from_one() -> int:
    """How many links one address may have."""
    return LINKS


@pytest.fixture
def face(links_from_one: int) -> Iterator[Face]:
    it = Face(links_from_one)
    yield it
    it.close()
