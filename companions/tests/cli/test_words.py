"""Words of command lines that several programs take."""

import argparse
import asyncio
import socket
import tomllib
from collections.abc import Callable, Iterator
from contextlib import AsyncExitStack
from pathlib import Path

import aiohttp
import pytest

from ficsd_companions.cli.words import Address, address, amount, count, port
from tests.kit import paths
from tests.kit.ports import free_port
from tests.kit.running import PATIENCE, Run, ended

PROJECT = tomllib.loads((paths.COMPANIONS / "pyproject.toml").read_text(encoding="utf-8"))
PROGRAMS = list(PROJECT["project"]["scripts"])
AT_THIS_MACHINE = {"fics_accounts", "fics_names", "fics_watch"}  # programs that take no HOST:PORT


@pytest.mark.parametrize(
    ("word", "wanted"),
    [("localhost:5000", ("localhost", 5000)), ("[::1]:5000", ("::1", 5000)), ("127.0.0.1:65535", ("127.0.0.1", 65535))],
)
def test_an_address_is_read_and_written(word: str, wanted: tuple[str, int]) -> None:
    assert address(word) == wanted
    assert str(address(word)) == word


@pytest.mark.parametrize("word", ["", "localhost", ":5000", "[]:5000", "::1:5000", "h:0", "h:65536", "h:05", "h:x"])
def test_what_is_no_address_is_refused(word: str) -> None:
    with pytest.raises(argparse.ArgumentTypeError):
        address(word)


def test_numbers_have_bounds() -> None:
    rows: tuple[tuple[Callable[[str], float], str, str], ...] = (
        (port, "1 65535", "0 65536 x -1 1.5"),
        (count(32), "1 32", "0 33 x -1 1.5 01"),
        (count(255, least=0), "0 255", "256 -1"),
        (amount("minutes", 0.5, 10), "0.5 .5 10 1.", "0.4 11 x -1 nan inf 1e1"),
    )
    for read, taken, refused in rows:
        assert [read(it) for it in taken.split()] == [float(it) for it in taken.split()]
        for it in refused.split():
            with pytest.raises(argparse.ArgumentTypeError):
                read(it)


@pytest.fixture
def door() -> Iterator[socket.socket]:
    """Where links come by IPv6."""
    try:
        it = socket.create_server(("::1", 0), family=socket.AF_INET6)
    except OSError as fault:
        pytest.skip(f"there is no IPv6 here: {fault}")
    with it:
        it.settimeout(PATIENCE)
        yield it


def further_words(name: str, folder: Path, listens: int) -> list[object]:
    """What a program wants to be told beside its server."""
    (folder / "archive").mkdir()
    return {
        "fics_bot": ["--name", "House", "--engine", "house:1", "--program", paths.program],
        "fics_director": ["--file", folder / "evening", "--chief", "Zoe", "--program", paths.program],
        "fics_face": ["--listen", listens],
        "fics_ratings": [],
        "fics_scribe": ["--archive", folder / "archive"],
        "fics_web": ["--listen", listens],
    }[name]


async def come(name: str, port_of_program: int, stack: AsyncExitStack) -> None:
    """Comes to a go-between, which connects to the server for whoever comes."""
    if name == "fics_face":
        _, writer = await asyncio.open_connection("127.0.0.1", port_of_program)
        stack.callback(writer.close)
    else:
        session = await stack.enter_async_context(aiohttp.ClientSession())
        await stack.enter_async_context(session.ws_connect(f"http://127.0.0.1:{port_of_program}/link"))


@pytest.mark.parametrize("name", PROGRAMS)
async def test_each_program_connects_by_ipv6(name: str, door: socket.socket, tmp_path: Path) -> None:
    if name in AT_THIS_MACHINE:
        assert "HOST" not in ended(paths.companion(name), "--help").stdout, "it takes a server"
        return
    listens = free_port()
    where = Address(*door.getsockname()[:2])
    assert str(where).startswith("[::1]:")
    further = further_words(name, tmp_path, listens)
    command = ["--archive", tmp_path / "archive", "serve"] if name == "fics_ratings" else []
    run = Run(paths.companion(name), *command, "--server", where, *further)
    try:
        async with AsyncExitStack() as stack:
            if name in ("fics_face", "fics_web"):
                run.begin()
                await come(name, listens, stack)
            link, _ = await asyncio.to_thread(door.accept)
            link.close()
    finally:
        run.end()
