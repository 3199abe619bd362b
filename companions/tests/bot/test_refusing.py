"""What the bot says and with which status it ends where it can't play, and what it makes of a server that says what no
table has. The servers of these tests are played here."""

import asyncio
import os
import shutil
from collections.abc import AsyncIterator
from pathlib import Path

import pytest

from tests.bot.conftest import Bot
from tests.bot.engines import engine
from tests.kit import paths
from tests.kit.played import Door
from tests.kit.ports import free_port
from tests.kit.running import Run


@pytest.fixture
async def door() -> AsyncIterator[Door]:
    it = Door()
    await it.open()
    yield it
    it.close()


def ended(*words: object) -> tuple[int, str]:
    """The status of a bot that ends by itself, and all that it has written to its log."""
    run = Run(paths.companion("fics_bot"), *words)
    return run.rest(), "\n".join(run.log)


def refused(status: int, said: str, *words: object, port: int = 1) -> None:
    """The bot ends with that status and says so."""
    got, log = ended("--server", f"127.0.0.1:{port}", "--name", "House", "--program", paths.program, *words)
    assert got == status, log
    assert said in log
    assert "Traceback" not in log


async def refused_by(
    door: Door, piece: str, *pieces: str, status: int, said: str, words: tuple[object, ...] = ()
) -> None:
    """The same, where a server says these pieces."""
    serving = asyncio.create_task(door.serve(piece, *pieces))
    await asyncio.to_thread(refused, status, said, *words, port=door.port)
    await serving


def test_other_words() -> None:
    rows: tuple[tuple[list[str], str], ...] = (
        ([], "the following arguments are required: --server, --name"),
        (["--server", "localhost"], "a server is HOST:PORT"),
        (["--server", "localhost:0"], "a port is a number from 1 to 65535"),
        (["--server", "h:1", "--name", "A1"], "a name has 3 to 17 letters"),
        (["--server", "h:1", "--name", "Guest"], "guest is no name of one's own"),
        (["--server", "h:1", "--name", "House", "--minutes", "5..1"], "that is N..M, or N alone, from 0 to 600"),
        (["--server", "h:1", "--name", "House", "--most", "33"], "a number from 1 to 32 is wanted"),
        (["--server", "h:1", "--name", "House", "--variants", "bughouse"], "the variants are chess"),
        (["--server", "h:1", "--name", "House", "--seek", "5"], "a game is as"),
        (["--server", "h:1", "--name", "House", "--option", "x=1"], "the house has no options"),
        (["--server", "h:1", "--name", "House", *["--seek", "5 0"] * 4], "there are three seeks at most"),
    )
    for words, said in rows:
        status, log = ended(*words)
        assert status == 2, words
        assert said in log


def test_engines_that_arent() -> None:
    refused(2, "there is no engine /nonexistent: no such program", "--engine", "/nonexistent")
    refused(2, "/bin/true is no engine that speaks UCI", "--engine", "/bin/true")
    refused(2, "there is no engine .: no such program", "--engine", ".")
    refused(2, "/nonexistent is no program", "--program", "/nonexistent")
    refused(2, "/bin/cat has no search", "--program", "/bin/cat")


def test_options_and_variants_that_an_engine_hasnt(tmp_path: Path) -> None:
    refused(2, "has no option Contempt", "--engine", engine(tmp_path, "better"), "--option", "Contempt=1")
    if shutil.which("stockfish", path=f"{os.environ['PATH']}:/usr/games"):
        refused(2, "doesn't play crazyhouse", "--engine", "stockfish", "--variants", "crazyhouse")
        refused(2, "doesn't play crazyhouse", "--engine", "stockfish", "--seek", "5 0 crazyhouse")


def test_a_password_that_others_read(tmp_path: Path) -> None:
    path = tmp_path / "password"
    path.write_text("swordfish\n")
    path.chmod(0o644)
    refused(2, f"chmod 600 {path}", "--password", path)


def test_no_server() -> None:
    refused(1, "no server at 127.0.0.1:", port=free_port())


async def test_what_a_login_may_answer(door: Door) -> None:
    rows = (
        ("refused 25 HallFull", 1, "is full"),
        ("refused 24 HandleTaken", 3, "somebody is there under this name"),
        ("refused 22 BadHandle", 3, "can't come in"),
    )
    for line, status, said in rows:
        await refused_by(door, f"{line}\n\rlogin: ", status=status, said=said)


async def test_names_with_accounts(door: Door, tmp_path: Path) -> None:
    await refused_by(door, "password: ", status=3, said="House has an account at 127.0.0.1:")
    wrong = ("password: ", "refused 23 WrongPassword\n\rlogin: ")
    words = ("--password", tmp_path / "password")
    await refused_by(door, *wrong, status=3, said="23 WrongPassword", words=words)


async def test_a_server_of_another_kind(door: Door) -> None:
    running = asyncio.create_task(asyncio.to_thread(refused, 1, "no chess server at", port=door.port))
    end = await door.end()
    await end.say("220 mail\r\nlogin: ")
    end.close()
    await running


async def test_lines_that_arent_known_are_told_and_passed_over(door: Door) -> None:
    news = (
        "\n\rsomething else: \x1b[2J\x07\n\r<12> no board\n\r"
        "{Game 3 (Ann vs. Ben) Creating 5 0 quick match.}\n\r<b1> game 9 white [P] black []\n\r"
        "Ann offers a draw.\n\r5 taken back.\n\rfics% "
    )
    pieces = ("Entered as House.\n\rfics% ", "Ok.\n\rfics% " + news, *["none\n\rfics% "] * 50)
    serving = asyncio.create_task(door.serve(*pieces))
    run = await asyncio.to_thread(Bot, door.port)
    await asyncio.to_thread(run.until, r"something else: \\x1b\[2J\\x07")
    await asyncio.to_thread(run.until, "<12> no board")
    assert run.process.poll() is None
    assert await asyncio.to_thread(run.terminate) == 0
    assert not [it for it in run.log if "\x1b" in it or "Traceback" in it]
    await serving


async def test_a_server_that_ends_at_once(door: Door) -> None:
    serving = asyncio.create_task(door.serve("Entered as House.\n\rfics% ", "Ok.\n\rfics% "))
    run = await asyncio.to_thread(Bot, door.port, "--patience", "1")
    await serving
    door.close()
    assert await asyncio.to_thread(run.rest) == 1
    run.until("the link is lost: the server has closed the link")
