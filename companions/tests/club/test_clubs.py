"""`./club`: a server, its page and House by one command."""

import os
import signal
import socket
import urllib.request
from pathlib import Path

from ficsd_companions.club.checks import is_answering
from ficslink.lines import Challenge
from tests.club.conftest import Clubs
from tests.kit import paths, records
from tests.kit.ports import free_ports_for_a_club
from tests.kit.running import PATIENCE, Run, async_wait_until

LOADER = "/lib64/ld-linux-x86-64.so.2"


def have_ended(parts: dict[str, int]) -> bool:
    """Whether none of these processes is there."""
    return not any(os.path.exists(f"/proc/{it}") for it in parts.values())


async def test_an_evening(clubs: Clubs, tmp_path: Path) -> None:
    store = tmp_path / "club.db"
    club = clubs.opened("--store", store)
    with urllib.request.urlopen(f"http://localhost:{club.page_port}/", timeout=PATIENCE) as page:
        assert b"<title>" in page.read()
    ann = await club.guest("Ann", "swordfish")
    club.until("Ann has come", club.out)
    game = await ann.challenges()
    club.until("game 1 with Ann begins: 5 0 chess, with black", club.out)
    await ann.plays(game, "e2e4")
    await ann.turn(game, 2)
    parts = club.parts()
    assert set(parts) == {"fics_bot", "fics_web", "server"}
    assert club.terminate(signal.SIGINT) == 0
    assert await ann.ended(game) == ("adjourned", "*")
    assert have_ended(parts)
    assert not [it for it in club.out + club.log if "Traceback" in it]
    ann = await clubs.opened("--store", store).guest("Ann", "swordfish")
    assert await ann.does("stored") == ["1 Ann House 5 0 chess"]
    await ann.hears("House asks to resume.")
    await ann.does("resume House")
    game = await ann.game()
    await ann.plays(game, "d2d4")
    await ann.turn(game, 4)
    for it in ("club.db-house", "club.db-house-games"):
        assert (tmp_path / it).exists(), it
    assert (tmp_path / "club.db-house").stat().st_mode & 0o777 == 0o600


async def test_who_comes_by_telnet_keeps_a_game(clubs: Clubs, tmp_path: Path) -> None:
    """Everybody is told of the end, and two accounts at a telnet have their game on the shelf."""
    store = tmp_path / "club.db"
    club = clubs.opened("--store", store)
    ann, ben = await club.guest("Ann", "swordfish"), await club.guest("Ben", "knight")
    await ann.does("match Ben 5 0 white")
    await ben.until(lambda it: isinstance(it, Challenge), "challenged")
    await ben.does("accept Ann")
    await ann.plays(await ann.game(), "e2e4")
    club.process.send_signal(signal.SIGINT)
    for it in (ann, ben):
        await it.until(
            lambda event: str(event).endswith(
                "shouts: The club closes now. Games between accounts are adjourned and kept."
            ),
            "told of the end",
        )
    assert club.rest() == 0
    club.until("^ficsd: kept: 3 accounts and 1 adjourned games; 1 of the 1 that ran", club.out)
    again = clubs.opened("--store", store)
    ann = await again.guest("Ann", "swordfish")
    assert await ann.does("stored") == ["1 Ann Ben 5 0 chess"]


async def test_without_a_store(clubs: Clubs) -> None:
    """That nothing is kept is said at the terminal, to each who comes before an account is made, and at the end."""
    club = clubs.opened()
    nothing = "Nothing of this evening is kept: accounts that are registered and games end with it"
    club.until(f"^{nothing}; with --store FILE they are kept$", club.out)
    ann = await club.guest("Ann")
    await ann.hears(f"House tells you: {nothing}.")
    club.process.send_signal(signal.SIGTERM)
    await ann.until(lambda it: str(it).endswith(f"shouts: The club closes now. {nothing}."), "told of the end")
    assert club.rest() == 0
    club.until("^ficsd: nothing is kept, since there is no --store$", club.out)


async def test_before_any_proof_the_program_that_serves_searches_too(clubs: Clubs, tmp_path: Path) -> None:
    # in place of the toolchain stands a script that runs the program as that does: by a loader, from a file that is in
    # a folder of its own
    program, rt = tmp_path / "program", tmp_path / "rt"
    program.symlink_to(paths.program)
    rt.write_text(
        '#!/bin/sh\nwhile [ "$1" != -- ]; do shift; done; shift\n' f'exec {LOADER} --inhibit-cache {program} "$@"\n'
    )
    rt.chmod(0o755)
    in_path = {**os.environ, "PATH": f"{tmp_path}:{os.environ['PATH']}"}
    club = clubs.begun("--unproved", "--engine", "house:2", env=in_path)
    club.open()
    ann = await club.guest("Ann")
    game = await ann.challenges()
    await ann.plays(game, "f2f3", "g2g4")
    assert not [it for it in club.out if "any half-move" in it]
    assert club.terminate(signal.SIGINT) == 0


async def test_house_and_the_page_come_again(clubs: Clubs) -> None:
    club = clubs.opened()
    ann = await club.guest("Ann")
    for part, name in (("fics_bot", "House"), ("fics_web", "the page")):
        os.kill(club.parts()[part], signal.SIGKILL)
        club.until(rf"^{name} has ended \(-9\), and begins again in 1 seconds$", club.out)
    await ann.answered("who", lambda texts: "House" in texts)
    assert await async_wait_until(lambda: is_answering(club.page_port))


def test_it_ends_with_its_server(clubs: Clubs) -> None:
    club = clubs.opened()
    parts = club.parts()
    os.kill(parts["server"], signal.SIGKILL)
    assert club.rest() == 1
    club.until("^club: the server has ended, with status -9$")
    assert have_ended(parts)


async def test_a_second_signal_ends_it_at_once(clubs: Clubs) -> None:
    club = clubs.opened()
    ann = await club.guest("Ann")
    await ann.challenges()
    club.process.send_signal(signal.SIGINT)
    club.until("^ending: ", club.out)
    assert club.terminate(signal.SIGINT) == 0


def test_what_isnt_there(clubs: Clubs, tmp_path: Path) -> None:
    (tmp_path / "aiohttp.py").write_text("raise ModuleNotFoundError(\"No module named 'aiohttp'\")\n")
    club = clubs.begun("--program", paths.program, env={**os.environ, "PYTHONPATH": str(tmp_path)})
    assert club.rest() == 1
    assert club.log == [
        "club: the page needs aiohttp, which isn't there; this installs it: sudo apt-get install -y python3-aiohttp"
    ]
    for behind in (0, 2):
        port = free_ports_for_a_club()
        with socket.create_server(("127.0.0.1", port + behind)):
            run = Run(paths.CLUB, "--port", port, "--program", paths.program)
            assert run.rest() == 1
            run.until(rf"^club: port {port + behind} can't be had \(Address already in use\); ss -ltnp says who")
    club = clubs.begun("--program", paths.program, "--engine", "/nonexistent")
    assert club.rest() == 1
    club.until("^club: House can't begin: there is no engine /nonexistent: ")
    assert club.out == []
    program = tmp_path / "program"
    program.write_bytes(b"")
    assert clubs.begun("--program", program).rest() == 2


def test_the_engine_is_looked_for_before_anything_is_built(clubs: Clubs, tmp_path: Path) -> None:
    """Without a program or a toolchain, as where the build would come first."""
    club = clubs.begun("--engine", "stokfish", env={**os.environ, "PATH": "/usr/bin:/bin"})
    assert club.rest() == 1
    assert (len(club.log), club.out) == (1, [])
    club.until("^club: House can't begin: there is no engine stokfish: no such program")


def test_a_password_of_house_that_is_lost(clubs: Clubs, tmp_path: Path) -> None:
    """The file is named."""
    store = tmp_path / "club.db"
    records.make_store(store, [records.account("House", "secret")])
    club = clubs.begun("--program", paths.program, "--store", store)
    assert club.rest() == 1
    club.until(f"^club: House has an account in {store}, and {store}-house, its password, isn't there")
    assert club.out == []


def test_a_store_that_is_none(clubs: Clubs, tmp_path: Path) -> None:
    store = tmp_path / "club.db"
    store.write_text("no store, and long enough to be read as one" * 100)
    club = clubs.begun("--program", paths.program, "--store", store)
    assert club.rest() == 1
    club.until("^club: the server has ended")


def test_other_words() -> None:
    for words, said in (
        (["--port", "65534"], "a number from 1 to 65533 is wanted"),
        (["--port", "x"], "a number from 1 to 65533 is wanted"),
        (["--store", "/nonexistent/club.db"], "there is no folder for"),
        (["more"], "unrecognized"),
        (["--program", "/nonexistent"], "/nonexistent is no program"),
        (["--unproved", "--program", "/bin/true"], "not allowed with"),
    ):
        run = Run(paths.CLUB, *words)
        assert run.rest() == 2, words
        run.until(said)
