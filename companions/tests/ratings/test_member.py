"""The member over the server: what it answers, and the messages that it hands on."""

import signal
from collections.abc import AsyncIterator
from pathlib import Path

import pytest
from ficslink.errors import PasswordWanted
from ficslink.lines import Tell
from ficslink.member import Member

from tests.archive.archives import put
from tests.kit import paths
from tests.kit.running import Run, Server, async_wait_until, ended

from . import paper
from .evenings import put_days, rated


class Club:
    """A server, an archive, a list of accounts, and the member that answers."""

    def __init__(self, folder: Path) -> None:
        self.archive, self.accounts, self.messages = folder / "games", folder / "accounts", folder / "messages"
        self.archive.mkdir()
        self.accounts.write_text("ann\nben\ncat\n", encoding="utf-8")
        self.server = Server()
        self.members: dict[str, Member] = {}
        self.scribe = self.run()

    def run(self, *more: object) -> Run:
        words = more or ("--accounts", self.accounts, "--messages", self.messages)
        run = Run(
            *(paths.companion("fics_ratings"), "--archive", self.archive, "serve", "--server", self.server.address),
            *("--every", 0.05, *words),
        )
        run.until("in as Scribe")
        return run

    async def come(self, name: str) -> Member:
        member = self.members[name] = await Member.enter("127.0.0.1", self.server.port, name)
        return member

    async def go(self, name: str) -> None:
        await self.members.pop(name).leave()

    async def asks(self, name: str, line: str) -> str:
        """The first line of the scribe's answer."""
        member = self.members[name]
        await member.do(f"tell scribe {line}")
        return await self.next_tell(name)

    async def asks_until(self, name: str, line: str, begins: str) -> str:
        """The answer, once it begins so: it looks once a second whether the archive has more."""
        answer = ""

        async def does() -> bool:
            nonlocal answer
            answer = await self.asks(name, line)
            return answer.startswith(begins)

        assert await async_wait_until(does, unless=self.scribe.has_told_all), answer
        return answer

    async def next_tell(self, name: str) -> str:
        async for event in self.members[name].events():
            if isinstance(event, Tell) and event.who == "Scribe":
                return event.text
        raise AssertionError("the link has ended")

    async def end(self) -> None:
        for member in self.members.values():
            await member.leave()
        if self.scribe.process.poll() is None:
            assert self.scribe.terminate(signal.SIGTERM) == 0, self.scribe.log


@pytest.fixture
async def club(tmp_path: Path) -> AsyncIterator[Club]:
    it = Club(tmp_path)
    try:
        yield it
        await it.end()
    finally:
        it.scribe.end()
        it.server.end()


def by_paper(archive: Path, name: str, games: str) -> str:
    """What is told of a newcomer to blitz, by the plain formulas."""
    r, rd, _ = paper.rate(archive)["blitz", name]
    return f"{name}: blitz {round(r)}? (+-{round(rd)}, {games})"


async def test_ratings_are_told(club: Club) -> None:
    put(club.archive, rated(1) + rated(2, "Ben", "Ann", "0-1") + rated(3, "Ann", "Cat", WhiteAccount="no"))
    await club.come("Ann")
    assert await club.asks_until("Ann", "rating", "Ann: ") == by_paper(club.archive, "Ann", "2 games")
    assert await club.asks("Ann", "rating ben") == by_paper(club.archive, "Ben", "2 games")
    assert await club.asks("Ann", "rating Dan") == "Dan has no rated game."
    assert await club.asks("Ann", "rating 17") == "17 is no name."
    assert await club.asks("Ann", "history cat") == "2026-11-30/3 Ann - Cat 1-0 not rated: Ann had no account"
    assert await club.asks("Ann", "history Dan") == "Dan has no game in the archive."
    assert await club.asks("Ann", "ladder blitz") == "blitz: nobody has played enough for a sure rating."
    assert (await club.asks("Ann", "ladder chess")).startswith("The pools are bullet, blitz,")
    assert (await club.asks("Ann", "how are you")).startswith("I know these words: rating")


async def test_the_ladder_and_a_game_that_has_just_come(club: Club) -> None:
    put_days(club.archive, 40)
    for n in range(60):  # so that both are known well
        day = f"2030-01-{1 + n // 6:02}"
        put(club.archive, rated(1 + n % 6, "Ann", "Ben", ("1-0", "0-1", "1-0")[n % 3], day=day), day)
    await club.come("Ann")
    ladder = await club.asks_until("Ann", "ladder blitz", "blitz: 1. Ann ")
    assert ", 2. Ben " in ladder
    assert "Cat" not in ladder  # who hasn't played for years is provisional
    before = await club.asks("Ann", "rating")
    put(club.archive, rated(7, "Ann", "Ben", day="2030-01-10"), "2030-01-10")
    await club.asks_until("Ann", "history", "2030-01-10/7 Ann - Ben 1-0 rated, blitz; 2030-01-10/6 ")
    assert await club.asks("Ann", "rating") != before


async def test_a_message_for_who_isnt_there(club: Club) -> None:
    await club.come("Ben")
    assert await club.asks("Ben", "message ann see you on Friday") == "It is kept, and told as ann is here."
    assert await club.asks("Ben", "message Ann  twice ") == "It is kept, and told as Ann is here."
    assert len(list(club.messages.glob("*.json"))) == 2
    await club.come("Ann")
    first, second = await club.next_tell("Ann"), await club.next_tell("Ann")
    assert first.startswith("Message of Ben, 20") and first.endswith(": see you on Friday")
    assert second.endswith(": twice")

    async def are_gone() -> bool:
        return not list(club.messages.glob("*.json"))

    assert await async_wait_until(are_gone)


async def test_messages_survive_a_kill(club: Club) -> None:
    await club.come("Ben")
    await club.asks("Ben", "message ann see you on Friday")
    assert club.scribe.terminate(signal.SIGKILL) == -signal.SIGKILL
    club.scribe.end()
    club.scribe = club.run()
    await club.come("Ann")
    assert (await club.next_tell("Ann")).endswith(": see you on Friday")


async def test_messages_are_of_accounts_and_for_such(club: Club) -> None:
    await club.come("Ben")
    await club.come("Dan")
    assert (await club.asks("Dan", "message ann hi")).startswith("Messages are for members with an account")
    assert await club.asks("Ben", "message dan hi") == "dan has no account."
    assert await club.asks("Ben", "message ann") == "Type: message NAME TEXT"
    assert await club.asks("Ben", f"message ann {'x' * 601}") == "A message has at most 600 characters."
    for _ in range(20):
        assert (await club.asks("Ben", "message cat hi")).startswith("It is kept")
    assert await club.asks("Ben", "message cat hi") == "Too many messages wait for cat."
    club.accounts.unlink()
    assert (await club.asks("Ben", "message ann hi")).startswith("Who has an account isn't known")
    assert len(list(club.messages.glob("*.json"))) == 20


async def test_a_guest_under_the_name_isnt_told(club: Club) -> None:
    """As after the account was taken away."""
    await club.come("Ben")
    await club.asks("Ben", "message ann hi")
    club.accounts.write_text("ben\n", encoding="utf-8")
    await club.come("Ann")
    assert (await club.asks("Ann", "rating")) == "Ann has no rated game."
    assert len(list(club.messages.glob("*.json"))) == 1
    club.accounts.write_text("ben\nann\n", encoding="utf-8")
    assert (await club.next_tell("Ann")).endswith(": hi")


async def test_a_message_that_is_refused_waits(club: Club) -> None:
    await club.come("Ben")
    await club.come("Ann")
    await club.members["Ann"].do("+censor Scribe")
    await club.asks("Ben", "message ann hi")
    await club.asks("Ben", "message cat hi")
    await club.come("Cat")
    assert (await club.next_tell("Cat")).endswith(": hi")  # so it has looked who is there
    assert [it.name[:4] for it in club.messages.glob("*.json")] == ["ann-"]
    await club.go("Ann")
    club.scribe.terminate(signal.SIGTERM)
    club.scribe.end()
    club.scribe = club.run()
    await club.come("Ann")
    assert (await club.next_tell("Ann")).endswith(": hi")


async def test_a_full_disk_is_said(club: Club) -> None:
    """Here the folder can't be written, by a program that may do no more than anybody."""
    await club.come("Ben")
    await club.asks("Ben", "message ann first")
    club.scribe.terminate(signal.SIGTERM)
    club.scribe.end()
    club.scribe = Run(
        *("prlimit", "--fsize=40", paths.companion("fics_ratings"), "--archive", club.archive, "serve"),
        *("--server", club.server.address, "--every", 0.05, "--accounts", club.accounts, "--messages", club.messages),
    )
    club.scribe.until("in as Scribe")
    said = await club.asks("Ben", "message ann second")
    assert said == "It can't be kept now, and ann won't have it: File too large."
    assert len(list(club.messages.iterdir())) == 1
    await club.come("Ann")
    assert (await club.next_tell("Ann")).endswith(": first")


async def test_its_name_is_its_own(club: Club, tmp_path: Path) -> None:
    """It makes an account of it, and comes again by the password that it has kept."""
    for _ in range(2):
        club.scribe.terminate(signal.SIGTERM)
        club.scribe.end()
        club.scribe = club.run("--password", tmp_path / "password")
    assert (tmp_path / "password").stat().st_mode & 0o777 == 0o600
    club.scribe.terminate(signal.SIGTERM)
    with pytest.raises(PasswordWanted):
        await club.come("Scribe")


async def test_a_name_that_cant_be_had(club: Club, tmp_path: Path) -> None:
    """It says so, and doesn't try for ever."""
    other = await club.come("Ann")
    await other.register("secret")
    await club.go("Ann")
    words = "--archive", club.archive, "serve", "--server", club.server.address, "--name", "Ann"
    done = ended(paths.companion("fics_ratings"), *words)
    assert done.returncode == 3 and "password" in done.stderr


async def test_without_a_folder_none_are_kept(tmp_path: Path) -> None:
    club = Club(tmp_path)
    try:
        club.scribe.terminate(signal.SIGTERM)
        club.scribe.end()
        club.scribe = club.run("--every", 0.05)
        await club.come("Ben")
        assert await club.asks("Ben", "message ann hi") == "No messages are kept here."
        await club.end()
    finally:
        club.scribe.end()
        club.server.end()


async def test_it_comes_again_to_a_server_that_begins_anew(club: Club) -> None:
    port = club.server.port
    club.server.end()
    club.server = Server(port=port)
    club.scribe.until("in as Scribe", times=1)
    await club.come("Ann")

    async def is_in() -> bool:
        return "Scribe" in map(str, (await club.members["Ann"].do("who")).lines)

    assert await async_wait_until(is_in, unless=club.scribe.has_told_all)
    assert await club.asks("Ann", "rating") == "Ann has no rated game."


def test_what_is_shown_at_a_shell(tmp_path: Path) -> None:
    put(tmp_path, rated(1) + rated(2, "Ann", "House"))
    program = paths.companion("fics_ratings")
    shown = ended(program, "--archive", tmp_path, "games").stdout
    assert shown == (
        "2026-11-30/1 Ann - Ben 1-0 rated, blitz\n2026-11-30/2 Ann - House 1-0 not rated: House is a program\n"
    )
    assert ended(program, "--archive", tmp_path, "ladder", "blitz").stdout == "- Ann 1662? 290 1\n- Ben 1338? 290 1\n"
    assert ended(program, "--archive", tmp_path, "rating", "ann").stdout == "blitz Ann 1662? 290 1\n"
    assert ended(program, "--archive", tmp_path, "history", "House").stdout.startswith("2026-11-30/2 ")
    assert ended(program, "--archive", tmp_path, "ladder", "chess").returncode == 2
    assert ended(program, "--archive", tmp_path / "none", "games").returncode == 1
    words = "serve", "--server", "localhost:5000", "--messages", tmp_path
    assert ended(program, "--archive", tmp_path, *words).returncode == 2
