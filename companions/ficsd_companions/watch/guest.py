"""A guest's look at a server: who is in, and what is played."""

import asyncio
import time

from ficslink.answer import Answer
from ficslink.errors import LinkError, NoServer, RefusalError
from ficslink.lines import GameListed, Player
from ficslink.link import Link
from ficslink.refusals import Refusal


MOST_MEMBERS = 256
TRY_AGAIN = 0.2  # seconds, before somebody who left may have left room


class NoAnswer(Exception):
    """The server isn't there, lets nobody in, or doesn't answer in time."""


class HallFull(NoAnswer):
    """So many are in as may be, and nobody can look."""

    def __init__(self) -> None:
        super().__init__(f"the hall is full: {MOST_MEMBERS} members are in, and nobody else can come")


async def answer_to(line: str, port: int, seconds: float) -> Answer:
    """What the server at this machine's port answers a guest, who is there for so many seconds at most."""
    try:
        async with asyncio.timeout(seconds), await Link.open("127.0.0.1", port) as link:
            await link.ask("guest")
            return await link.ask(line)
    except NoServer as why:
        raise NoAnswer(f"nobody answers at port {port}: {why}") from why
    except RefusalError as why:
        if why.refusal is Refusal.HALL_FULL:
            raise HallFull() from why
        raise NoAnswer(f"the server lets no guest in: {why}") from why
    except (LinkError, TimeoutError) as why:
        raise NoAnswer(f"the server doesn't answer: {why or f'it took longer than {seconds:g} seconds'}") from why


def members(port: int) -> int:
    """How many are in, without the one that looks."""
    return len(asyncio.run(answer_to("who", port, 10)).all(Player)) - 1


def games_of_one_board(port: int, seconds: float) -> list[tuple[str, str]]:
    """The two players of each game that runs, but for pairs. Where the hall is full it waits as long for somebody to
    leave."""
    end = time.monotonic() + seconds
    while True:
        try:
            games = asyncio.run(answer_to("games", port, seconds)).all(GameListed)
            return [(it.white, it.black) for it in games if it.terms.kind != "bughouse"]
        except HallFull:
            if time.monotonic() + TRY_AGAIN > end:
                raise
            time.sleep(TRY_AGAIN)
