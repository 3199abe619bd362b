"""Makes ratings of the games of an archive: for each player and pool one by Glicko-2, always the same ones of the same
archive. Shows them, or tells them on a server as one of its members, and keeps messages there for who isn't in.

It is no part of what is proved. It only reads the archive.
"""

import argparse
import asyncio
import logging
import os
import signal
from collections.abc import Callable
from contextlib import suppress
from pathlib import Path

from ficsd_companions.archive.index import Index
from ficsd_companions.cli import log
from ficsd_companions.cli.version import add_version
from ficsd_companions.cli.words import Address, address, handle, seconds
from ficsd_companions.names.known import Names
from ficslink.secret import BadSecret, kept_password

from . import words
from .answers import Answers
from .member import Fault, Teller
from .messages import Box, Taken
from .pools import Pool
from .rated import Ratings
from .table import Standing

NO_NAME = 3

logger = logging.getLogger("fics_ratings")


class Chosen(argparse.Namespace):
    """The words of the command line."""

    archive: Path
    act: "Callable[[Chosen, Ratings], None]"
    pool: str
    name: str
    day: str | None
    server: Address
    password: Path | None
    accounts: Path | None
    messages: Path | None
    every: float


def show_ladder(chosen: Chosen, ratings: Ratings) -> None:
    number = 0
    for it in ratings.ladder(Pool(chosen.pool)):
        number += not it.is_provisional
        print("-" if it.is_provisional else number, row(it))


def row(it: Standing) -> str:
    return f"{it.name} {words.points(it)} {it.deviation} {it.games}"


def show_rating(chosen: Chosen, ratings: Ratings) -> None:
    for it in ratings.standings(chosen.name):
        print(it.pool.value, row(it))


def show_history(chosen: Chosen, ratings: Ratings) -> None:
    player = ratings.index.player(chosen.name)
    for it in reversed(player.games if player else []):
        print(words.game(ratings.judge(it)))


def show_games(chosen: Chosen, ratings: Ratings) -> None:
    for day in [chosen.day] if chosen.day else ratings.index.known_days:
        for it in ratings.judged(day):
            print(words.game(it))


def serve(chosen: Chosen, ratings: Ratings) -> None:
    asyncio.run(work(chosen, ratings))


async def work(chosen: Chosen, ratings: Ratings) -> None:
    """Answers until a signal comes."""
    password = kept_password(chosen.password) if chosen.password else None
    names = Names(chosen.accounts) if chosen.accounts else None
    box = Box(chosen.messages) if chosen.messages else None
    teller = Teller(chosen.server, chosen.name, password, Answers(ratings, box, names), chosen.every, box)
    task = asyncio.create_task(teller.run())
    for it in (signal.SIGINT, signal.SIGTERM):
        asyncio.get_running_loop().add_signal_handler(it, task.cancel)
    with suppress(asyncio.CancelledError):
        await task


def read_words() -> Chosen:
    it = argparse.ArgumentParser(
        prog="fics_ratings",
        description=(__doc__ or "").split("\n\n", maxsplit=1)[0],
        epilog="Statuses: 0 done, or Ctrl-C or SIGTERM; 1 the archive or the folder of messages can't be used; 2 other "
        "words than these; 3 the name can't be had: the server refuses it, or its password can't be used.",
    )
    it.add_argument(
        "--archive", type=Path, required=True, metavar="DIR", help="the folder into which fics_scribe writes"
    )
    add_version(it)
    serving = add_commands(it)
    chosen = it.parse_args(namespace=Chosen())
    if chosen.act is serve and chosen.messages and not chosen.accounts:
        serving.error("--messages wants --accounts: messages are of members with an account, and for such")
    return chosen


def add_commands(it: argparse.ArgumentParser) -> argparse.ArgumentParser:
    """Gives a command line its commands; that of the last one, `serve`."""
    commands = it.add_subparsers(required=True, metavar="COMMAND")

    def command(name: str, act: Callable[[Chosen, Ratings], None], says: str) -> argparse.ArgumentParser:
        made = commands.add_parser(name, help=says, description=says)
        made.set_defaults(act=act)
        return made

    says = "who is how strong in a pool: place, name, rating, deviation, games; provisional ones have no place"
    command("ladder", show_ladder, says).add_argument("pool", choices=[it.value for it in Pool])
    says = "what a player is in each pool: rating, deviation, games"
    command("rating", show_rating, says).add_argument("name", type=handle)
    command("history", show_history, "a player's games, the newest first, each with whether it is rated").add_argument(
        "name", type=handle
    )
    says = "all games, each with whether it is rated, and why not"
    command("games", show_games, says).add_argument("day", nargs="?", help="those of a day, as 2026-11-30")
    serving = command("serve", serve, "answers on a server, as one of its members")
    add_serving(serving)
    return serving


def add_serving(words: argparse.ArgumentParser) -> None:
    add = words.add_argument
    add("--server", type=address, required=True, metavar="HOST:PORT", help="the server, as localhost:5000")
    add("--name", type=handle, default="Scribe", metavar="NAME", help="its own name; Scribe without")
    says = "the password of its account, in a file that only its user reads; where there is no such file it is made, "
    add("--password", type=Path, metavar="FILE", help=says + "and so is the account. Without it that is a guest's name")
    says = "who has an account: the server's store, or a list of names, a line each, as fics_names keeps one"
    add("--accounts", type=Path, metavar="FILE", help=says)
    add(
        "--messages", type=Path, metavar="DIR", help="the folder of messages for who isn't there; none are kept without"
    )
    says = "how often it looks who is there, while messages wait: each second without"
    add("--every", type=seconds(0.01, 60), default=1.0, metavar="S", help=says)


def main() -> int:
    chosen = read_words()
    log.begin("fics_ratings: %(message)s")
    ratings = Ratings(Index(chosen.archive, logger.error))
    try:
        if chosen.act is not serve:  # a member may be there before its archive is
            os.listdir(chosen.archive)
        ratings.refresh()
        chosen.act(chosen, ratings)
    except (Taken, OSError) as fault:
        logger.error("%s", fault)
        return 1
    except (Fault, BadSecret) as fault:
        logger.error("%s", fault)
        return NO_NAME
    return 0
