"""Keeps every game that is played on a server as PGN, one file for each day.

It comes as a member or as guests, looks on at all games, and writes each once it is over. It is no part of what is
proved. It may be ended or killed at any moment, and goes on where it was.
"""

import argparse
import asyncio
import logging
import signal
from contextlib import suppress
from pathlib import Path

from ficslink.secret import BadSecret, password_in

from ficsd_companions.cli.version import add_version
from ficsd_companions.cli.words import Address, address, handle, seconds
from ficsd_companions.names.known import Names

from .archive import Archive
from .lock import Held, held
from .scribe import Fault, NotKept, Scribe

logger = logging.getLogger("fics_scribe")
REFUSED, NO_ARCHIVE = 1, 4  # statuses


class Chosen(argparse.Namespace):
    """The words of the command line."""

    server: Address
    archive: Path
    name: str
    password_file: str | None
    site: str | None
    accounts: Path | None
    every: float


async def work(chosen: Chosen) -> None:
    """Keeps games until a signal comes."""
    password = password_in(chosen.password_file) if chosen.password_file else None
    names = Names(chosen.accounts) if chosen.accounts else None
    with held(chosen.archive, f"fics_scribe of {chosen.server}"):
        archive = Archive(chosen.archive, chosen.site or chosen.server.host, names)
        scribe = asyncio.create_task(Scribe(chosen.server, chosen.name, password, archive, chosen.every).run())
        for it in (signal.SIGINT, signal.SIGTERM):
            asyncio.get_running_loop().add_signal_handler(it, scribe.cancel)
        with suppress(asyncio.CancelledError):
            await scribe


def read_words() -> Chosen:
    words = argparse.ArgumentParser(
        prog="fics_scribe",
        description=(__doc__ or "").split("\n\n", maxsplit=1)[0],
        epilog=f"Statuses: 0 Ctrl-C or SIGTERM; {REFUSED} the server refuses it, or its password can't be read; "
        f"2 other words than these; {NO_ARCHIVE} the archive can't be used, another scribe has it, or at the end it "
        "hadn't room for all, each of which may pass.",
    )
    words.add_argument(
        "--server", type=address, required=True, metavar="HOST:PORT", help="the server, as localhost:5000"
    )
    words.add_argument("--archive", type=Path, required=True, metavar="DIR", help="the folder of the archive")
    words.add_argument("--name", type=handle, default="guest", metavar="NAME", help="a member's name; a guest without")
    words.add_argument(
        "--password-file", metavar="FILE", help="a file with that member's password, readable by nobody else"
    )
    words.add_argument("--site", metavar="TEXT", help="what the games' tag Site says; the server's host without")
    words.add_argument(
        "--accounts",
        type=Path,
        metavar="FILE",
        help="who has an account, which the games' tags say then: the server's store, or a list of names, a line each, "
        "as fics_names keeps one",
    )
    words.add_argument(
        "--every",
        type=seconds(0.01, 60),
        default=0.02,
        metavar="S",
        help="how often it asks which games there are: each 0.02 seconds without",
    )
    add_version(words)
    return words.parse_args(namespace=Chosen())


def main() -> int:
    logging.basicConfig(format="fics_scribe: %(message)s", level=logging.INFO)
    try:
        asyncio.run(work(read_words()))
    except (Fault, BadSecret) as fault:
        logger.error("%s", fault)
        return REFUSED
    except (NotKept, Held, OSError) as fault:
        logger.error("%s", fault)
        return NO_ARCHIVE
    return 0
