"""Runs a round robin on a server as one of its members: pairs who joins, calls them, watches their games, and keeps the
table.

Its state is the file of the lines that `ficsd tourney` reads, so it may be ended or killed at any moment, and goes on
by reading it. It is no part of what is proved; the pairings and the table, which that program makes, are.
"""

import asyncio
import logging
import signal
import sys

from ficsd_companions.cli import log
from ficslink.secret import BadSecret, password_in

from . import options, talk
from .director import Director, Fault
from .evening import BadFile, Row
from .ledger import Ledger
from .options import Chosen

logger = logging.getLogger("fics_director")


async def work(chosen: Chosen) -> list[Row]:
    """Runs the evening until its end or a signal; the table that is shown then."""
    password = password_in(chosen.password_file) if chosen.password_file else None
    director = Director(chosen, password, Ledger(chosen.file, chosen.program))
    running = asyncio.create_task(director.run())
    for it in (signal.SIGINT, signal.SIGTERM):
        asyncio.get_running_loop().add_signal_handler(it, running.cancel)
    try:
        return await running
    except asyncio.CancelledError:
        return []


def main() -> int:
    """Directs, as the words of the command line choose; the status."""
    chosen = options.chosen(sys.argv[1:])
    log.begin("fics_director: %(message)s")
    try:
        for row in asyncio.run(work(chosen)):
            print(talk.row(row), flush=True)
    except (Fault, BadFile, BadSecret, OSError) as fault:
        logger.error("%s", fault)
        return 1
    return 0
