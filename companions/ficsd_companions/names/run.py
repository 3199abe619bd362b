"""Keeps a list of the accounts of a store, a name a line, for those who may not read the store: whoever types a name at
the login learns as much of it.

It is no part of what is proved. It reads a copy of the store, and changes nothing of it.
"""

import argparse
import logging
import signal
import time
from pathlib import Path

from ficsd_companions.cli.replacing import replace
from ficsd_companions.cli.version import add_version

from .known import Names

STORE = Path("/var/lib/ficsd/club.db")
EVERY = 1.0  # seconds between two looks
A_SHARE = 20  # of the time that it takes to read the store it does nothing so many times as long

logger = logging.getLogger("fics_names")


class Chosen(argparse.Namespace):
    """The words of the command line."""

    store: Path
    to: Path
    once: bool


def write(file: Path, names: frozenset[str]) -> None:
    """Puts the list into the place of the one that is there, whole."""
    replace(file, "".join(f"{it}\n" for it in sorted(names)))


def follow(chosen: Chosen) -> None:
    """Writes the list whenever the names have changed; once alone where that is wanted."""
    names, written, said = Names(chosen.store), None, ""
    while True:
        began = time.monotonic()
        known = names.known()
        try:
            if known is not None and known != written:
                write(chosen.to, known)
                written, said = known, ""
        except OSError as fault:
            if chosen.once:
                raise
            if str(fault) != said:
                logger.error("the list can't be written, and it is tried again: %s", fault)
            said = str(fault)
        if chosen.once:
            if known is None:
                raise OSError(f"{chosen.store} can't be read")
            return
        time.sleep(max(EVERY, A_SHARE * (time.monotonic() - began)))


def read_words() -> Chosen:
    words = argparse.ArgumentParser(
        prog="fics_names",
        description=(__doc__ or "").split("\n\n", maxsplit=1)[0],
        epilog="Statuses: 0 Ctrl-C or SIGTERM, or once; 1 the store can't be read, or the list can't be written; "
        "2 other words than these.",
    )
    says = "the store: %(default)s where it is left out"
    words.add_argument("--store", type=Path, default=STORE, metavar="FILE", help=says)
    words.add_argument("--to", type=Path, required=True, metavar="FILE", help="the list")
    add_version(words)
    words.add_argument("--once", action="store_true", help="writes it once, and ends")
    return words.parse_args(namespace=Chosen())


def stop(_signal: int, _frame: object) -> None:
    raise KeyboardInterrupt


def main() -> int:
    chosen = read_words()
    logging.basicConfig(format="fics_names: %(message)s", level=logging.INFO)
    signal.signal(signal.SIGTERM, stop)
    try:
        follow(chosen)
    except KeyboardInterrupt:
        pass
    except OSError as fault:
        logger.error("%s", fault)
        return 1
    return 0
