"""A go-between for graphical clients: listens on a port, connects each client to a server, and puts what the server
says into FICS's own forms, and what the client says into the server's.

It is no part of what is proved. It writes `ready` once clients can come, ends once its server has ended, and then
writes `closed`. It keeps one link of its own to the server, which stays at the login.
"""

import argparse
import asyncio
import sys
from pathlib import Path

from ficsd_companions.cli.version import add_version
from ficsd_companions.cli.words import COUNTS, Address, address, count, port
from ficsd_companions.limits.refused import Refused

from .server import LINKS, GoBetween


class Chosen(argparse.Namespace):
    """The words of the command line."""

    server: Address
    listen: int
    bind: str
    links_from_one: int
    counts: Path | None


def read_words() -> Chosen:
    words = argparse.ArgumentParser(
        prog="fics_face",
        description=(__doc__ or "").split("\n\n")[0],
        epilog="Statuses: 0 the server has ended, or Ctrl-C; 1 the server isn't there, or the port is in use; "
        "2 other words than these.",
    )
    words.add_argument(
        "--server", type=address, required=True, metavar="HOST:PORT", help="the server, as localhost:5000"
    )
    words.add_argument("--listen", type=port, required=True, metavar="PORT", help="the port for clients")
    words.add_argument(
        "--bind",
        default="127.0.0.1",
        metavar="ADDRESS",
        help="the address for clients: 127.0.0.1 where it is left out, 0.0.0.0 for all",
    )
    words.add_argument(
        "--links-from-one",
        type=count(LINKS),
        default=32,
        metavar="N",
        help="how many links one address may have at a time: 32 where it is left out",
    )
    add_version(words)
    words.add_argument("--counts", type=Path, metavar="FILE", help=COUNTS)
    return words.parse_args(namespace=Chosen())


def main() -> int:
    chosen = read_words()
    try:
        refused = Refused("fics_face", chosen.counts)
        asyncio.run(GoBetween(chosen.server, chosen.links_from_one, refused).serve(chosen.bind, chosen.listen))
    except OSError as error:
        print(f"fics_face: {error}", file=sys.stderr)
        return 1
    except KeyboardInterrupt:
        return 0
    print("closed", flush=True)
    return 0
