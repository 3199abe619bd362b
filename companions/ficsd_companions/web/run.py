"""A go-between for a page in the browser: serves the page's files, and gives each tab a WebSocket, which is one link of
the server.

It is no part of what is proved. It writes `ready` once tabs can come, ends once its server has ended, and then writes
`closed`. It keeps one link of its own to the server, which stays at the login. It needs aiohttp, Debian's
python3-aiohttp, and so the system's own Python.
"""

import argparse
import asyncio
import ipaddress
import re
import sys
from pathlib import Path

from ficsd_companions.cli.program import PAGE
from ficsd_companions.cli.version import add_version
from ficsd_companions.cli.words import COUNTS, address, count, folder_with, port

try:
    from . import logs
    from .proxies import Network
    from .server import GoBetween
    from .settings import Settings
except ModuleNotFoundError as missing:
    sys.exit(f"fics_web: {missing}; Debian's package python3-aiohttp has it")

MOST_TABS = 256


def network(word: str) -> Network:
    """An address, or a network as 10.0.0.0/8."""
    try:
        return ipaddress.ip_network(word)
    except ValueError as error:
        raise argparse.ArgumentTypeError(str(error)) from None


def name(word: str) -> str:
    """A host's name, without a port."""
    if not re.fullmatch(r"[A-Za-z0-9._-]{1,253}", word):
        raise argparse.ArgumentTypeError("a host's name has letters, digits, dots and hyphens, and no port")
    return word


def options() -> argparse.ArgumentParser:
    words = argparse.ArgumentParser(
        prog="fics_web",
        description=(__doc__ or "").split("\n\n", 1)[0],
        epilog="Statuses: 0 the server has ended, or Ctrl-C or SIGTERM; 1 the server isn't there, the port is in use, "
        "or aiohttp isn't installed; 2 other words than these.",
    )
    words.add_argument(
        "--server", type=address, required=True, metavar="HOST:PORT", help="the server, as localhost:5000"
    )
    words.add_argument("--listen", type=port, required=True, metavar="PORT", help="the port for browsers")
    words.add_argument(
        "--bind",
        default="127.0.0.1",
        metavar="ADDRESS",
        help="the address for browsers: 127.0.0.1 where it is left out, 0.0.0.0 for all",
    )
    words.add_argument(
        "--web",
        type=folder_with("index.html"),
        default=PAGE,
        metavar="FOLDER",
        help="the page's files: the folder page beside this program where it is left out",
    )
    add_visitors(words)
    words.add_argument(
        "--archive",
        type=Path,
        metavar="DIR",
        help="the folder into which fics_scribe writes: its games are shown below /games/",
    )
    add_version(words)
    words.add_argument("--counts", type=Path, metavar="FILE", help=COUNTS)
    words.add_argument(
        "--ratings",
        action="store_true",
        help="show the ratings that the archive makes: beside names, on players' pages, as ladders",
    )
    words.add_argument("--plain", action="store_true", help="refuse stamped lines: every clock is the server's own")
    return words


def add_visitors(words: argparse.ArgumentParser) -> None:
    """What says who may come."""
    words.add_argument(
        "--host",
        type=name,
        action="append",
        default=[],
        metavar="NAME",
        help="a name under which the page is opened, besides localhost and addresses; may come often",
    )
    words.add_argument(
        "--tabs-from-one",
        type=count(MOST_TABS),
        default=32,
        metavar="N",
        help="how many tabs one address may have at a time: 32 where it is left out",
    )
    words.add_argument(
        "--trusted-proxy",
        type=network,
        action="append",
        default=[],
        metavar="ADDRESS",
        help="an address or network of a proxy whose X-Forwarded-For counts; as often as wanted",
    )


def main() -> int:
    words = options()
    chosen = words.parse_args()
    if chosen.ratings and not chosen.archive:
        words.error("--ratings wants --archive: they are made of its games")
    settings = Settings(
        chosen.server,
        chosen.web,
        hosts=chosen.host,
        proxies=chosen.trusted_proxy,
        tabs_from_one=chosen.tabs_from_one,
        refuses_stamps=chosen.plain,
        archive=chosen.archive,
        counts=chosen.counts,
        rates=chosen.ratings,
    )
    logs.quieten()
    try:
        has_ended = asyncio.run(GoBetween(settings).serve(chosen.bind, chosen.listen))
    except OSError as error:
        print(f"fics_web: {error}", file=sys.stderr)
        return 1
    if has_ended:
        print("closed", flush=True)
    return 0
