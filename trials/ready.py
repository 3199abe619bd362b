"""What `ready` promises: clients that connect at once when it is written are greeted; and a server whose port is taken,
or whose address isn't one of this machine, ends with status 8 behind `ready` and `closed`.

Says what it saw, and ends with status 1 where that isn't so.
"""

import argparse
import socket
import sys
import time
from pathlib import Path

from tests.kit import paths
from tests.kit.ports import free_port
from tests.kit.running import Run, Server
from trials.client import GREETING

PATIENCE = 10
# an address of the block that is kept for documents (RFC 5737), which no machine has
ELSEWHERE = "192.0.2.1"


def greeted(link: socket.socket) -> bool:
    """Whether what a client is sent first comes over the link."""
    link.settimeout(PATIENCE)
    heard = b""
    while len(heard) < len(GREETING):
        piece = link.recv(4096)
        if not piece:
            return False
        heard += piece
    return heard == GREETING


def at_once(count: int) -> bool:
    """Whether all clients were connected and greeted that came as soon as `ready` was written."""
    server = Server()
    start = time.monotonic()
    links, refused = [], 0
    for _ in range(count):
        try:
            links.append(socket.create_connection(("127.0.0.1", server.port), PATIENCE))
        except ConnectionRefusedError:
            refused += 1
    good = sum(greeted(it) for it in links)
    seconds = time.monotonic() - start
    for it in links:
        it.close()
    server.end()
    print(f"{count} clients on ready: {good} greeted, {refused} refused, {seconds:.2f} seconds")
    return good == count


def ended(what: str, *words: object) -> bool:
    """Whether a server of these words ends with status 8 behind `ready` and `closed`."""
    served = Run(paths.program, "serve", *words)
    status = served.rest()
    print(f"{what}: status {status} behind {served.out}")
    return (status, served.out) == (8, ["ready", "closed"])


def main() -> int:
    words = argparse.ArgumentParser(prog="trial ready", description=__doc__.split("\n\n")[0])
    words.add_argument("program", nargs="?", type=Path, default=paths.program, metavar="PROGRAM")
    words.add_argument(
        "clients",
        nargs="?",
        type=int,
        default=100,
        metavar="CLIENTS",
        help="%(default)s without it: the system keeps 128 that were not yet taken, and more than that "
        "may wait for a second",
    )
    chosen = words.parse_args()
    paths.program = chosen.program.resolve()
    stands = at_once(chosen.clients)
    with socket.create_server(("127.0.0.1", 0)) as taken:
        stands &= ended("a port in use", "--port", taken.getsockname()[1])
    stands &= ended("an address elsewhere", "--port", free_port(), "--bind", ELSEWHERE)
    return 0 if stands else 1


if __name__ == "__main__":
    sys.exit(main())
