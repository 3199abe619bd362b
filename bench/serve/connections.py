"""Many short connections one after the other, each a guest who comes in and quits; what they leave of the server:
resident memory, threads and descriptors, after the first thousand and after all."""

import os
import socket
import sys
import time
from pathlib import Path

from bench.measure import checked, machine, resident, status_of, words_for
from tests.kit import paths
from tests.kit.running import Server

FIRST = 1_000
# so many addresses of this machine are taken in turn, since a port of one rests for a minute after its connection
ADDRESSES = 8


def guest(port: int, number: int) -> None:
    """Comes in as a guest and quits; ends where the server doesn't take its leave."""
    home = (f"127.0.0.{number % ADDRESSES + 1}", 0)
    with socket.create_connection(("127.0.0.1", port), source_address=home) as link:
        link.sendall(b"guest\nquit\n")
        heard = b""
        while piece := link.recv(4096):
            heard += piece
    if not heard.endswith(b"Goodbye.\n\r"):
        sys.exit(f"connections: connection {number} was sent {heard!r}")


def size(process: int) -> str:
    """What a running process holds."""
    held = len(os.listdir(f"/proc/{process}/fd"))
    return f"{resident(process)} KiB resident, threads: {status_of(process, 'Threads')}, descriptors: {held}"


def main() -> None:
    words = words_for("fics_server", __doc__)
    words.add_argument("count", nargs="?", type=int, default=100_000, metavar="COUNT", help="%(default)s without it")
    chosen = words.parse_args()
    paths.program = Path(checked(chosen.program))
    print(machine())
    served = Server()
    try:
        start = time.monotonic()
        for number in range(chosen.count):
            if number == FIRST:
                time.sleep(0.5)  # for the sessions that end
                print(f"after {number} connections: {size(served.id)}", flush=True)
            guest(served.port, number)
        seconds = time.monotonic() - start
        time.sleep(0.5)
        print(f"after {chosen.count} connections: {size(served.id)}; {chosen.count / seconds:.0f} a second")
    finally:
        served.end()


if __name__ == "__main__":
    main()
