"""A client that doesn't read, in the middle of a game: its connection ends, its opponent is told, and nobody else
waits."""

import socket
import time

from trials.client import Client

from .script import tell
from .server import Server, settles
from .witnesses import Witnesses

# the server waits 10 s for room of one byte, and once more where a write was made in part; machines are slow
MOST_SECONDS = 300


def drown(silent):
    """Sends lines with long answers until the connection is ended, and reads nothing. The seconds that it took."""
    start = time.monotonic()
    silent.link.settimeout(1)
    while time.monotonic() - start < MOST_SECONDS:
        try:
            silent.link.sendall(b"who\ngames\nrefresh\n" * 200)
        except socket.timeout:
            continue
        except OSError:
            return time.monotonic() - start
    return None


def main(given, tale):
    with Server(given.program) as server:
        witnesses = Witnesses(server.port, tale)
        threads, descriptors = server.threads(), server.descriptors()
        silent, opponent = Client(server.port, room=4096), Client(server.port)
        silent.enter(b"Silas")
        opponent.enter(b"Olga")
        silent.ask(b"match Olga 0 0 white")
        opponent.ask(b"accept")
        taken = drown(silent)
        tale.holds(taken is not None, f"the one that doesn't read was ended after {taken and round(taken)} s")
        opponent.until(b"Silas forfeits by disconnection} 0-1")
        tale.saw("its opponent was told that it lost by leaving")
        tale.holds(b"Silas" not in opponent.ask(b"who"), "it is in the hall no more")
        tale.holds(opponent.quit(), "its opponent took leave")
        silent.close()
        left = settles(server.threads, threads), settles(server.descriptors, descriptors)
        tale.holds(left == (threads, descriptors), f"{left[0]} threads and {left[1]} descriptors are left, as before")
        witnesses.finish()


if __name__ == "__main__":
    tell("silent", __doc__, main)
