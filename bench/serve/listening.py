"""When a server of these timings listens: the echo server writes no `ready`."""

import socket
import sys

from tests.kit.running import wait_until


def wait_for(port: int) -> None:
    """Waits until somebody listens."""

    def listens() -> bool:
        try:
            socket.create_connection(("127.0.0.1", port)).close()
        except OSError:
            return False
        return True

    if not wait_until(listens, seconds=10):
        sys.exit("bench: the server doesn't listen")
