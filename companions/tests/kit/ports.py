"""Ports that nobody has."""

import itertools
import random
import socket

# below those that the system gives to clients, which could take one before the server does
PORTS = itertools.cycle(random.sample(range(20000, 32000), 12000))


def is_free(port: int) -> bool:
    try:
        with socket.create_server(("127.0.0.1", port)):
            return True
    except OSError:
        return False


def free_port() -> int:
    """A port that nobody has now, and another one at each call."""
    return next(filter(is_free, PORTS))


def free_ports_for_a_club() -> int:
    """A port behind which the second one is free too, as a club wants them."""
    return next(it for it in PORTS if is_free(it) and is_free(it + 2))
