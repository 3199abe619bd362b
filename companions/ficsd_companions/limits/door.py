"""A door at which many may wait, and few come in at once, so that no link waits behind a crowd."""

import asyncio
import os
import socket
from collections.abc import Callable

WAITING = 256  # connections
A_TURN = 4  # of them that come in in one turn of the loop


async def opened(newcomer: Callable[[], asyncio.BaseProtocol], address: str, port: int) -> asyncio.Server:
    """A door where `newcomer` makes the protocol of each connection. An `OSError` comes where it isn't to be had."""
    # asyncio takes in as many in one turn as it is told may wait
    door = await asyncio.get_running_loop().create_server(newcomer, address, port, backlog=A_TURN)
    for it in door.sockets:
        with socket.socket(fileno=os.dup(it.fileno())) as same:
            same.listen(WAITING)
    return door
