"""Reads a socket in small pieces, so that one turn of the loop takes little of each of many."""

import asyncio

PIECE = 256


class Pieces(asyncio.BufferedProtocol):
    """Hands what comes on to another protocol, which may be one of asyncio's streams."""

    room = memoryview(bytearray(PIECE))  # one for all, since what is read is taken at once

    def __init__(self, protocol: asyncio.Protocol) -> None:
        self.protocol = protocol
        for name in ("connection_made", "connection_lost", "pause_writing", "resume_writing", "eof_received"):
            setattr(self, name, getattr(protocol, name))

    def get_buffer(self, sizehint: int) -> memoryview:
        return self.room

    def buffer_updated(self, nbytes: int) -> None:
        self.protocol.data_received(bytes(self.room[:nbytes]))
