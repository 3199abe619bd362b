"""Stands between a connection's socket and what reads it, so that nobody's bytes keep others waiting or heap up.

Of each connection a small piece is read in one turn of the loop, and none of a tab whose last piece isn't dealt with,
or of another connection whose requests aren't answered. A connection that doesn't get on is cut off; so is one for
which there is no room, before a byte of it is read."""

import asyncio
import socket
from collections.abc import Callable
from typing import Protocol

from aiohttp import WSCloseCode, web
from ficsd_companions.limits.pace import Flood, Pace, untaken
from ficsd_companions.limits.refused import Refused

from .closes import Closed
from .frames import Frames

PIECE, TAB_PIECE = 256, 96  # bytes; a tab's may be as many messages as a sixth of that
MOST_IN_PIECES = 8192  # bytes without a whole message, which is longer than the longest one
UNSENT = 65536  # bytes that wait for a socket before who writes has to
UNSENT_AGAIN = UNSENT // 2  # bytes that still wait as who writes goes on; with fewer nobody ever waits
MOST_BLANK = 1  # lines before a request, where none belong (RFC 9112, 2.2)
UNMASKED = "a frame without a mask"
ASKING_SECONDS = 10  # for a request to come
ANSWERED_SECONDS = 60  # for its answer to go, and the next request to come


class Doorkeeper(Protocol):
    """Who lets connections in, is told of them, and counts what is refused."""

    refused: Refused

    def lets_in(self, gate: "Gate") -> bool:
        """Whether a connection may come."""

    def lets_out(self, gate: "Gate") -> None:
        """A connection that was let in is gone."""

    def has_tab(self, gate: "Gate") -> None:
        """A connection has become a tab."""


class Gate(asyncio.BufferedProtocol):
    """One connection. `porter` says whether it may come; `serving` makes the protocol that it is for, its `handler`."""

    room = memoryview(bytearray(PIECE))  # one for all, since what is read is taken at once

    transport: asyncio.Transport
    handler: asyncio.Protocol
    socket: socket.socket
    peer: str  # its address
    visitor: str  # the address of who asks by it, behind a proxy
    pace: Pace  # of a tab
    flooded: asyncio.Future[None] | None = None  # which ends where a tab has sent too much

    def __init__(self, porter: Doorkeeper, serving: Callable[[], asyncio.Protocol]) -> None:
        self.porter, self.serving = porter, serving
        self.timer: asyncio.TimerHandle | None = None
        self.is_in = self.is_lost = self.is_tab = self.is_at_work = self.is_held = self.goes_on = False
        self.is_last = False  # no further request is taken
        self.unfinished = 0  # bytes since the last whole message
        self.asked = self.answered = 0  # requests
        self.is_between, self.has_line, self.blank = (
            True,
            False,
            0,
        )  # no request has begun; a line has; lines before one
        self.frames = Frames()

    # ---- what the loop calls ----

    def connection_made(self, transport: asyncio.BaseTransport) -> None:
        assert isinstance(transport, asyncio.Transport)
        self.transport = transport
        self.peer = transport.get_extra_info("peername")[0]
        if not self.porter.lets_in(self):
            transport.abort()
            return
        self.is_in = True
        self.socket = transport.get_extra_info("socket")
        self.socket.setsockopt(socket.SOL_SOCKET, socket.SO_SNDBUF, UNSENT)
        transport.set_write_buffer_limits(high=UNSENT, low=UNSENT_AGAIN)
        self.expect(ASKING_SECONDS)
        self.handler = self.serving()
        self.handler.connection_made(transport)

    def get_buffer(self, sizehint: int) -> memoryview:
        return self.room[:TAB_PIECE] if self.is_tab else self.room

    def buffer_updated(self, nbytes: int) -> None:
        if not self.is_in:
            return
        if self.flooded and not self.flooded.done():
            try:
                self.count_piece(nbytes)
            except Flood as flood:
                self.flooded.set_exception(flood)
                self.hold()
                return
        piece = bytes(self.room[:nbytes])
        if not (self.has_masks(piece) if self.is_tab else self.counts_requests(piece)):
            return
        self.handler.data_received(piece)
        if self.is_at_work if self.is_tab else self.asked > self.answered:
            self.hold()

    def counts_requests(self, piece: bytes) -> bool:
        """Counts the requests that end in a piece, each with an empty line; the handler would take any number of them
        ahead of its answers. Whether the connection goes on: where lines come that belong to none it is cut off."""
        *lines, rest = piece.replace(b"\r", b"").split(b"\n")
        for line in lines:
            is_blank, self.has_line = not line and not self.has_line, False
            if is_blank and self.is_between:
                self.blank += 1
            elif is_blank:
                self.asked += 1
                self.is_between, self.blank = True, 0
            else:
                self.is_between = False
        self.has_line = self.has_line or bool(rest)
        if self.blank > MOST_BLANK:
            self.abort()
        return self.blank <= MOST_BLANK

    def has_masks(self, piece: bytes) -> bool:
        """Whether the frames of a piece have masks, without which a tab is closed (RFC 6455, 5.1)."""
        are_masked = self.frames.are_masked(piece)
        if not are_masked and self.flooded and not self.flooded.done():
            self.flooded.set_exception(Closed(WSCloseCode.PROTOCOL_ERROR, UNMASKED))
            self.hold()
        elif not are_masked:
            self.abort()
        return are_masked

    def count_piece(self, length: int) -> None:
        self.pace.piece(length)
        self.unfinished += length
        if self.unfinished > MOST_IN_PIECES:
            raise Flood(f"a flood: more than {MOST_IN_PIECES} bytes that are no whole message")

    def eof_received(self) -> bool | None:
        return self.handler.eof_received() if self.is_in else None

    def pause_writing(self) -> None:
        self.handler.pause_writing()

    def resume_writing(self) -> None:
        self.handler.resume_writing()

    def connection_lost(self, exc: Exception | None) -> None:
        self.is_lost = True
        if self.is_in:
            self.expect(None)
            self.porter.lets_out(self)
            self.handler.connection_lost(exc)

    # ---- what the go-between calls ----

    def expect(self, seconds: float | None) -> None:
        """Cuts the connection off in so many seconds, unless something else is expected by then."""
        if self.timer:
            self.timer.cancel()
        self.timer = asyncio.get_running_loop().call_later(seconds, self.abort) if seconds else None

    def has_asked(self) -> None:
        """A request has come; its answer is to go."""
        if not self.is_tab:
            self.expect(ANSWERED_SECONDS)

    def has_answered(self) -> None:
        """The answer to a request is made, and more may be read behind the last one."""
        self.answered += 1
        if not self.is_tab and self.answered >= self.asked and not self.is_last:
            self.free()

    def ends(self, seconds: float) -> None:
        """No more is read, and in so many seconds at the latest the connection ends."""
        self.is_last = True
        self.hold()
        self.expect(seconds)

    def abort(self) -> None:
        """Ends the connection at once, whatever wasn't written."""
        self.transport.abort()

    @property
    def unsent(self) -> int:
        """How many bytes wait for the socket."""
        return self.transport.get_write_buffer_size()

    @property
    def untaken(self) -> int:
        """How many bytes the other side hasn't taken; behind a proxy, how many that hasn't."""
        return 0 if self.is_lost or self.transport.is_closing() else self.unsent + untaken(self.socket)

    def become_tab(self) -> None:
        """From now on the connection is a tab, of which no more is read until it is `free`."""
        self.expect(None)
        self.is_tab = self.is_at_work = True
        self.porter.has_tab(self)

    def count(self, pace: Pace) -> asyncio.Future[None]:
        """Counts the bytes of the tab. What is returned ends with a `Flood` where there are too many."""
        self.pace, self.flooded = pace, asyncio.get_running_loop().create_future()
        return self.flooded

    def free(self) -> None:
        """What was read is about to be dealt with, and then more may be read."""
        self.is_at_work = False
        if self.is_held and not self.goes_on:
            self.goes_on = True
            asyncio.get_running_loop().call_soon(self.go_on)

    def busy(self) -> None:
        """A message was read that isn't dealt with."""
        self.is_at_work = True
        self.unfinished = 0

    def hold(self) -> None:
        self.is_held = True
        self.transport.pause_reading()

    def go_on(self) -> None:
        self.goes_on = False
        if self.is_held and not self.is_at_work and not self.transport.is_closing():
            self.is_held = False
            self.transport.resume_reading()


def gate_of(request: web.BaseRequest) -> Gate:
    """The gate by which a request has come; `ConnectionResetError` where the connection is gone."""
    gate = request.transport and request.transport.get_protocol()
    if not isinstance(gate, Gate):
        raise ConnectionResetError
    return gate
