"""Tabs that do harm, as a program of their own so that they take no time of the test's: raw WebSockets.

usage: hostile.py KIND PORT TABS SECONDS
  writes `ready` once all have come, does harm for so many seconds or until all are closed, and then writes a line for
  each close that a tab was told: its code and its reason. A tab that was closed comes again at once, where KIND ends in
  `-again`, and that goes on for all of the seconds.
"""

import random
import selectors
import socket
import struct
import sys
import time

HANDSHAKE = (
    b"GET /link HTTP/1.1\r\nHost: 127.0.0.1\r\nConnection: Upgrade\r\nUpgrade: websocket\r\n"
    b"Sec-WebSocket-Version: 13\r\nSec-WebSocket-Key: AAAAAAAAAAAAAAAAAAAAAA==\r\n\r\n"
)
TEXT, PART, PING, PONG, CLOSE = 0x81, 0x00, 0x89, 0x8A, 0x8
BYTES_A_SECOND = 400_000  # of each tab
MASK = b"\1\2\3\4"


def frame(kind: int, payload: bytes = b"") -> bytes:
    """A frame as a browser sends it, masked."""
    masked = bytes(byte ^ MASK[n % 4] for n, byte in enumerate(payload))
    size = len(payload)
    head = bytes((kind, 0x80 | size)) if size < 126 else bytes((kind, 0xFE)) + struct.pack("!H", size)
    return head + MASK + masked


KINDS = {
    "pings": frame(PING),
    "pongs": frame(PONG),
    "lines": frame(TEXT),
    "long-lines": frame(TEXT, b"x" * 1000),
    "fragments": frame(0x01) + frame(PART) * 50,
    "silence": b"",
    "steady-lines": frame(TEXT, b"who"),
    "requests": b"GET / HTTP/1.1\r\nHost: 127.0.0.1\r\n\r\n",
    "bodies": b"POST / HTTP/1.1\r\nHost: 127.0.0.1\r\nContent-Length: 1000000000\r\n\r\n",  # and so the body
}
NO_TABS = KINDS["requests"], KINDS["bodies"]
RATES = {"steady-lines": 40 * len(frame(TEXT, b"who"))}


class Tab:
    """One tab, which sends what it sends, and takes to pieces what it is told."""

    def __init__(self, port: int, piece: bytes, rate: float) -> None:
        self.piece, self.rate = piece, rate
        self.link = socket.create_connection(("127.0.0.1", port), timeout=30)
        self.heard = b""
        self.is_tab = piece not in NO_TABS
        if self.is_tab:
            self.shake_hands()
        self.link.setblocking(False)
        self.sent, self.begin = 0, time.monotonic()

    def shake_hands(self) -> None:
        self.link.sendall(HANDSHAKE)
        while b"\r\n\r\n" not in self.heard:
            more = self.link.recv(4096)
            if not more:
                raise ConnectionError("refused")
            self.heard += more
        head, _, self.heard = self.heard.partition(b"\r\n\r\n")
        if b" 101 " not in head:
            raise ConnectionError(head)

    def send(self) -> None:
        """Sends as much as is due by now, from where it stopped."""
        due = int((time.monotonic() - self.begin) * self.rate) - self.sent
        if due > 0 and self.piece:
            at, count = self.sent % len(self.piece), due // len(self.piece) + 2
            try:
                self.sent += self.link.send((self.piece * count)[at:])
            except BlockingIOError:
                pass

    def close_told(self) -> str | None:
        """The code and the reason of a close, where one was told."""
        try:
            piece = self.link.recv(65536)
        except BlockingIOError:
            return None
        if not piece:
            return "0 without a word"
        if not self.is_tab:
            return None
        self.heard += piece
        while len(self.heard) >= 2:
            size, at = self.heard[1] & 0x7F, 2
            if size == 126:
                size, at = struct.unpack("!H", self.heard[2:4])[0], 4
            if len(self.heard) < at + size:
                return None
            kind, payload, self.heard = self.heard[0] & 0xF, self.heard[at : at + size], self.heard[at + size :]
            if kind == CLOSE:
                return f"{struct.unpack('!H', payload[:2])[0]} {payload[2:].decode()}"
        return None


def main() -> None:
    kind, (port, count, seconds) = sys.argv[1], map(int, sys.argv[2:])
    name, comes_again = kind.removesuffix("-again"), kind.endswith("-again")
    reads = "unread" not in name
    name = name.replace("unread-", "")
    piece, rate = KINDS[name], RATES.get(name, BYTES_A_SECOND)
    tabs = [Tab(port, piece, rate) for _ in range(count)]
    print("ready", flush=True)
    end = time.monotonic() + seconds
    for it in tabs:
        it.begin = time.monotonic()
    told = []
    with selectors.DefaultSelector() as selector:
        for it in tabs:
            selector.register(it.link, selectors.EVENT_READ, it)
        while time.monotonic() < end and (tabs or comes_again):
            for key, _ in selector.select(0.005) if reads else []:
                try:
                    why = key.data.close_told()
                except OSError:
                    why = "0 reset"
                if why:
                    selector.unregister(key.fileobj)
                    tabs.remove(key.data)
                    key.data.link.close()
                    told.append(why)
            for it in random.sample(tabs, len(tabs)):
                try:
                    it.send()
                except OSError:
                    it.piece = b""
            while comes_again and len(tabs) < count and time.monotonic() < end:
                try:
                    tabs.append(Tab(port, piece, rate))
                    selector.register(tabs[-1].link, selectors.EVENT_READ, tabs[-1])
                except OSError:
                    break
            if not reads:
                time.sleep(0.005)
    print("\n".join(told))


if __name__ == "__main__":
    main()
