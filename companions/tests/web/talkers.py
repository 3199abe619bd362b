"""Guests who talk as much as they may, and one who floods past the go-between, as a program of its own so that they
take no time of the test's.

usage: talkers.py PORT GUESTS SERVER_PORT
  writes `ready` once all are in, and what came of it once it is told to end: how many lines were sent to the server's
  own port, how many were said of those of the guests, and with which codes guests were cut off. SERVER_PORT 0 is no
  flood.
"""

import asyncio
import os
import signal
import socket
import sys
import threading

import aiohttp

A_SECOND = 18  # lines that a guest sends, of which it may say far less
FLOOD = b"shout hi\n" * 200


class Guest:
    """A tab that shouts without end, and reads what it is told."""

    def __init__(self, socket: aiohttp.ClientWebSocketResponse) -> None:
        self.socket = socket
        self.is_in = asyncio.Event()
        self.said = 0
        self.is_cut_off = False

    async def read(self) -> None:
        async for message in self.socket:
            self.said += message.data.startswith("(told ")
            if message.data.startswith("Entered as "):
                self.is_in.set()
        self.is_cut_off = True

    async def talk(self) -> None:
        for n in range(10**9):
            await asyncio.sleep(1 / A_SECOND)
            await self.socket.send_str(f"shout this is line {n}, as long as people write them")


def flood(port: int, sent: list[int]) -> None:
    """Shouts by a plain link as fast as that is taken, without end."""
    link = socket.create_connection(("127.0.0.1", port))
    link.sendall(b"Flo\n")

    def read() -> None:
        while link.recv(1 << 20):
            pass

    threading.Thread(target=read, daemon=True).start()
    while True:
        link.sendall(FLOOD)
        sent[0] += FLOOD.count(b"\n")


async def main() -> None:
    port, count, server_port = map(int, sys.argv[1:])
    os.nice(5)  # they stand for other machines
    over = asyncio.Event()
    asyncio.get_running_loop().add_signal_handler(signal.SIGTERM, over.set)
    async with aiohttp.ClientSession(connector=aiohttp.TCPConnector(limit=0)) as session:
        links = [await session.ws_connect(f"http://127.0.0.1:{port}/link") for _ in range(count)]
        guests = [Guest(it) for it in links]
        tasks = [asyncio.create_task(it.read()) for it in guests]
        for it in guests:
            await it.socket.send_str("guest")
        await asyncio.gather(*(it.is_in.wait() for it in guests))
        sent = [0]
        if server_port:
            threading.Thread(target=flood, args=(server_port, sent), daemon=True).start()
        tasks += [asyncio.create_task(it.talk()) for it in guests]
        print("ready", flush=True)
        await over.wait()
        cut = [it.socket.close_code for it in guests if it.is_cut_off]
        print(f"{sent[0]} {sum(it.said for it in guests)} {cut}", flush=True)
        os._exit(0)


if __name__ == "__main__":
    asyncio.run(main())
