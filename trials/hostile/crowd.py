"""300 connections at once, to a hall of 256: who finds it full is told so, comes in once others have gone, and all of
them take leave; then the server ends by itself."""

import threading

from trials.client import Client

from .script import tell
from .server import Server

CROWD = 300
ROOM = 256


def name(number):
    return b"C" + bytes([97 + number // 26, 97 + number % 26])


class Guest(threading.Thread):
    """One of the crowd: it comes, waits until all have tried to come in and were counted, and leaves once it may."""

    def __init__(self, port, number, tried, counted, leaves):
        super().__init__(daemon=True)
        self.port, self.number, self.tried, self.counted, self.leaves = port, number, tried, counted, leaves
        self.first = None
        self.fault = None
        self.start()

    def run(self):
        try:
            self.come()
        except (OSError, ValueError, EOFError) as fault:
            self.fault = fault
            self.tried.abort()
        except threading.BrokenBarrierError:
            pass

    def come(self):
        client = Client(self.port)
        self.first = answer = client.enter(name(self.number))
        self.tried.wait()
        self.counted.wait()
        if answer.startswith(b"Entered"):
            self.leaves.acquire()
        while answer == b"refused 25 HallFull\n\rlogin: ":
            self.leaves.release()  # somebody may go
            answer = client.ask(name(self.number))
        if answer != b"Entered as %s.\n\rfics%% " % name(self.number):
            raise ValueError(f"{self.number} was answered {answer!r}")
        if client.ask(b"inchannel 7") != b"none\n\rfics% ":
            raise ValueError(f"{self.number} isn't answered")
        if client.lines != client.answers or not client.quit():
            raise ValueError(f"{self.number} was answered {client.answers} times to {client.lines} lines")


def main(given, tale):
    with Server(given.program, "--count", str(CROWD)) as server:
        tried, counted, leaves = threading.Barrier(CROWD + 1), threading.Event(), threading.Semaphore(0)
        guests = [Guest(server.port, number, tried, counted, leaves) for number in range(CROWD)]
        try:
            tried.wait()
        except threading.BrokenBarrierError:
            pass
        entered = sum(it.first is not None and it.first.startswith(b"Entered") for it in guests)
        full = sum(it.first == b"refused 25 HallFull\n\rlogin: " for it in guests)
        tale.holds(
            (entered, full) == (ROOM, CROWD - ROOM), f"{entered} came in at first, {full} were told that it is full"
        )
        tale.saw(f"with all of them: {server.size()}")
        counted.set()
        for _ in range(ROOM):
            leaves.release()
        for guest in guests:
            guest.join()
        faults = [it.fault for it in guests if it.fault]
        tale.holds(not faults, f"{CROWD - len(faults)} were answered each line and took leave {faults[:3] or ''}")
        server.ends(tale)


if __name__ == "__main__":
    tell("crowd", __doc__, main)
