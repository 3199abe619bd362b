"""A server that may have 64 descriptors, and 100 who come at once: who finds no room waits until others have gone, and
all are answered in the end."""

import resource
import threading

from trials.client import Client

from .script import tell
from .server import Server

DESCRIPTORS = 64
CROWD = 100


def few_descriptors():
    resource.setrlimit(resource.RLIMIT_NOFILE, (DESCRIPTORS, DESCRIPTORS))


class Guest(threading.Thread):
    """One who comes in, and stays until the crowd has come or some of it waits."""

    def __init__(self, port, number, stays):
        super().__init__(daemon=True)
        self.port, self.number, self.stays = port, number, stays
        self.greeted = threading.Event()
        self.fault = None
        self.start()

    def run(self):
        try:
            client = Client(self.port)
            client.enter(b"D" + bytes([97 + self.number // 26, 97 + self.number % 26]))
            self.greeted.set()
            self.stays.wait()
            if client.ask(b"inchannel 7") != b"none\n\rfics% " or not client.quit():
                raise ValueError(f"{self.number} isn't answered")
        except (OSError, ValueError, EOFError) as fault:
            self.fault = fault


def main(given, tale):
    with Server(given.program, "--count", str(CROWD), before=few_descriptors) as server:
        stays = threading.Event()
        guests = [Guest(server.port, number, stays) for number in range(CROWD)]
        threading.Event().wait(3)
        greeted = sum(it.greeted.is_set() for it in guests)
        tale.holds(
            0 < greeted < DESCRIPTORS and server.is_up(), f"{greeted} of {CROWD} were greeted at first: {server.size()}"
        )
        stays.set()
        for guest in guests:
            guest.join()
        faults = [it.fault for it in guests if it.fault]
        tale.holds(not faults, f"{CROWD - len(faults)} were answered and took leave {faults[:3] or ''}")
        server.ends(tale)


if __name__ == "__main__":
    tell("descriptors", __doc__, main)
