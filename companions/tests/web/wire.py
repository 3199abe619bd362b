"""A wire between browsers and the go-between, which a test can cut."""

import contextlib
import socket
import threading


class Wire:
    """Hands on what comes to a port of its own, both ways, until it is cut."""

    def __init__(self, target: int) -> None:
        self.target, self.is_cut = target, False
        self.links: list[socket.socket] = []
        self.door = socket.create_server(("127.0.0.1", 0))
        self.port = self.door.getsockname()[1]
        threading.Thread(target=self.take, daemon=True).start()

    def take(self) -> None:
        with contextlib.suppress(OSError):  # of a door that is closed
            while True:
                self.connect(self.door.accept()[0])

    def connect(self, near: socket.socket) -> None:
        try:
            if self.is_cut:
                raise ConnectionRefusedError
            far = socket.create_connection(("127.0.0.1", self.target))
        except OSError:
            near.close()
            return
        self.links += [near, far]
        for one, other in ((near, far), (far, near)):
            threading.Thread(target=self.hand_on, args=(one, other), daemon=True).start()

    def hand_on(self, one: socket.socket, other: socket.socket) -> None:
        with contextlib.suppress(OSError):
            while piece := one.recv(65536):
                other.sendall(piece)
        shut(one, other)

    def cut(self, stays: bool = False) -> None:
        """Cuts all that goes through it; where it stays cut, nobody comes through until `mend`."""
        self.is_cut = stays
        shut(*self.links)
        self.links.clear()

    def mend(self) -> None:
        self.is_cut = False

    def close(self) -> None:
        self.door.close()
        self.cut()

    def address(self, path: str = "/") -> str:
        return f"http://127.0.0.1:{self.port}{path}"


def shut(*links: socket.socket) -> None:
    for it in links:
        with contextlib.suppress(OSError):
            it.shutdown(socket.SHUT_RDWR)
