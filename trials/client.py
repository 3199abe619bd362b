"""A link of bytes to a server: its answers and its news, one after the other."""

import select
import socket
import time

HOME = "127.0.0.1"
PROMPTS = (b"login: ", b"password: ", b"fics% ")
FAREWELL = b"Goodbye.\n\r"
GREETING = b"Free Internet Chess Server profile\n\rlogin: "

# a slow machine, or the program with checks, may take so long for an answer
PATIENCE = 120.0


class Client:
    """One link. What comes is cut behind each prompt; a part that begins with an empty line is news, which came without
    a line being sent, and any other one is the greeting or the answer to a line."""

    def __init__(self, port: int, room: int | None = None) -> None:
        self.link = socket.socket()
        if room:
            self.link.setsockopt(socket.SOL_SOCKET, socket.SO_RCVBUF, room)
        self.link.settimeout(PATIENCE)
        self.link.connect((HOME, port))
        self.link.setsockopt(socket.IPPROTO_TCP, socket.TCP_NODELAY, 1)
        self.heard = b""
        self.news: list[bytes] = []
        self.lines = 0  # how many were sent
        self.answers = 0  # how many of them were answered

    def part(self) -> bytes | None:
        """The next whole part of what was heard; none where it isn't whole yet."""
        ends = [self.heard.find(it) + len(it) for it in PROMPTS if it in self.heard]
        if not ends and self.heard.endswith(FAREWELL):
            ends = [len(self.heard)]
        if not ends:
            return None
        part, self.heard = self.heard[: min(ends)], self.heard[min(ends) :]
        return part

    def hear(self, seconds: float = PATIENCE) -> bytes:
        """The next part; an error where none comes in that time, or the link is closed."""
        end = time.monotonic() + seconds
        while (part := self.part()) is None:
            if not select.select([self.link], [], [], max(0, end - time.monotonic()))[0]:
                raise TimeoutError(f"nothing came in {seconds} s behind {self.heard!r}")
            piece = self.link.recv(65536)
            if not piece:
                raise EOFError(f"the link was closed behind {self.heard!r}")
            self.heard += piece
        return part

    def answer(self, seconds: float = PATIENCE) -> bytes:
        """The next part that is an answer; news is kept aside."""
        while (part := self.hear(seconds)).startswith(b"\n\r"):
            self.news.append(part)
        self.answers += 1
        return part

    def say(self, text: bytes) -> None:
        self.lines += 1
        self.link.sendall(text + b"\n")

    def ask(self, text: bytes, seconds: float = PATIENCE) -> bytes:
        """What a line is answered."""
        self.say(text)
        return self.answer(seconds)

    def enter(self, name: bytes) -> bytes:
        """Comes in under this name."""
        greeting = self.hear()
        if greeting != GREETING:
            raise ValueError(f"greeted by {greeting!r}")
        return self.ask(name)

    def until(self, text: bytes, seconds: float = PATIENCE) -> None:
        """Waits for news with this text in it."""
        end = time.monotonic() + seconds
        while not any(text in it for it in self.news):
            part = self.hear(max(0.1, end - time.monotonic()))
            if not part.startswith(b"\n\r"):
                raise ValueError(f"an answer that nobody asked for: {part!r}")
            self.news.append(part)

    def quit(self) -> bool:
        """Quits, and reads to the end; whether the server took its leave."""
        self.say(b"quit")
        while piece := self.link.recv(65536):
            self.heard += piece
        self.close()
        return self.heard.endswith(FAREWELL)

    def reset(self) -> None:
        """Cuts the connection off, so that the server is told of a reset and of no end."""
        self.link.setsockopt(socket.SOL_SOCKET, socket.SO_LINGER, b"\1\0\0\0\0\0\0\0")
        self.link.close()

    def close(self) -> None:
        self.link.close()
