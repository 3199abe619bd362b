"""A plain link to a server or a go-between: what comes, line by line."""

import re
import select
import socket
import time

PATIENCE = 60.0


class Link:
    """A link whose lines are kept in the order in which they came."""

    def __init__(self, port: int) -> None:
        self.link = socket.create_connection(("127.0.0.1", port))
        self.heard = ""
        self.lines: list[str] = []  # every line that has come
        self.read = 0  # how many of them were looked at

    def say(self, *lines: str) -> None:
        """Sends lines in one piece."""
        self.link.sendall("".join(it + "\n" for it in lines).encode())

    def hear(self, deadline: float) -> None:
        """Takes what comes next."""
        if not select.select([self.link], [], [], max(0, deadline - time.monotonic()))[0]:
            raise TimeoutError(f"nothing more behind {self.lines[-4:]}")
        piece = self.link.recv(65536)
        if not piece:
            raise EOFError(f"closed behind {self.lines[-4:]}")
        *lines, self.heard = (self.heard + piece.decode("latin-1")).replace("\r", "").split("\n")
        self.lines += [re.sub(r"^(fics% )+", "", it) for it in lines]

    def until(self, pattern: str, seconds: float = PATIENCE) -> re.Match[str]:
        """The next line in which the pattern is found, as its match."""
        deadline = time.monotonic() + seconds
        while True:
            while self.read < len(self.lines):
                self.read += 1
                match = re.search(pattern, self.lines[self.read - 1])
                if match:
                    return match
            self.hear(deadline)

    def until_prompt(self, prompt: str, seconds: float = PATIENCE) -> None:
        """Waits for a prompt, which has no end of line."""
        deadline = time.monotonic() + seconds
        while not self.heard.endswith(prompt):
            self.hear(deadline)
