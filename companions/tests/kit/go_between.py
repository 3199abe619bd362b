"""The go-between for the browser."""

from pathlib import Path

from . import paths
from .ports import free_port
from .running import Run

FROM_ONE = ("--tabs-from-one", 256)  # of tests, whose tabs all come from one address


class GoBetween(Run):
    """The go-between before a server's port; `words` are those besides its ports and its page."""

    def __init__(self, server_port: int, words: tuple[object, ...] = FROM_ONE, page: Path = paths.PAGE) -> None:
        self.port = free_port()
        ports = "--server", f"127.0.0.1:{server_port}", "--listen", self.port
        super().__init__(paths.companion("fics_web"), *ports, "--web", page, *words)
        self.begin()

    def address(self, path: str = "/") -> str:
        return f"http://127.0.0.1:{self.port}{path}"
