"""The page's files, and the headers of all that is served."""

import asyncio
from pathlib import Path

from aiohttp import web

from .files import TYPES, File
from .packed import Packed

# nothing foreign comes in, and no other page can show this one in a frame
HEADERS = {
    "Content-Security-Policy": "default-src 'self'; base-uri 'none'; form-action 'self'; frame-ancestors 'none'",
    "Cross-Origin-Opener-Policy": "same-origin",
    "Cross-Origin-Resource-Policy": "same-origin",
    "Referrer-Policy": "no-referrer",
    "Server": "fics_web",
    "X-Content-Type-Options": "nosniff",
    "X-Frame-Options": "DENY",
}
INDEX = "index.html"


async def add_headers(_request: web.BaseRequest, response: web.StreamResponse) -> None:
    """Puts the headers on every response."""
    response.headers.update(HEADERS)
    response.headers.setdefault("Cache-Control", "no-cache")


def is_foreign(request: web.BaseRequest) -> bool:
    """Whether a page of another address asks. What is no browser names no origin."""
    origin = request.headers.get("Origin")
    return origin is not None and origin.partition("://")[2].lower() != request.host.lower()


State = tuple[int, int, int]  # when a file was written, its size, and which one it is


class Pages:
    """The files of one folder, of the types that are known: packed, and each as it stands. They are kept in memory and
    looked at anew each time: a page is many small ones, which take longer to open than to send."""

    def __init__(self, folder: Path) -> None:
        self.folder = folder.resolve()
        self.files: dict[Path, tuple[State, File]] = {}  # by their paths
        self.packed = Packed(self.folder)
        self.turn = asyncio.Lock()

    async def serve(self, request: web.Request) -> web.Response:
        """A file; 404 where there is none of that name and of a known type within the folder. In one turn of the loop
        one is answered, so that no line waits behind many."""
        async with self.turn:
            await asyncio.sleep(0)
        return self.answer(request, request.match_info["name"] or INDEX)

    def answer(self, request: web.Request, name: str, status: int = 200) -> web.Response:
        """The file of that name as the answer to a request."""
        return (self.packed.find(name) or self.file(name)).answer(request, status)

    def file(self, name: str) -> File:
        try:
            path = (self.folder / name).resolve()
            if not path.is_relative_to(self.folder) or path.suffix not in TYPES or not path.is_file():
                raise web.HTTPNotFound
            found = path.stat()
            state = found.st_mtime_ns, found.st_size, found.st_ino
            if path not in self.files or self.files[path][0] != state:
                self.files[path] = state, File(path.suffix, path.read_bytes())
            return self.files[path][1]
        except (OSError, ValueError):  # a name that no file can have, or one that has just gone
            raise web.HTTPNotFound from None
