"""A file that is served: its type, its tag, and what it is where the browser takes it in small."""

import gzip
import hashlib

from aiohttp import ETag, web

TYPES = {
    ".html": "text/html; charset=utf-8",
    ".css": "text/css; charset=utf-8",
    ".js": "text/javascript; charset=utf-8",
    ".mjs": "text/javascript; charset=utf-8",
    ".json": "application/json",
    ".webmanifest": "application/manifest+json",
    ".txt": "text/plain; charset=utf-8",
    ".svg": "image/svg+xml",
    ".png": "image/png",
    ".ico": "image/vnd.microsoft.icon",
    ".woff2": "font/woff2",
}
SMALL_ALREADY = {".png", ".ico", ".woff2"}
LASTS = "public, max-age=31536000, immutable"  # a year, for what has a sum of its content in its name


class File:
    """A file of the page, by what its name ends in and what is in it, and whether its name is of this content alone."""

    def __init__(self, suffix: str, content: bytes, lasts: bool = False) -> None:
        self.headers = {"Content-Type": TYPES[suffix], "Vary": "Accept-Encoding"}
        if lasts:
            self.headers["Cache-Control"] = LASTS
        self.bytes = content
        self.zipped = None if suffix in SMALL_ALREADY else gzip.compress(content, mtime=0)
        self.sum = hashlib.sha256(content).hexdigest()[:32]

    def answer(self, request: web.BaseRequest, status: int = 200) -> web.Response:
        """The file as the answer to a request; 304 alone where the browser has it."""
        zipped = self.zipped if "gzip" in request.headers.get("Accept-Encoding", "") else None
        tag = ETag(self.sum + ("z" if zipped is not None else ""))
        if status == 200 and any(it.value in ("*", tag.value) for it in request.if_none_match or ()):
            response = web.Response(status=304, headers=self.headers)
            del response.headers["Content-Type"]
        elif zipped is not None:
            response = web.Response(status=status, body=zipped, headers={**self.headers, "Content-Encoding": "gzip"})
        else:
            response = web.Response(status=status, body=self.bytes, headers=self.headers)
        response.etag = tag
        return response
