"""A request by HTTP, at exactly a path, and its answer."""

import asyncio
from typing import NamedTuple


class Answer(NamedTuple):
    """The names and the values of the headers are in small letters."""

    status: int
    headers: dict[str, str]
    body: str


async def asked(
    port: int, path: str = "/", host: str = "localhost", method: str = "GET", source: str | None = None, **headers: str
) -> Answer:
    """Asks the go-between at a port, from an address of one's own where one is named. In the names of headers _ stands
    for a hyphen."""
    reader, writer = await asyncio.open_connection("127.0.0.1", port, local_addr=(source, 0) if source else None)
    lines = [f"{method} {path} HTTP/1.1", f"Host: {host}", "Connection: close"]
    lines += [f"{name.replace('_', '-')}: {value}" for name, value in headers.items()]
    writer.write("\r\n".join([*lines, "", ""]).encode())
    try:
        head, _, body = (await reader.read()).partition(b"\r\n\r\n")
    finally:
        writer.close()
    first, *rest = head.decode().split("\r\n")
    pairs = (it.lower().partition(": ") for it in rest)
    return Answer(int(first.split()[1]), {name: value for name, _, value in pairs}, body.decode())
