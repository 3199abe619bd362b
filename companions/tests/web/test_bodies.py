"""A request has no body, nothing stands between requests, and a tab's frames have masks: who sends else is refused or
cut off, and isn't read any further."""

import asyncio
import re

import pytest

from .hostile import HANDSHAKE, TEXT, frame
from .played import Played

GET = b"GET / HTTP/1.1\r\nHost: 127.0.0.1\r\n\r\n"
SECONDS = 5  # for what is cut off at once


async def sent(played: Played, *pieces: bytes) -> tuple[asyncio.StreamReader, asyncio.StreamWriter]:
    reader, writer = await asyncio.open_connection("127.0.0.1", played.go_between.port)
    for it in pieces:
        writer.write(it)
        await writer.drain()
    return reader, writer


async def rest(reader: asyncio.StreamReader) -> bytes:
    """What comes up to the end of a connection, which is there soon."""
    text = b""
    try:
        async with asyncio.timeout(SECONDS):
            while piece := await reader.read(65536):
                text += piece
    except ConnectionError:
        pass
    return text


@pytest.mark.parametrize("head", [b"Content-Length: 1000000", b"Transfer-Encoding: chunked"])
@pytest.mark.parametrize("method", [b"POST", b"GET", b"PUT"])
async def test_a_body_is_refused_and_not_read(played: Played, method: bytes, head: bytes) -> None:
    request = method + b" / HTTP/1.1\r\nHost: 127.0.0.1\r\n" + head + b"\r\n\r\n"
    before = played.go_between.exact_seconds()
    reader, writer = await sent(played, request)
    writer.write(b"ffff\r\n" + b"x" * 65535)
    text = await rest(reader)
    assert text.startswith(b"HTTP/1.1 400 ")
    assert b"no request has a body here" in text
    assert text.count(b"HTTP/1.1 ") == 1
    assert played.go_between.exact_seconds() - before < 0.1
    writer.close()


async def test_a_body_of_no_bytes_is_none(played: Played) -> None:
    reader, writer = await sent(played, GET.replace(b"\r\n\r\n", b"\r\nContent-Length: 0\r\n\r\n"))
    assert b" 200 " in await reader.readline()
    writer.close()


async def test_requests_behind_each_other(played: Played) -> None:
    """Also where they are cut anywhere, and one blank line stands before one (RFC 9112, 2.2)."""
    reader, writer = await sent(played, *(bytes((it,)) for it in b"\r\n" + GET), GET + b"\r\n", GET)
    text = b""
    async with asyncio.timeout(SECONDS):
        while text.count(b"<title>A page</title>") < 3:
            text += await reader.read(65536)
    assert len(re.findall(rb"HTTP/1.1 200 ", text)) == 3
    writer.close()


@pytest.mark.parametrize("blank", [b"\r\n\r\n", b"\n\n\n", b"\r\n" * 1000])
async def test_lines_where_none_belong(played: Played, blank: bytes) -> None:
    for before in (b"", GET):
        reader, writer = await sent(played, before)
        if before:
            text = b""
            while b"<title>A page</title>" not in text:
                text += await reader.read(65536)
        writer.write(blank)
        assert await rest(reader) == b""
        writer.close()


async def close_of(reader: asyncio.StreamReader) -> tuple[int, bytes]:
    """The code and the reason of a tab's close; other frames are passed over."""
    async with asyncio.timeout(SECONDS):
        while True:
            kind, size = await reader.readexactly(2)
            if size == 126:
                size = int.from_bytes(await reader.readexactly(2), "big")
            text = await reader.readexactly(size)
            if kind == 0x88:
                return int.from_bytes(text[:2], "big"), text[2:]


@pytest.mark.parametrize("size", [0, 5, 126, 1000])
async def test_a_frame_without_a_mask(played: Played, size: int) -> None:
    """Behind frames that have one."""
    reader, writer = await sent(played, HANDSHAKE)
    end = await played.end()
    await end.say("Free Internet Chess Server profile\n\rlogin: ")
    await reader.readuntil(b"\r\n\r\n")
    for masked in (frame(TEXT, b"Ann"), frame(TEXT, b"x" * 200)):
        writer.write(masked)
    head = bytes((TEXT, size)) if size < 126 else bytes((TEXT, 126)) + size.to_bytes(2, "big")
    writer.write(head + b"y" * size)
    assert await close_of(reader) == (1002, b"a frame without a mask")
    assert b"y" not in await end.line() + await end.reader.read(0)
    writer.close()


async def test_frames_with_masks_however_they_are_cut(played: Played) -> None:
    reader, writer = await sent(played, HANDSHAKE)
    end = await played.end()
    await end.say("Free Internet Chess Server profile\n\rlogin: ")
    await reader.readuntil(b"\r\n\r\n")
    for it in frame(TEXT, b"Ann"):
        writer.write(bytes((it,)))
        await writer.drain()
        await asyncio.sleep(0)
    assert await end.line() == b"Ann\n"
    await end.say("Entered as Ann.\n\rfics% ")
    for text in (b"x" * 125, b"x" * 126, b"x" * 1000):
        writer.write(frame(TEXT, text))
        assert await end.line() == text + b"\n"
    writer.close()
