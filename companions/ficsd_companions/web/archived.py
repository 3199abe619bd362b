"""The archive below `/games/`: pages, which are one file of the page, what they ask for as JSON, and games as PGN."""

import asyncio
import json
import logging
import sys
from collections.abc import Callable
from concurrent.futures import ThreadPoolExecutor
from functools import partial
from pathlib import Path
from typing import NoReturn, ParamSpec, TypeVar
from urllib.parse import urlencode

from aiohttp import web
from ficsd_companions.archive.addresses import LAST, PAGE, Place, place_of
from ficsd_companions.archive.answers import Archive
from ficsd_companions.archive.running import lines_of

from .pages import Pages

BEGINNING = "/games"
NOW = r"/now/{number:\d{1,6}}/{white:[A-Za-z]{3,17}}/{black:[A-Za-z]{3,17}}.json"
SHELL = "games.html"
A_LIST = 16  # requests as which a list counts, for which perhaps all games are looked through
MOST_ASKED = 100  # characters of each thing that an address asks for
TURN_SECONDS = 0.0005
ASKED = ("name", "other", "variant", "result", "before", "white", "black", "half-moves")
MOST_NAMES = 256 * 18  # characters of the names whose ratings are asked for

P = ParamSpec("P")
T = TypeVar("T")

logger = logging.getLogger("fics_web")


class Archived:
    """Answers by a thread of its own, so that nobody's move waits while files are read. It gives way every half a
    millisecond: by Python's usual five each step of an answer would wait so long while it searches."""

    def __init__(
        self, folder: Path, pages: Pages, take: Callable[[web.BaseRequest, int], bool], rates: bool = False
    ) -> None:
        """`take(request, n)` counts a request as n more of its address: whether that has so many. `rates` has ratings
        told too."""
        self.folder, self.archive, self.pages, self.take = folder, Archive(folder, rates), pages, take
        self.thread = ThreadPoolExecutor(1, "archive")
        sys.setswitchinterval(TURN_SECONDS)

    def add_routes(self, router: web.UrlDispatcher) -> None:
        router.add_get(BEGINNING, self.lead)
        router.add_get(BEGINNING + NOW, self.now)
        router.add_get(BEGINNING + "/{path:.*}", self.serve)

    async def begin(self) -> None:
        """Reads the archive before anybody asks for it."""
        try:
            await self.ask(self.archive.refresh)
        except Exception:  # the page is served all the same
            logger.exception("fics_web: the archive couldn't be read")

    def end(self) -> None:
        self.thread.shutdown(wait=False, cancel_futures=True)

    def ask(self, question: Callable[P, T], *words: P.args, **named: P.kwargs) -> asyncio.Future[T]:
        return asyncio.get_running_loop().run_in_executor(self.thread, partial(question, *words, **named))

    async def lead(self, _request: web.Request) -> NoReturn:
        raise web.HTTPMovedPermanently(BEGINNING + "/")

    async def serve(self, request: web.Request) -> web.Response:
        """A page, with status 404 where it has nothing to show; 404 alone for what is no place of the archive."""
        place = place_of(request.match_info["path"])
        if not place:
            raise web.HTTPNotFound
        asked = {name: request.query.get(name, "")[:MOST_ASKED] for name in ASKED}
        asked["names"] = request.query.get("names", "")[:MOST_NAMES]
        if place.kind == LAST:
            raise web.HTTPFound(await self.ask(self.address_of_last, asked))
        if place.form == PAGE:
            is_there = place.kind == "found" or await self.ask(self.archive.has, place)
            return self.pages.answer(request, SHELL, 200 if is_there else 404)
        return await (self.pgn(place) if place.form == "pgn" else self.told(request, place, asked))

    async def now(self, request: web.Request) -> web.Response:
        """What there was so far of a game that is played."""
        if not self.take(request, A_LIST):
            raise web.HTTPTooManyRequests(text="too many requests from this address")
        number, white, black = (request.match_info[it] for it in ("number", "white", "black"))
        lines = await self.ask(lines_of, self.folder, int(number), white, black)
        return web.Response(text=json.dumps(lines), content_type="application/json")

    async def told(self, request: web.Request, place: Place, asked: dict[str, str]) -> web.Response:
        """What a page shows, as JSON."""
        if place.kind not in ("game", "ratings") and not self.take(request, A_LIST):
            raise web.HTTPTooManyRequests(text="too many requests from this address")
        told = await self.ask(self.archive.told, place, asked)
        if told is None:
            raise web.HTTPNotFound
        return web.Response(text=json.dumps(told, separators=(",", ":")), content_type="application/json")

    async def pgn(self, place: Place) -> web.Response:
        """A game as a file to take along."""
        text = await self.ask(self.archive.pgn, place)
        if text is None:
            raise web.HTTPNotFound
        name = f"{place.day}-{place.number}.pgn"
        return web.Response(
            body=text,
            headers={
                "Content-Type": "application/x-chess-pgn; charset=utf-8",
                "Content-Disposition": f'attachment; filename="{name}"',
            },
        )

    def address_of_last(self, asked: dict[str, str]) -> str:
        """Where the game is that two have just ended, or as long as it isn't written all of theirs."""
        game = self.archive.last(asked["white"], asked["black"])
        if game and (game.result, str(game.half_moves)) == (asked["result"], asked["half-moves"]):
            return f"{BEGINNING}/{game.link}"
        return f"{BEGINNING}/?" + urlencode({"name": asked["white"], "other": asked["black"]})
