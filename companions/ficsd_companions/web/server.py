"""Serves the page, and a link for each tab, until the chess server has ended."""

import asyncio
import signal
from asyncio import StreamReader, StreamWriter

from aiohttp import web
from aiohttp.typedefs import Handler
from ficsd_companions.limits import door
from ficsd_companions.limits.refused import Refused, Why

from .archived import Archived
from .gate import Gate, gate_of
from .hosts import Hosts
from .pages import Pages, add_headers
from .porter import REFUSED_REQUESTS, Porter
from .proxies import Proxies
from .server_end import PIECE
from .settings import Settings
from .tabs import Tabs

LAST_WORDS_SECONDS = 10
KEEP_ALIVE_SECONDS = 15
BODY_SECONDS = 1  # for who sends a body to read that it has none to send


def closing(refusal: web.HTTPException) -> web.HTTPException:
    """A refusal behind which the connection is closed."""
    refusal.force_close()
    return refusal


class GoBetween:
    """The go-between of one server. A link of its own, which stays at the login, tells when the server has ended."""

    over: asyncio.Future[bool]  # ends with whether the server has ended

    def __init__(self, settings: Settings) -> None:
        self.server = settings.server
        self.hosts, self.pages = Hosts(settings.hosts), Pages(settings.folder)
        self.refused = Refused("fics_web", settings.counts)
        self.porter = Porter(Proxies(settings.proxies), settings.tabs_from_one, self.refused)
        self.archived = (
            Archived(settings.archive, self.pages, self.counts, settings.rates) if settings.archive else None
        )
        self.tabs = Tabs(settings, self.porter)

    async def serve(self, address: str, port: int) -> bool:
        """Serves tabs until the server has ended, or a signal has come: whether the server has ended. An `OSError`
        comes where server or port isn't to be had."""
        loop = asyncio.get_running_loop()
        watch = await asyncio.open_connection(*self.server)
        self.over = loop.create_future()
        for number in (signal.SIGINT, signal.SIGTERM):
            loop.add_signal_handler(number, self.end, False)
        runner = web.AppRunner(self.app(), access_log=None, keepalive_timeout=KEEP_ALIVE_SECONDS, lingering_time=0)
        await runner.setup()
        assert runner.server
        serving: web.Server = runner.server
        work = [
            self.watch(*watch),
            self.refused.tell(),
            self.tabs.lists.run(),
            *([self.archived.begin()] if self.archived else []),
        ]
        tasks = [asyncio.create_task(it) for it in work]
        try:
            opening = await door.opened(lambda: Gate(self.porter, serving), address, port)
            print("ready", flush=True)
            has_ended = await self.over
            opening.close()
            if not has_ended:
                await self.tabs.send_away()
            await self.tabs.have_left(LAST_WORDS_SECONDS)
            return has_ended
        finally:
            for it in tasks:
                it.cancel()
            if self.archived:
                self.archived.end()
            await serving.shutdown(1)
            await runner.cleanup()

    def app(self) -> web.Application:
        app = web.Application(middlewares=[self.look])
        app.on_response_prepare.append(add_headers)
        app.router.add_get("/link", self.tabs.take)
        if self.archived:
            self.archived.add_routes(app.router)
        app.router.add_get("/{name:.*}", self.pages.serve)
        return app

    def end(self, has_server_ended: bool) -> None:
        if not self.over.done():
            self.over.set_result(has_server_ended)

    async def watch(self, reader: StreamReader, writer: StreamWriter) -> None:
        try:
            while await reader.read(PIECE):
                pass
        except OSError:
            pass
        finally:
            writer.close()
            self.end(True)

    @web.middleware
    async def look(self, request: web.Request, handler: Handler) -> web.StreamResponse:
        """What comes before each answer."""
        gate = gate_of(request)
        gate.has_asked()
        try:
            return await self.answer(request, handler, gate)
        finally:
            gate.has_answered()

    async def answer(self, request: web.Request, handler: Handler, gate: Gate) -> web.StreamResponse:
        if request.body_exists:
            self.porter.visitor(request, gate).requests.promise(REFUSED_REQUESTS)
            gate.ends(BODY_SECONDS)
            raise closing(web.HTTPBadRequest(text="no request has a body here"))
        if not self.hosts.has(request.headers.get("Host", "")):
            raise web.HTTPMisdirectedRequest(text="no page is served under this name; --host names one")
        if not self.porter.visitor(request, gate).requests.take():
            self.refused.count(Why.REQUESTS)
            raise closing(web.HTTPTooManyRequests(text="too many requests from this address"))
        return await handler(request)

    def counts(self, request: web.BaseRequest, count: int) -> bool:
        """Counts a request as so many more: whether its address has them."""
        return self.porter.visitor(request, gate_of(request)).requests.take(count)
