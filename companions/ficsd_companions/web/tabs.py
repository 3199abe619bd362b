"""All tabs, each from its coming to its end: whether it is let in, which seat it has, and its link to the server."""

import asyncio

from aiohttp import WSCloseCode, web
from ficsd_companions.limits.addresses import Address
from ficsd_companions.limits.saying import Saying

from . import closes, seats
from .away import Away
from .closes import Close, Closed
from .gate import Gate, gate_of
from .lines import LONGEST_MESSAGE
from .link import CLOSING_SECONDS, Link, goodbye
from .lists import Lists
from .pages import is_foreign
from .porter import Porter
from .seats import Seat, Taken, Wish
from .server_end import ServerEnd
from .settings import Settings
from .talk import Talk

SERVER_SECONDS = 10  # for the server to take a link
SEAT_SECONDS = 10  # for a tab to say which seat it wants
CUT_SECONDS = 2  # for what was said last to a tab to go out


class Tabs:
    """The tabs of one go-between, and the seats that are held."""

    def __init__(self, settings: Settings, porter: Porter) -> None:
        self.settings, self.porter = settings, porter
        self.lists = Lists()
        self.seats: dict[str, Seat] = {}  # by their tokens
        self.sockets: dict[asyncio.Task[object], web.WebSocketResponse] = {}  # by the tasks of the tabs
        self.frees: set[asyncio.Task[None]] = set()  # of each seat the task that gives its place to others
        self.away = Away(self.lists.links)

    async def send_away(self) -> None:
        """Closes all tabs' links, since the go-between itself ends."""
        tabs = [it.close(code=WSCloseCode.GOING_AWAY) for it in self.sockets.values() if it.prepared]
        await asyncio.wait_for(asyncio.gather(*tabs, return_exceptions=True), CLOSING_SECONDS)

    async def have_left(self, seconds: float) -> None:
        """Waits until all tabs have gone, and no longer than that."""
        if self.sockets:
            await asyncio.wait(set(self.sockets), timeout=seconds)

    # ---- one tab ----

    async def take(self, request: web.Request) -> web.WebSocketResponse:
        """One tab, from its coming to its end."""
        if is_foreign(request):
            raise web.HTTPForbidden(text="a link is opened by the server's own page")
        tab = web.WebSocketResponse(
            compress=False,
            autoping=False,
            autoclose=False,
            timeout=CUT_SECONDS,
            protocols=(seats.PROTOCOL,),
            max_msg_size=LONGEST_MESSAGE + 1,
        )  # aiohttp refuses it
        ready = tab.can_prepare(request)
        if not ready:
            raise web.HTTPBadRequest(text="a link is a WebSocket")
        gate = gate_of(request)
        address = self.porter.visitor(request, gate)
        task = asyncio.current_task()
        assert task
        self.sockets[task] = tab
        try:
            if ready.protocol == seats.PROTOCOL:
                gate.become_tab()
                await tab.prepare(request)
                await self.sit(tab, gate, address)
            else:
                await self.join(request, tab, gate, address)
        finally:
            del self.sockets[task]
            if tab.prepared:
                gate.expect(CUT_SECONDS)
        return tab

    async def join(self, request: web.Request, tab: web.WebSocketResponse, gate: Gate, address: Address) -> None:
        """A tab without a seat: refused before there is a WebSocket, or let in."""
        why = self.porter.refusal(address)
        if why:
            raise refused(why)
        self.porter.give(address)
        server = None
        try:
            server = await self.server_end(address)
            gate.become_tab()
            await tab.prepare(request)
            await Link(tab, gate, server, address).run()
        except Closed as closed:
            raise refused(closes.NO_SERVER) from closed
        finally:
            self.porter.take_back(address)
            if server:
                server.close()

    async def server_end(self, address: Address, keeps_told: bool = False) -> ServerEnd:
        """A new link of the server, for who comes from that address."""
        talk = Talk(self.settings.refuses_stamps, Saying(address))
        try:
            async with asyncio.timeout(SERVER_SECONDS):
                _, server = await asyncio.get_running_loop().create_connection(
                    lambda: ServerEnd(talk, keeps_told), *self.settings.server
                )
        except OSError:
            raise closes.closed(closes.NO_SERVER) from None
        return server

    # ---- seats ----

    async def sit(self, tab: web.WebSocketResponse, gate: Gate, address: Address) -> None:
        """A tab with a seat, its own one or a new one."""
        try:
            wish = await self.wish(tab, gate)
            seat, greeting, link = await self.seat(tab, gate, address, wish)
        except Closed as why:
            await goodbye(tab, gate, why.code, str(why))
            return
        except (TimeoutError, ConnectionError):
            gate.abort()
            return
        comes_back = False
        self.lists.add(link)
        try:
            await tab.send_str(greeting)
            comes_back = await link.run()
        finally:
            self.lists.remove(link)
            link.has_ended.set()
            self.leave(seat, link, comes_back)

    async def wish(self, tab: web.WebSocketResponse, gate: Gate) -> Wish:
        """Which seat a tab wants."""
        gate.free()
        async with asyncio.timeout(SEAT_SECONDS):
            message = await tab.receive()
        gate.busy()
        return seats.wish_of(seats.read(message))

    async def seat(
        self, tab: web.WebSocketResponse, gate: Gate, address: Address, wish: Wish
    ) -> tuple[Seat, str, Link]:
        """The seat, its first message, and the link of the tab that has it now."""
        seat = self.seats.get(wish.token) if wish.token else None
        if seat:
            link = Link(tab, gate, seat.server, address, self.lists)
            if how := await seat.seat(link, wish):
                self.away.is_back(seat)
                return seat, self.greeting(seat, *how), link
        why = self.porter.refusal(address)
        if why:
            raise closes.closed(why)
        self.porter.give(address)
        try:
            server = await self.server_end(address, keeps_told=True)
        except Closed:
            self.porter.take_back(address)
            raise
        seat = Seat(server, address)
        self.seats[seat.token] = seat
        task = asyncio.create_task(self.free(seat))
        self.frees.add(task)
        task.add_done_callback(self.frees.discard)
        seat.link = Link(tab, gate, server, address, self.lists)
        return seat, self.greeting(seat, Taken.NEW, 0), seat.link

    def greeting(self, seat: Seat, how: Taken, taken: int) -> str:
        """The first message to a tab that has a seat."""
        has = {"archive": True} if self.settings.archive else {}
        if self.settings.rates:
            has["ratings"] = True
        return seat.greeting(how, taken, plain=self.settings.refuses_stamps, **has)

    def leave(self, seat: Seat, link: Link, comes_back: bool) -> None:
        """A tab has left its seat, which is held for a moment where it may come back."""
        if seat.link is not link:
            return
        seat.link = None
        if comes_back and seat.may_be_held:
            seat.hold()
            self.away.is_gone(seat)
        else:
            seat.server.close()

    async def free(self, seat: Seat) -> None:
        """Gives a seat's place to others once the server has closed its link, and no tab reads its last words."""
        await seat.server.over.wait()
        seat.is_gone = True
        self.away.names.discard(seat.server.talk.name or "")
        del self.seats[seat.token]
        self.porter.take_back(seat.address)


def refused(why: Close) -> web.HTTPException:
    """The answer of HTTP to who isn't let in."""
    kinds = {503: web.HTTPServiceUnavailable, 429: web.HTTPTooManyRequests, 502: web.HTTPBadGateway}
    return kinds[why.status or 503](text=why.reason)
