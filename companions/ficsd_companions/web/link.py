"""One tab: its WebSocket, and its link to the server."""

import asyncio
from collections.abc import Awaitable
from contextlib import suppress

from aiohttp import WSCloseCode, WSMessage, WSMsgType, web
from ficsd_companions.limits.addresses import Address
from ficsd_companions.limits.pace import Flood, Pace
from ficsd_companions.limits.refused import Why
from ficslink.refusals import Refusal

from . import closes, seats
from .closes import Closed
from .gate import UNSENT_AGAIN, Gate
from .lines import NoLine
from .lists import Lists
from .server_end import ServerEnd

# a tab that is cut off without a word is noticed by this, and a proxy takes no link for idle
SIGNS_SECONDS, SIGN_WITHIN_SECONDS = 30, 15
MOST_UNANSWERED = 3  # pings, of a tab that sends and doesn't read
TAKING_SECONDS = 30  # for a tab to take something of what is due to it
CLOSING_SECONDS, READING_SECONDS = 3, 1
LOGIN_SECONDS = 120
A_TURN = 4  # tabs that are closed in one turn of the loop
MOST_UNTAKEN = 4096  # bytes, with which no talk is told, so that a board which comes next waits for no more
TALK_EVERY_SECONDS = 0.05
MOST_UNSENT = UNSENT_AGAIN  # bytes, with which nothing is sent that can be left out; with fewer nobody is kept waiting


ending = asyncio.Semaphore(A_TURN)


class Gone(Exception):
    """The tab is to be cut off without a word, since it hears none."""


class Link:
    """Both directions of one link. Neither is read while the other one can't be written to."""

    def __init__(
        self, tab: web.WebSocketResponse, gate: Gate, server: ServerEnd, address: Address, lists: Lists | None = None
    ) -> None:
        self.tab, self.gate, self.server, self.talk = tab, gate, server, server.talk
        self.address, self.all_lists = address, lists  # which a tab with a seat may ask for
        self.pace = Pace(gate.socket)
        self.heard = self.unanswered = 0  # messages of the tab; pings that it hasn't answered
        self.wants_lists = False
        self.lists: dict[str, list[str]] = {}  # of each list the rows that the tab was told
        self.code: int = WSCloseCode.OK  # for the close
        self.replaced: asyncio.Future[None] = asyncio.get_running_loop().create_future()
        self.has_ended = asyncio.Event()

    async def run(self) -> bool:
        """Runs until one side has closed, and closes the tab, which is done behind all that the server wrote: whether
        the tab may come back."""
        up = asyncio.create_task(self.up())
        watches = [asyncio.create_task(it) for it in (self.down(), self.talk_on(), self.signs(), self.login())]
        tasks: list[asyncio.Future[bool] | asyncio.Future[None]] = [
            up,
            *watches,
            self.replaced,
            self.gate.count(self.pace),
        ]
        try:
            await asyncio.wait(tasks, return_when=asyncio.FIRST_COMPLETED)
            why = next((it.exception() for it in tasks if it.done() and it.exception()), None)
            may_come_back = up.result() if up.done() and not why else isinstance(why, (Gone, OSError))
        finally:
            for it in tasks:
                it.cancel()
            await asyncio.gather(*tasks, return_exceptions=True)
            self.has_ended.set()
        async with ending:
            await asyncio.sleep(0)
        await self.close(why)
        return may_come_back

    async def close(self, why: BaseException | None) -> None:
        """Closes the tab, for a reason or since one side has closed."""
        if isinstance(why, Closed):
            await goodbye(self.tab, self.gate, why.code, str(why))
        elif isinstance(why, Flood):
            self.gate.porter.refused.count(Why.FLOOD)
            await goodbye(self.tab, self.gate, closes.FLOOD.code, str(why))
        elif why is None:
            await goodbye(self.tab, self.gate, self.code, "")
        else:
            self.gate.abort()

    def give_way(self) -> None:
        """Another tab has taken the seat."""
        if not self.replaced.done():
            self.replaced.set_exception(closes.closed(closes.TAKEN))

    # ---- from the tab to the server ----

    async def up(self) -> bool:
        """From the tab to the server, until the tab has closed: whether it may come back."""
        while True:
            self.gate.free()
            message = await self.tab.receive()
            self.gate.busy()
            self.heard += 1
            if message.type == WSMsgType.TEXT:
                await self.take(message.data)
            elif message.type in (WSMsgType.PING, WSMsgType.PONG):
                await self.take_sign(message)
            elif message.type == WSMsgType.BINARY:
                raise Closed(WSCloseCode.POLICY_VIOLATION, "a line is a text message")
            else:
                self.take_close(message)
                return message.type == WSMsgType.CLOSED or message.data not in (None, WSCloseCode.OK)

    def take_close(self, message: WSMessage) -> None:
        """A tab that closes hears its own code again: Firefox tells it to the page that is being left, which doesn't
        keep its seat where the code is that of a wish."""
        if message.type == WSMsgType.CLOSE:
            self.code = message.data or WSCloseCode.OK

    async def take(self, text: str) -> None:
        """Takes a text message: a line, or what is for the go-between alone."""
        await self.pace.line()
        if self.all_lists and text.startswith(seats.MARK):
            self.take_wish(self.all_lists, seats.fields_of(text))
            return
        try:
            await (self.pass_on(text) if self.talk.name else self.log_in(text))
        except NoLine as why:
            raise Closed(WSCloseCode.POLICY_VIOLATION, str(why)) from None

    def take_wish(self, all_lists: Lists, fields: dict[str, object]) -> None:
        """Takes what is for the go-between alone."""
        self.wants_lists, self.lists = fields.get("lists") is True, {}
        if self.wants_lists:
            all_lists.want()

    async def pass_on(self, text: str) -> None:
        await self.server.write(self.talk.from_tab(text))

    async def log_in(self, text: str) -> None:
        """Passes on a line before the login is done. Each waits for the answer to the one before, and a password for
        its time besides, so that nobody tries many."""
        await self.settle()
        is_password = self.talk.awaits_password
        if is_password:
            await asyncio.sleep(self.address.guesses.promise())
        await self.pass_on(text)
        if is_password:
            await self.settle()
            if self.talk.name:
                self.address.guesses.give_back()
            elif self.talk.login_refusal is Refusal.WRONG_PASSWORD:
                self.gate.porter.refused.wrong_password(self.gate.visitor)

    async def settle(self) -> None:
        """Waits until the server owes no answer."""
        while not self.talk.is_settled and not self.server.is_over:
            await self.server.progress()

    async def take_sign(self, message: WSMessage) -> None:
        """Takes a ping or a pong. Of pings to whose sender much is due none is answered: it has others to read."""
        await self.pace.ping()
        if message.type == WSMsgType.PONG:
            self.unanswered = 0
        elif self.gate.unsent < MOST_UNSENT:
            await self.tab.pong(message.data)

    # ---- from the server to the tab ----

    async def down(self) -> None:
        """From the server to the tab, until the server has closed: at the player's wish, or since it ends."""
        while (text := await self.server.next()) is not None:
            await self.send(text)
        self.code = WSCloseCode.OK if self.talk.has_left else WSCloseCode.GOING_AWAY

    async def talk_on(self) -> None:
        """Tells talk that was held back, a little at a time, as the tab takes what it is told."""
        self.server.waits = lambda: self.gate.untaken > MOST_UNTAKEN
        while True:
            await self.server.holds.wait()
            await asyncio.sleep(TALK_EVERY_SECONDS)
            self.server.let_some_go()

    async def send(self, text: str) -> None:
        """Sends the tab a message, unless it takes none any more."""
        sending = self.tab.send_str(text)
        await (sending if self.gate.unsent < MOST_UNSENT else self.within(TAKING_SECONDS, sending))

    @staticmethod
    async def within(seconds: float, sending: Awaitable[None]) -> None:
        """Sends something, unless it takes longer."""
        try:
            async with asyncio.timeout(seconds):
                await sending
        except TimeoutError:
            raise Gone from None

    @property
    def may_ask(self) -> bool:
        """Whether the go-between may ask something by this link: nothing is owed by the server."""
        return self.talk.name is not None and not self.talk.owed and not self.server.is_over

    async def tell_lists(self, lists: dict[str, list[str]]) -> None:
        """Tells a tab that wants them which of the lists have changed, where it takes what is sent."""
        changed = {name: rows for name, rows in lists.items() if self.lists.get(name) is not rows}
        if self.wants_lists and self.talk.name and changed and self.gate.unsent < MOST_UNSENT:
            self.lists = {**self.lists, **changed}
            await self.tab.send_str(seats.said(changed))

    async def say(self, text: str) -> None:
        """Tells the tab something of the go-between's own, where it takes what is sent."""
        if self.gate.unsent < MOST_UNSENT and not self.has_ended.is_set():
            with suppress(ConnectionError):  # it is about to be noticed where it is read
                await self.tab.send_str(text)

    # ---- what ends it ----

    async def signs(self) -> None:
        """Pings the tab, until it gives no sign of life."""
        while True:
            await asyncio.sleep(SIGNS_SECONDS)
            heard = self.heard
            self.unanswered += 1
            await self.within(TAKING_SECONDS, self.tab.ping())
            await asyncio.sleep(SIGN_WITHIN_SECONDS)
            if self.heard == heard or self.unanswered > MOST_UNANSWERED:
                raise Gone

    async def login(self) -> None:
        """Lets the login take its time and no more."""
        await asyncio.sleep(LOGIN_SECONDS)
        if not self.talk.name:
            self.gate.porter.refused.count(Why.NO_LOGIN)
            raise closes.closed(closes.NO_LOGIN)
        await asyncio.get_running_loop().create_future()


async def goodbye(tab: web.WebSocketResponse, gate: Gate, code: int, reason: str) -> None:
    """Closes a tab, and cuts it off where it takes too long over it. Where it has sent something meanwhile, it gets a
    moment to read why."""
    try:
        async with asyncio.timeout(CLOSING_SECONDS):
            await tab.close(code=code, message=reason.encode())
            if tab.close_code == WSCloseCode.ABNORMAL_CLOSURE and not gate.is_lost:
                await asyncio.sleep(READING_SECONDS)
    except (TimeoutError, ConnectionError):
        gate.abort()
