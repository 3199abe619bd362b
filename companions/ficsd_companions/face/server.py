"""All links: one server, and a session for each client."""

import asyncio
from contextlib import suppress

from ficslink.errors import TooLong

from ficsd_companions.cli.words import Address as Place
from ficsd_companions.limits import descriptors, door
from ficsd_companions.limits.addresses import Address, Addresses
from ficsd_companions.limits.pieces import Pieces
from ficsd_companions.limits.refused import Refused, Why
from ficsd_companions.limits.saying import Saying

from . import texts
from .client import Client, Cut
from .server_end import PIECE, ServerEnd
from .session import Session
from .shared import Shared

LINKS = 256
SPARE = 48  # files for the program itself, and for links that are being closed
LOGIN_SECONDS = 120
SERVER_SECONDS = 10  # for the server to take a link
POLL_SECONDS = 4
ENDING_SECONDS = 10  # for what is due to be answered and passed on, once one side has ended

REFUSALS = {Why.FULL: texts.FULL, Why.MANY_LINKS: texts.MANY_LINKS, Why.TOO_OFTEN: texts.TOO_OFTEN}

Streams = tuple[asyncio.StreamReader, asyncio.StreamWriter]


class GoBetween:
    """The go-between of one server. A link of its own, which stays at the login, tells when the server has ended."""

    def __init__(self, place: Place, links_from_one: int = 32, refused: Refused | None = None) -> None:
        self.place, self.refused = place, refused or Refused("fics_face")
        self.addresses = Addresses(links_from_one)
        self.shared = Shared()
        self.links: set[asyncio.Task[None]] = set()

    async def serve(self, address: str, port: int) -> None:
        """Serves clients until the server has ended. An `OSError` comes where either isn't to be had."""
        descriptors.most(2 * LINKS + SPARE)
        reader, writer = await asyncio.open_connection(*self.place)
        opening = await door.opened(self.newcomer, address, port)
        print("ready", flush=True)
        telling = asyncio.create_task(self.refused.tell())
        with suppress(OSError):
            while await reader.read(PIECE):
                pass
        telling.cancel()
        writer.close()
        opening.close()
        if self.links:
            await asyncio.wait(set(self.links), timeout=ENDING_SECONDS)

    def newcomer(self) -> Pieces:
        """The protocol of one client."""
        return Pieces(asyncio.StreamReaderProtocol(asyncio.StreamReader(limit=PIECE), self.take))

    def refusal(self, address: Address) -> Why | None:
        """Why the address gets no link now; none where it does."""
        if len(self.links) >= LINKS:
            return Why.FULL
        if address.has_many_links:
            return Why.MANY_LINKS
        return None if address.coming.take() else Why.TOO_OFTEN

    async def take(self, reader: asyncio.StreamReader, writer: asyncio.StreamWriter) -> None:
        """One client, from its coming to its end."""
        client = Client(reader, writer)
        address = self.addresses.of(client.address)
        if why := self.refusal(address):
            self.refused.count(why)
            client.say_lines(REFUSALS[why])
            writer.close()
            return
        task = asyncio.current_task()
        assert task
        self.links.add(task)
        address.links += 1
        try:
            await self.link(client, address, *await self.server_end())
        except Cut as cut:
            if cut.why:
                self.refused.count(cut.why)
            await client.cut(str(cut))
        except asyncio.CancelledError:
            pass  # the go-between itself ends, and waits for its links no longer
        except OSError:
            client.say_lines(texts.NO_SERVER)
        finally:
            self.links.discard(task)
            address.links -= 1
            client.close()

    async def server_end(self) -> Streams:
        """A new link of the server; an `OSError` where it takes none."""
        async with asyncio.timeout(SERVER_SECONDS):
            return await asyncio.open_connection(*self.place)

    async def link(
        self, client: Client, address: Address, reader: asyncio.StreamReader, writer: asyncio.StreamWriter
    ) -> None:
        """Both directions of one link. It ends once the server has closed it and all that it wrote is passed on."""
        server, later = ServerEnd(reader, writer), asyncio.get_running_loop().call_later
        budgets = address.guesses, Saying(address)
        session = Session(self.shared, client.say, server.say, server.say_no_more, later, *budgets)
        session.wrong_password = lambda: self.refused.wrong_password(client.address)
        up, down, login, _ = tasks = [
            asyncio.create_task(it)
            for it in (go_up(client, session, server), go_down(client, session, server), log_in(session), poll(session))
        ]
        try:
            await asyncio.wait(tasks, return_when=asyncio.FIRST_COMPLETED)
            if up.done() and not up.exception() and not down.done():
                # the client sends no more: what it sent is answered first, as the server does with a link half closed
                session.client_is_gone()
                await asyncio.wait({down}, timeout=ENDING_SECONDS)
            session.server_is_gone()
            for task in (up, down, login):
                if task.done() and (error := task.exception()):
                    raise error
            await client.taken()
        finally:
            for task in tasks:
                task.cancel()
            await asyncio.gather(*tasks, return_exceptions=True)
            writer.close()


async def go_up(client: Client, session: Session, server: ServerEnd) -> None:
    """Hands on what the client sends, and waits where it can't be handed on, or too much of it isn't answered."""
    with suppress(ConnectionError):
        async for piece in client.pieces():
            session.from_client(piece)
            await client.taken()
            await server.taken()
            while session.is_behind and not server.is_over:
                await server.progress()


async def go_down(client: Client, session: Session, server: ServerEnd) -> None:
    """Hands on what the server says, and waits where the client takes no more."""
    with suppress(ConnectionError, TooLong):
        async for piece in server.pieces():
            session.from_server(piece)
            await client.taken()


async def log_in(session: Session) -> None:
    """Lets the login take its time and no more."""
    await asyncio.sleep(LOGIN_SECONDS)
    if not session.is_in:
        raise Cut(texts.NO_LOGIN, Why.NO_LOGIN)
    await asyncio.get_running_loop().create_future()


async def poll(session: Session) -> None:
    """Asks from time to time which seeks still stand."""
    while True:
        await asyncio.sleep(POLL_SECONDS)
        session.ask_for_seeks()
