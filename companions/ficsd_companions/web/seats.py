"""Seats: a tab's place in the hall, which is held for a moment where the tab is gone, for who comes with its token."""

import asyncio
import json
import secrets
from collections.abc import Mapping
from enum import StrEnum
from typing import TYPE_CHECKING, NamedTuple

from aiohttp import WSCloseCode, WSMessage, WSMsgType
from ficsd_companions.limits.addresses import Address

from .closes import Closed
from .server_end import ServerEnd

if TYPE_CHECKING:
    from .link import Link

PROTOCOL = "seat"  # the subprotocol of the WebSocket
MARK = "\x01"  # before what is no line, and between the tab and the go-between alone
HELD_SECONDS = 30
SIGN_OFF = "U+0001 stands before a JSON object, the first one with the seat that is asked for"


class Taken(StrEnum):
    """How a tab has its seat: as its first one, just as it left it, or knowing nothing of what came before."""

    NEW = "new"
    SAME = "same"
    ANEW = "anew"


class Wish(NamedTuple):
    """The seat that a tab asks for by its token, how many of its messages it has heard, and whether the page has begun
    anew."""

    token: str | None
    heard: int | None
    begins_anew: bool


def said(fields: Mapping[str, object]) -> str:
    """A message of the go-between's own."""
    return MARK + json.dumps(fields, separators=(",", ":"))


def read(message: WSMessage) -> dict[str, object]:
    """The fields of a message that is no line."""
    if message.type != WSMsgType.TEXT or not message.data.startswith(MARK):
        raise Closed(WSCloseCode.POLICY_VIOLATION, SIGN_OFF)
    return fields_of(message.data)


def fields_of(text: str) -> dict[str, object]:
    try:
        fields: object = json.loads(text[len(MARK) :])
    except (ValueError, RecursionError):
        fields = None
    if not isinstance(fields, dict):
        raise Closed(WSCloseCode.POLICY_VIOLATION, SIGN_OFF)
    return fields


def wish_of(fields: Mapping[str, object]) -> Wish:
    """What a tab says of the seat that it wants: nothing counts but its token where that is none."""
    token, heard, begins_anew = fields.get("seat", ""), fields.get("heard"), fields.get("anew") is True
    if token is None:
        return Wish(None, None, begins_anew)
    is_count = heard is None or isinstance(heard, int) and not isinstance(heard, bool) and heard >= 0
    if not (isinstance(token, str) and token and is_count):
        raise Closed(WSCloseCode.POLICY_VIOLATION, SIGN_OFF)
    return Wish(token, heard if isinstance(heard, int) else None, begins_anew)


class Seat:
    """One link of the server, with or without a tab."""

    def __init__(self, server: ServerEnd, address: Address) -> None:
        self.server, self.address = server, address
        self.token = secrets.token_urlsafe(24)
        self.link: "Link | None" = None  # the tab that has it
        self.timer: asyncio.TimerHandle | None = None  # of a seat that is held
        self.is_gone = False

    @property
    def may_be_held(self) -> bool:
        """Whether its player is in the hall."""
        return self.server.talk.name is not None and not self.server.is_over

    async def seat(self, link: "Link", wish: Wish) -> tuple[Taken, int] | None:
        """Lets a tab have the seat, in the place of one that has it: how, and how many lines of it have come. None
        where the server has closed meanwhile."""
        while before := self.link:
            before.give_way()
            await before.has_ended.wait()
            if self.link is before:
                self.link = None
        if self.is_gone:
            return None
        self.link = link
        if self.timer:
            self.timer.cancel()
        is_same = self.server.find_reader(wish.heard, wish.begins_anew)
        return (Taken.SAME if is_same else Taken.ANEW), self.server.talk.taken

    def hold(self) -> None:
        """Keeps the seat for who comes back within the time."""
        self.server.lose_reader()
        self.timer = asyncio.get_running_loop().call_later(HELD_SECONDS, self.server.close)

    def greeting(self, how: Taken, taken: int, **has: bool) -> str:
        """The first message to a tab that has the seat; `has` says what the go-between has and what it refuses."""
        talk = self.server.talk
        return said(
            {
                "seat": self.token,
                "taken": how,
                "heard": taken,
                "name": talk.name,
                "prompt": talk.prompt,
                "stamped": talk.is_stamped,
                **has,
            }
        )
