"""Tells who plays at the same desk that a player's tab is gone, for how long its seat is held, and that it is back."""

import asyncio
from typing import TYPE_CHECKING

from .seats import HELD_SECONDS, Seat, said

if TYPE_CHECKING:
    from .link import Link
    from .talk import Talk


def desks(talk: "Talk") -> set[int]:
    """The desks at which a player plays; the two games of one have an odd number and the next one."""
    return {(it + 1) // 2 for it in talk.games.playing}


class Away:
    """Who is away, for the tabs of these links."""

    def __init__(self, links: "list[Link]") -> None:
        self.links = links
        self.names: set[str] = set()
        self.tasks: set[asyncio.Task[None]] = set()

    def is_gone(self, seat: Seat) -> None:
        """A seat is held from now on."""
        self.names.add(seat.server.talk.name or "")
        self.tell(seat, HELD_SECONDS)

    def is_back(self, seat: Seat) -> None:
        """A seat has its tab again, if it was away."""
        name = seat.server.talk.name or ""
        if name in self.names:
            self.names.remove(name)
            self.tell(seat, 0)

    def tell(self, seat: Seat, seconds: int) -> None:
        talk = seat.server.talk
        text = said({"away": talk.name, "held": seconds})
        for link in self.links:
            if link.talk is not talk and desks(link.talk) & desks(talk):
                task = asyncio.create_task(link.say(text))
                self.tasks.add(task)
                task.add_done_callback(self.tasks.discard)
