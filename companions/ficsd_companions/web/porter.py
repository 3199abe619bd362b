"""Who may come: so many connections, and so many places for links, for all together and for each address."""

from aiohttp import web
from ficsd_companions.limits import descriptors
from ficsd_companions.limits.addresses import Address, Addresses
from ficsd_companions.limits.refused import Refused, Why

from . import closes
from .closes import Close
from .gate import Gate
from .proxies import Proxies

PLACES = 256
WAITING = 512  # connections that are no tabs
REFUSED_REQUESTS = 32  # as which a tab counts that isn't let in, and a request that has a body
SPARE = 48  # files for the program itself, and for connections that are being closed
REASONS = {closes.FULL: Why.FULL, closes.MANY_TABS: Why.MANY_LINKS, closes.TOO_OFTEN: Why.TOO_OFTEN}


class Porter:
    """Counts connections and places. A connection of a trusted proxy counts for no address, and a place for the one
    that the proxy names."""

    def __init__(self, proxies: Proxies, most_from_one: int, refused: Refused) -> None:
        self.proxies, self.addresses, self.refused = proxies, Addresses(most_from_one), refused
        self.places = PLACES
        # the gates of connections that are no tabs, the oldest first, and the addresses for which they count
        self.waiting: dict[Gate, Address | None] = {}
        files = descriptors.most(2 * PLACES + WAITING + SPARE)
        self.most_waiting = max(SPARE, files - 2 * PLACES - SPARE)

    # ---- connections ----

    def lets_in(self, gate: Gate) -> bool:
        """Whether a connection may come. Where too many wait that are no tabs, the one that waits longest goes."""
        address = self.counted(gate)
        if address and (address.has_many_connections or not address.requests.has_one):
            self.refused.count(Why.CONNECTIONS)
            return False
        if len(self.waiting) >= self.most_waiting:
            next(iter(self.waiting)).abort()
        self.waiting[gate] = address
        if address:
            address.connections += 1
        return True

    def counted(self, gate: Gate) -> Address | None:
        """The address for which a connection counts."""
        return None if self.proxies.trusts(gate.peer) else self.addresses.of(gate.peer)

    def has_tab(self, gate: Gate) -> None:
        """A connection has become a tab, or is gone."""
        if gate in self.waiting:
            address = self.waiting.pop(gate)
            if address:
                address.connections -= 1

    lets_out = has_tab

    def visitor(self, request: web.BaseRequest, gate: Gate) -> Address:
        """The address of who asks."""
        gate.visitor = self.proxies.visitor(gate.peer, request.headers)
        return self.addresses.of(gate.visitor)

    # ---- places ----

    def refusal(self, address: Address) -> Close | None:
        """Why the address gets no place now; none where it does. Who isn't let in and comes again at once is soon let
        in no door."""
        why = self.why_not(address)
        if why:
            address.requests.take(REFUSED_REQUESTS)
            self.refused.count(REASONS[why])
        return why

    def why_not(self, address: Address) -> Close | None:
        if not self.places:
            return closes.FULL
        if address.has_many_links:
            return closes.MANY_TABS
        return None if address.coming.take() else closes.TOO_OFTEN

    def give(self, address: Address) -> None:
        self.places -= 1
        address.links += 1

    def take_back(self, address: Address) -> None:
        self.places += 1
        address.links -= 1
