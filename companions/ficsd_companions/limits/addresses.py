"""What one address may have and do. An address of IPv6 stands for its network of 64 bits, which is what one customer
has."""

import ipaddress

from .budget import Budget

Network = ipaddress.IPv4Address | ipaddress.IPv6Network

COMING_SECONDS = 30  # in which as many links may be opened anew as there may be at a time
GUESSES_A_SECOND, GUESSES_AT_ONCE = 0.1, 10
REQUESTS_A_SECOND, REQUESTS_AT_ONCE = 8, 128  # for each link that the address may have
TALK_A_SECOND, TALK_AT_ONCE = 1 / 16, 1.25  # lines of talk, for each link that the address may have
CONNECTIONS = 4  # without a link, for each link that the address may have
MOST_KNOWN = 4096


class Address:
    """One address: how many connections and links it has, and what else it may do."""

    def __init__(self, most_links: int) -> None:
        self.most_links = most_links
        self.connections = self.links = 0
        self.coming = Budget(most_links / COMING_SECONDS, 2 * most_links)
        self.guesses = Budget(GUESSES_A_SECOND, GUESSES_AT_ONCE)
        self.requests = Budget(REQUESTS_A_SECOND * most_links, REQUESTS_AT_ONCE * most_links)
        self.talk = Budget(TALK_A_SECOND * most_links, max(1, TALK_AT_ONCE * most_links))

    @property
    def is_idle(self) -> bool:
        """Whether forgetting it changes nothing."""
        budgets = self.coming, self.guesses, self.requests, self.talk
        return not self.connections and not self.links and all(it.is_full for it in budgets)

    @property
    def has_many_connections(self) -> bool:
        return self.connections >= CONNECTIONS * self.most_links

    @property
    def has_many_links(self) -> bool:
        return self.links >= self.most_links


class Addresses:
    """The addresses that are here or were lately."""

    def __init__(self, most_links: int) -> None:
        self.most_links = most_links
        self.known: dict[Network | str, Address] = {}

    def of(self, text: str) -> Address:
        """What is known of an address."""
        key = network_of(text)
        if key not in self.known:
            if len(self.known) >= MOST_KNOWN:
                self.forget()
            self.known[key] = Address(self.most_links)
        return self.known[key]

    def forget(self) -> None:
        """Forgets who is idle; and where all have done something lately, the first half of those who have nothing
        open, so that this is seldom needed."""
        idle = [key for key, it in self.known.items() if it.is_idle]
        gone = [key for key, it in self.known.items() if not it.connections and not it.links]
        for key in idle or gone[: len(gone) // 2 + 1]:
            del self.known[key]


def network_of(text: str) -> Network | str:
    """The network that an address stands for; what is none stands for itself."""
    try:
        address = ipaddress.ip_address(text.partition("%")[0])
    except ValueError:
        return text
    if isinstance(address, ipaddress.IPv4Address):
        return address
    return address.ipv4_mapped or ipaddress.IPv6Network((address, 64), strict=False)
