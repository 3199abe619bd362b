"""Whose word counts for where a visitor comes from."""

import ipaddress
from collections.abc import Iterable

from multidict import CIMultiDictProxy

HEADER = "X-Forwarded-For"

Network = ipaddress.IPv4Network | ipaddress.IPv6Network


class Proxies:
    """The proxies that are trusted: addresses and networks."""

    def __init__(self, networks: Iterable[Network]) -> None:
        self.networks = list(networks)

    def trusts(self, text: str) -> bool:
        try:
            address = ipaddress.ip_address(text.partition("%")[0])
        except ValueError:
            return False
        address = getattr(address, "ipv4_mapped", None) or address
        return any(address in it for it in self.networks)

    def visitor(self, peer: str, headers: CIMultiDictProxy[str]) -> str:
        """The address of who asks: the last one that no trusted proxy has. A header of who isn't trusted says nothing,
        and neither does what stands before it."""
        said = [it.strip() for line in headers.getall(HEADER, []) for it in line.split(",")]
        while said and self.trusts(peer):
            peer = said.pop()
        return peer
