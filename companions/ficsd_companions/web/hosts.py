"""Under which names the page is served. A name that anybody else owns may be made to lead here, and then a page of
theirs counts for the browser as one from here (DNS rebinding); an address can't."""

import ipaddress
import re
from collections.abc import Iterable

HOST = re.compile(r"(\[[0-9A-Fa-f:.]+\]|[^:\[\]]+)(?::\d{1,5})?")
ALWAYS = "localhost"


def name_of(host: str) -> str | None:
    """The name or address of a Host header, in small letters; none where it is no such header."""
    match = HOST.fullmatch(host)
    return match[1].strip("[]").rstrip(".").lower() if match else None


class Hosts:
    """The names that are answered: these, `localhost`, and every address."""

    def __init__(self, names: Iterable[str]) -> None:
        self.names = {ALWAYS, *(it.rstrip(".").lower() for it in names)}

    def has(self, host: str) -> bool:
        """Whether a request with that Host header is answered."""
        name = name_of(host)
        return name is not None and (name in self.names or is_address(name))


def is_address(name: str) -> bool:
    try:
        ipaddress.ip_address(name)
    except ValueError:
        return False
    return True
