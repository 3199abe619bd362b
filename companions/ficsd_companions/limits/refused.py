"""What a go-between refuses: it counts each refusal by its reason, for who watches, and logs wrong passwords with the
address from which they came, one line each, as the filter for fail2ban reads them."""

import asyncio
import ipaddress
import sys
from collections import Counter
from enum import Enum
from pathlib import Path

from ficsd_companions.cli.replacing import replace

TELL_EVERY = 5  # seconds
METRIC = "ficsd_refused_total"


class Why(Enum):
    """The reasons."""

    WRONG_PASSWORD = "wrong password"
    FULL = "all places are taken"
    MANY_LINKS = "many links of one address"
    TOO_OFTEN = "many links of one address in a short time"
    CONNECTIONS = "many connections of one address"
    REQUESTS = "many requests of one address"
    FLOOD = "a flood"
    NO_LOGIN = "no login in time"
    BROWSER = "a request of a browser"


class Refused:
    """The refusals of one go-between, since it began; `file` is where they are told, if anywhere."""

    def __init__(self, name: str, file: Path | None = None) -> None:
        self.name, self.file = name, file
        self.counts = Counter({why: 0 for why in Why})

    def count(self, why: Why) -> None:
        self.counts[why] += 1

    def wrong_password(self, address: str) -> None:
        """One that came from that address. The name that was typed isn't logged: it may be a password."""
        self.count(Why.WRONG_PASSWORD)
        print(f"{self.name}: wrong password from {plain(address)}", file=sys.stderr, flush=True)

    def text(self) -> str:
        """The counts in the form that Prometheus reads."""
        return "".join(f'{METRIC}{{by="{self.name}",why="{it.value}"}} {self.counts[it]}\n' for it in Why)

    async def tell(self) -> None:
        """Keeps the counts in the file, which is whole at each moment; what can't be written is tried again."""
        told = None
        while self.file:
            if (text := self.text()) != told:
                told = text if put(self.file, text) else None
            await asyncio.sleep(TELL_EVERY)


def put(file: Path, text: str) -> bool:
    """Puts a text into a file in the place of what was there: whether that was done."""
    try:
        replace(file, text, to_disk=False)
    except OSError:
        return False
    return True


def plain(address: str) -> str:
    """An address as others write it; of what is none nothing is told."""
    try:
        read = ipaddress.ip_address(address.partition("%")[0])
    except ValueError:
        return "an unknown address"
    return str(getattr(read, "ipv4_mapped", None) or read)
