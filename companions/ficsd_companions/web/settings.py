"""What an operator may choose."""

from dataclasses import dataclass, field
from pathlib import Path

from ficsd_companions.cli.words import Address

from .proxies import Network


@dataclass
class Settings:
    """What a go-between is told at its start."""

    server: Address
    folder: Path  # of the page
    hosts: list[str] = field(default_factory=list)
    proxies: list[Network] = field(default_factory=list)
    tabs_from_one: int = 32
    refuses_stamps: bool = False
    archive: Path | None = None  # the folder of the scribe's
    counts: Path | None = None  # the file in which stands what was refused
    rates: bool = False  # whether the ratings that it makes are shown
