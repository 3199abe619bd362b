"""Records of a store: accounts and adjourned games (docs/RULES.md, A store). The half-moves of a game are taken along
as they are, as far as they were read."""

import hashlib
import re
from dataclasses import dataclass, replace

MOST_ACCOUNTS, MOST_GAMES = 4096, 10000
DIGEST_BYTES = 32
MOST_OF_A_HEAD = 8 + 4 * 18 + 2  # bytes: the variant and the terms, four names, and how many half-moves follow
GAMES_FROM = b"g"  # keys of accounts come before it


class BadRecord(Exception):
    """A record that isn't one."""


def is_handle(name: str) -> bool:
    return re.fullmatch(r"[A-Za-z]{3,17}", name) is not None


def account_key(name: str) -> bytes:
    return b"a" + name.lower().encode()


def digest_of(password: str) -> bytes:
    return hashlib.sha256(password.encode()).digest()


def name_text(name: str) -> bytes:
    return bytes([len(name)]) + name.encode()


@dataclass(frozen=True)
class Account:
    """Who may enter under a name."""

    name: str
    digest: bytes

    def text(self) -> bytes:
        return b"\x01A" + name_text(self.name) + self.digest


@dataclass(frozen=True)
class Game:
    """An adjourned game: the names are in the order of the seats, and `halves` is their count and all behind it."""

    number: int
    opening: bytes  # what stands before the names: the variant and the terms
    names: tuple[str, ...]
    halves: bytes

    def key(self) -> bytes:
        return GAMES_FROM + self.number.to_bytes(8, "big")

    def text(self) -> bytes:
        return self.opening + b"".join(map(name_text, self.names)) + self.halves

    def has(self, name: str) -> bool:
        return name.lower() in (it.lower() for it in self.names)

    def renamed(self, old: str, new: str) -> "Game":
        return replace(self, names=tuple(new if it.lower() == old.lower() else it for it in self.names))

    def variant(self) -> str:
        if self.opening[0] == 3:
            return f"fischer {int.from_bytes(self.opening[2:4], 'big')}"
        return ("chess", "crazyhouse", "bughouse")[self.opening[2]]

    def line(self) -> str:
        """As the server's `stored` shows it, and how many half-moves it has."""
        minutes, increment = (int.from_bytes(self.opening[at:][:2], "big") for at in (-4, -2))
        made = int.from_bytes(self.halves[:2], "big")
        return f"{self.number} {' '.join(self.names)} {minutes} {increment} {self.variant()}, {made} half-moves"


def name_at(text: bytes, at: int) -> tuple[str, int]:
    """The name that stands there, and the place behind it."""
    end = at + 1 + text[at]
    name = text[at + 1 : end].decode("ascii", "replace")
    if not is_handle(name):
        raise BadRecord
    return name, end


def read_account(key: bytes, text: bytes) -> Account:
    """The account of a record under that key."""
    try:
        name, end = name_at(text, 2)
    except IndexError:
        raise BadRecord from None
    if text[:2] != b"\x01A" or key != account_key(name) or len(text) != end + DIGEST_BYTES:
        raise BadRecord
    return Account(name, text[end:])


def read_game(key: bytes, text: bytes) -> Game:
    """The game of a record under that key."""
    begins = {b"\x01G\x00": 3, b"\x01G\x01": 3, b"\x02G\x02": 3, b"\x03G": 4}
    ahead = next((length for first, length in begins.items() if text.startswith(first)), 0)
    if not ahead or len(key) != 9:
        raise BadRecord
    at, names = ahead + 4, []
    try:
        for _ in range(4 if text[0] == 2 else 2):
            name, at = name_at(text, at)
            names.append(name)
    except IndexError:
        raise BadRecord from None
    return Game(int.from_bytes(key[1:], "big"), text[: ahead + 4], tuple(names), text[at:])
