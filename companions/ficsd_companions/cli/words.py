"""Kinds of words of a command line, each as `argparse` takes a type: a function that reads the word, or refuses it and
says what is wanted."""

import argparse
import re
from collections.abc import Callable
from pathlib import Path
from typing import NamedTuple

MOST_PORT = 65535
COUNTS = "a file that is kept at how much was refused, and why; fics_watch --metrics tells it"


class Address(NamedTuple):
    """Where a server listens. An IPv6 address stands without the brackets that it has in a word."""

    host: str
    port: int

    def __str__(self) -> str:
        return f"[{self.host}]:{self.port}" if ":" in self.host else f"{self.host}:{self.port}"


def port(word: str) -> int:
    """A port: 1 to 65535."""
    if not re.fullmatch(r"[1-9]\d{0,4}", word) or int(word) > MOST_PORT:
        raise argparse.ArgumentTypeError(f"a port is a number from 1 to {MOST_PORT}")
    return int(word)


def address(word: str) -> Address:
    """HOST:PORT, as localhost:5000 or [::1]:5000."""
    host, _, number = word.rpartition(":")
    if host.startswith("[") and host.endswith("]"):
        host = host[1:-1]
    elif ":" in host:
        raise argparse.ArgumentTypeError("an IPv6 address stands in brackets, as in [::1]:5000")
    if not host:
        raise argparse.ArgumentTypeError("a server is HOST:PORT")
    return Address(host, port(number))


def count(most: int, least: int = 1) -> Callable[[str], int]:
    """A whole number between two bounds."""

    def read(word: str) -> int:
        if not re.fullmatch(r"0|[1-9]\d{0,17}", word) or not least <= int(word) <= most:
            raise argparse.ArgumentTypeError(f"a number from {least} to {most} is wanted")
        return int(word)

    return read


def amount(unit: str, least: float, most: float) -> Callable[[str], float]:
    """A number of a unit between two bounds."""

    def read(word: str) -> float:
        if not re.fullmatch(r"\d+(\.\d*)?|\.\d+", word) or not least <= float(word) <= most:
            raise argparse.ArgumentTypeError(f"{least:g} to {most:g} {unit} are wanted")
        return float(word)

    return read


def seconds(least: float, most: float) -> Callable[[str], float]:
    """A number of seconds between two bounds."""
    return amount("seconds", least, most)


def handle(word: str) -> str:
    """A name of a player: 3 to 17 letters."""
    if not re.fullmatch("[A-Za-z]{3,17}", word):
        raise argparse.ArgumentTypeError("a name has 3 to 17 letters")
    return word


def folder_with(file: str) -> Callable[[str], Path]:
    """A folder in which a file of that name lies."""

    def read(word: str) -> Path:
        if not (Path(word) / file).is_file():
            raise argparse.ArgumentTypeError(f"{word} has no {file}")
        return Path(word)

    return read
