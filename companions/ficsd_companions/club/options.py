"""The command line."""

import argparse
from dataclasses import dataclass
from pathlib import Path

from ficsd_companions.cli.program import is_program
from ficsd_companions.cli.version import add_version
from ficsd_companions.cli.words import MOST_PORT, count

PAGE_BEHIND = 2  # the page's port is so far behind the server's
EPILOG = """It ends at Ctrl-C, or with the server. Statuses: 0 it was told to end; 1 something that it needs isn't
there, or the server or House has ended; 2 other words than these. docs/OPERATING.md says more."""


@dataclass(frozen=True)
class Chosen:
    """What was chosen."""

    port: int
    store: Path | None
    engine: str
    is_unproved: bool
    program: Path | None

    @property
    def page_port(self) -> int:
        """The port for browsers."""
        return self.port + PAGE_BEHIND


def store(word: str) -> Path:
    """The file of a store, in a folder that is there."""
    path = Path(word)
    if not word or word.startswith("-") or not path.absolute().parent.is_dir():
        raise argparse.ArgumentTypeError(f"there is no folder for {word!r}")
    return path


def program(word: str) -> Path:
    """A built program."""
    path = Path(word)
    if not is_program(path):
        raise argparse.ArgumentTypeError(f"{word} is no program that this user can run")
    return path.absolute()


def chosen(arguments: list[str]) -> Chosen:
    """What the words choose; ends with status 2 where they are others."""
    words = argparse.ArgumentParser(
        prog="./club",
        epilog=EPILOG,
        description="A club in one terminal: a chess server, its page for browsers, and House, a program to play.",
    )
    add = words.add_argument
    add(
        "--port",
        type=count(MOST_PORT - PAGE_BEHIND),
        default=5000,
        metavar="P",
        help="the server's port, 5000 where it is left out; the page has the second one behind it",
    )
    add(
        "--store",
        type=store,
        metavar="FILE",
        help="keeps accounts and adjourned games in that file, from one evening to the next",
    )
    add(
        "--engine",
        default="house:3",
        metavar="ENGINE",
        help="by what House plays: house:1 to house:4, the server's own search so many half-moves ahead, or an engine "
        "that speaks UCI, as stockfish",
    )
    built = words.add_mutually_exclusive_group()
    built.add_argument(
        "--unproved",
        action="store_true",
        dest="is_unproved",
        help="serves before any proof, after a minute or two, with a store after four, on a busy machine after twice "
        "as long; for a first look",
    )
    built.add_argument("--program", type=program, metavar="FILE", help="serves by a program that was built elsewhere")
    add_version(words)
    return Chosen(**vars(words.parse_args(arguments)))
