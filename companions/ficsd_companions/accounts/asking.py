"""What is asked for: on the terminal where there is one, and else by lines of the standard input."""

import getpass
import sys
from collections.abc import Sequence

from .faults import Refused

MOST_PASSWORD = 800  # bytes


def line(question: str) -> str:
    """A line that answers a question."""
    print(question, end="", file=sys.stderr, flush=True)
    said = sys.stdin.readline()
    if not said.endswith("\n"):
        raise Refused("there was no answer; nothing was changed")
    return said.rstrip("\n")


def one_of(question: str, answers: Sequence[str]) -> str:
    """Asks until the answer is one of these, of which the beginning is enough."""
    while True:
        said = line(f"{question} [{'/'.join(answers)}] ").strip().lower()
        fits = [it for it in answers if said and it.startswith(said)]
        if len(fits) == 1:
            return fits[0]


def hidden(question: str) -> str:
    """A line that isn't shown on the terminal."""
    if not sys.stdin.isatty():
        return line(question)
    try:
        return getpass.getpass(question)
    except EOFError:
        raise Refused("there was no answer; nothing was changed") from None


def password(name: str) -> str:
    """A password that a player can type, which is given twice."""
    first = hidden(f"New password of {name}: ")
    if not (0 < len(first) <= MOST_PASSWORD and all(" " <= it <= "~" for it in first)) or first != first.strip():
        raise Refused(f"a password is 1 to {MOST_PASSWORD} printable ASCII characters, without a blank at its ends")
    if hidden("Once more: ") != first:
        raise Refused("the two differ; nothing was changed")
    return first
