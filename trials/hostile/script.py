"""A hostile trial over the words of its call."""

import argparse
import os
import shlex
import sys
from collections.abc import Callable, Iterable
from typing import Any, NoReturn

from tests.kit import paths
from trials.tale import Tale

Option = tuple[tuple[str, ...], dict[str, Any]]  # as argparse takes its words and its settings


def options(text: str, more: Iterable[Option] = ()) -> argparse.Namespace:
    """The words of the call: the program, and what else the trial has."""
    parser = argparse.ArgumentParser(description=text)
    parser.add_argument(
        "program",
        nargs="?",
        default=str(paths.program),
        help="the program, with words of its own if it has some; the one that `./ficsd` builds",
    )
    for words, settings in more:
        parser.add_argument(*words, **settings)
    given = parser.parse_args()
    words = shlex.split(given.program)
    if not words or not os.access(words[0], os.X_OK):
        sys.exit(f"{given.program} isn't there; `./ficsd --build` builds the program")
    return given


def tell(
    name: str, text: str, body: Callable[[argparse.Namespace, Tale], None], more: Iterable[Option] = ()
) -> NoReturn:
    """Runs a trial's body with the words of the call and its tale, and ends with what came of it."""
    given = options(text, more)
    tale = Tale(name)
    try:
        body(given, tale)
    except (OSError, ValueError, EOFError) as fault:
        tale.lost(f"{type(fault).__name__}: {fault}")
    tale.end()
