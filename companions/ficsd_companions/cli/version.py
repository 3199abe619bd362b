"""The option --version: the revision of what is installed, or of the repository."""

import argparse
import subprocess
from collections.abc import Sequence
from typing import Any

from .program import BESIDE, REPOSITORY

KEPT = BESIDE / "revision"  # where tools/pack/install has put it
TOLD = REPOSITORY / "tools" / "launch" / "revision"


def revision() -> str:
    """As `ficsd --version` says it."""
    if KEPT.is_file():
        return KEPT.read_text(encoding="utf-8").strip()
    if TOLD.is_file():
        return subprocess.run([TOLD], stdout=subprocess.PIPE, text=True, check=False).stdout.strip()
    return "ficsd of no known revision"


class Version(argparse.Action):
    """Says it, and ends the program."""

    def __call__(
        self,
        parser: argparse.ArgumentParser,
        namespace: argparse.Namespace,
        values: str | Sequence[Any] | None,
        option_string: str | None = None,
    ) -> None:
        print(f"{parser.prog}, {revision()}")
        parser.exit()


def add_version(words: argparse.ArgumentParser) -> None:
    says = "says the revision, and ends"
    words.add_argument("--version", action=Version, nargs=0, dest="version", default=argparse.SUPPRESS, help=says)
