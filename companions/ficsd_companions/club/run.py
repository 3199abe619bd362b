"""A club in one terminal: a chess server, its page for browsers, and House, a program to play, by one command."""

import asyncio
import sys
import tempfile
from pathlib import Path

from ficsd_companions.cli.program import REPOSITORY

from . import checks, evening, options


def main() -> int:
    """Has an evening, as the words of the command line choose; the status."""
    chosen = options.chosen(sys.argv[1:])
    try:
        checks.check_page()
        checks.check_engine(chosen.engine)
        for port in (chosen.port, chosen.page_port):
            checks.check_port(port)
        if chosen.store:
            checks.check_folder(chosen.store)
            checks.check_password(chosen.store.absolute(), evening.HOUSE)
        with tempfile.TemporaryDirectory(prefix="club-") as folder:
            asyncio.run(evening.spend(chosen, REPOSITORY, Path(folder)))
    except checks.Missing as missing:
        print(f"club: {missing}", file=sys.stderr, flush=True)
        return 1
    return 0


if __name__ == "__main__":
    sys.exit(main())
