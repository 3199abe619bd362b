"""An engine that is a member of a server: it plays whoever challenges it, by the server's own search or by an engine
that speaks UCI.

It is no part of what is proved. It writes `ready` once it is in, and `closed` once it has left.
"""

import asyncio
import sys

from ficslink import secret

from . import host, journal, options, start


def main() -> int:
    """Plays, as the words of the command line choose; the status."""
    chosen = options.chosen(sys.argv[1:])
    journal.begin()
    try:
        password = secret.kept_password(chosen.password) if chosen.password else None
        status = asyncio.run(start.run(chosen, password))
    except (secret.BadSecret, start.BadChoice) as fault:
        journal.say(str(fault))
        return 2
    except host.CannotCome as fault:
        journal.say(str(fault))
        return fault.status
    print("closed", flush=True)
    return status
