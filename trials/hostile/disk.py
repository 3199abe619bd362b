"""A store whose file can't grow any more, as on a disk that is full: the server goes on and ends with status 4, what
was saved before can be loaded, and where there is room again all that waited is saved."""

import os
import resource
import shlex
import signal
import subprocess
import tempfile

from trials.client import Client

from .script import tell
from .server import Server, settles

# so many accounts, of which each takes some kilobytes of the log beside the file, which begins with 260 KiB
ACCOUNTS = 400
LIMIT = 512 * 1024


def small_files():
    """Files of this process may have so many bytes, until somebody raises that."""
    signal.signal(signal.SIGXFSZ, signal.SIG_IGN)
    resource.setrlimit(resource.RLIMIT_FSIZE, (LIMIT, resource.RLIM_INFINITY))


def name(number):
    return b"Acc" + bytes([97 + number // 26, 97 + number % 26])


def register(port, tale):
    """Many come in one after the other, register and quit."""
    done = 0
    for number in range(ACCOUNTS):
        client = Client(port)
        client.enter(name(number))
        done += client.ask(b"register secret%d" % number) == b"Ok.\n\rfics% " and client.quit()
    tale.holds(done == ACCOUNTS, f"{done} of {ACCOUNTS} registered and took leave")


def check(program, store):
    """What `check` says of a store, and its status."""
    done = subprocess.run(
        [*shlex.split(program), "check", "--store", store], stdin=subprocess.DEVNULL, capture_output=True, check=False
    )
    return done.stdout, done.returncode


def accounts_in(said):
    """How many accounts `check` counts; none where it doesn't."""
    words = said.split()
    return int(words[1]) if words[:1] == [b"ok:"] else None


def log_in(program, store, tale):
    """How many are asked for a password, and are let in by it."""
    known = entered = 0
    with Server(program, "--store", store, "--count", str(ACCOUNTS)) as server:
        for number in range(ACCOUNTS):
            client = Client(server.port)
            if client.enter(name(number)) == b"password: ":
                known += 1
                entered += client.ask(b"secret%d" % number).startswith(b"Entered as ")
            client.quit()
        server.ends(tale)
    tale.holds(known == entered, f"{known} are known, {entered} of them came in by their passwords")
    return known


def evening(program, store, tale, room_again, status_wanted):
    """An evening at which the store is full, and, if so said, isn't any more before its end."""
    with Server(program, "--store", store, "--count", str(ACCOUNTS + 1), before=small_files) as server:
        last = Client(server.port)
        last.enter(b"Last")
        register(server.port, tale)
        if room_again:
            resource.prlimit(server.pid, resource.RLIMIT_FSIZE, (resource.RLIM_INFINITY, resource.RLIM_INFINITY))
            settles(lambda: ACCOUNTS - (accounts_in(check(program, store)[0]) or 0), 0)
        tale.holds(last.ask(b"who") == b"Last\n\rfics% " and last.quit(), "who stayed is answered and takes leave")
        server.ends(tale, status_wanted)


def main(given, tale):
    with tempfile.TemporaryDirectory() as folder:
        full, freed = os.path.join(folder, "full"), os.path.join(folder, "freed")
        evening(given.program, full, tale, False, 4)
        said, status = check(given.program, full)
        saved = accounts_in(said)
        tale.holds(
            status == 0 and saved is not None and 0 < saved < ACCOUNTS,
            f"of the full store of {os.path.getsize(full)} bytes check says {said!r}, status {status}",
        )
        known = log_in(given.program, full, tale)
        tale.holds(known == saved, f"{known} accounts of {saved} were found again")
        evening(given.program, freed, tale, True, 0)
        said, status = check(given.program, freed)
        tale.holds(
            (said, status) == (b"ok: %d accounts, 0 games\n" % ACCOUNTS, 0),
            f"of the store with room again check says {said!r}, status {status}",
        )


if __name__ == "__main__":
    tell("disk", __doc__, main)
