"""What is seen of a booted machine: what its shell says, its units, their ports and journal, and the store."""

import glob
import re
import subprocess
import time
from collections.abc import Callable
from pathlib import Path

from trials.tale import Tale

FOLDER = Path("/root/try")  # where the trial lies in the machine
SERVER, FACE, WEB, CLUB, CLUB_PAGE = 5000, 5001, 5002, 5010, 5012
OTHER_PORT = 5900  # to which the lines of the page change the server's
UNITS = ("ficsd", "fics_face", "fics_web")
STORE = "/var/lib/ficsd/club.db"
PROGRAM = "/usr/lib/ficsd/ficsd"
PATIENCE = 300  # seconds, also where the machine has ten times the work that it can do
A_MOMENT = 1  # seconds; what is new is kept about ten times in each
tale = Tale()
says = tale.says


def shell(line: str) -> tuple[str, int]:
    """What a line writes to its standard output, and its status."""
    done = subprocess.run(["bash", "-c", line], stdin=subprocess.DEVNULL, capture_output=True, text=True)
    return done.stdout, done.returncode


def run_lines(name: str, folder: Path = FOLDER) -> None:
    """Runs lines of the page, one after the other, in a folder of their own."""
    for line in (FOLDER / f"{name}.sh").read_text(encoding="utf-8").splitlines():
        says(f"{name}: {line.split('  #')[0].strip()}", shell(f"cd {folder} && {line}")[1], 0)


def listening() -> list[int]:
    """Which of the three ports somebody listens on."""
    text, _ = shell(f"ss -ltnH '( sport = :{SERVER} or sport = :{FACE} or sport = :{WEB} )'")
    return sorted({int(port) for port in re.findall(r":(500[012])\s", text)})


def addresses(port: int) -> list[str]:
    """The addresses of this machine at which somebody listens on a port."""
    text, _ = shell(f"ss -ltnH 'sport = :{port}'")
    return sorted(row.split()[3].rpartition(":")[0] for row in text.splitlines())


def comes(name: str, found: Callable[[], object], wanted: object, seconds: float = PATIENCE) -> None:
    """Waits until something is as wanted."""
    deadline = time.monotonic() + seconds
    while (got := found()) != wanted and time.monotonic() < deadline:
        time.sleep(0.25)
    says(name, got, wanted)


def shown(unit: str, what: str) -> str:
    return shell(f"systemctl show -P {what} {unit}")[0].strip()


def states() -> list[str]:
    return [shown(it, "ActiveState") for it in UNITS]


def all_up(name: str) -> None:
    comes(f"{name}: all are active", states, ["active"] * 3)
    comes(f"{name}: all listen", listening, [SERVER, FACE, WEB])


def journal_of(unit: str) -> str:
    """What the journal has of a unit, once all that was said is in it."""
    return shell(f"journalctl --sync; journalctl -u {unit} -b --output=cat")[0]


def journal(since: int) -> list[str]:
    """What the journal has of the server since that line of it."""
    return journal_of("ficsd").splitlines()[since:]


def text_of(pattern: str) -> str:
    """What the files that a pattern names have, one behind the other."""
    return "".join(Path(it).read_text(encoding="utf-8") for it in glob.glob(pattern))


def journal_length() -> int:
    return len(journal(0))


def servers() -> list[str]:
    """The processes that run the program itself."""
    return shell(f"pgrep -f '^{PROGRAM} serve'")[0].split()


def main_process() -> str:
    return shown("ficsd", "MainPID")


def check() -> str:
    """What `check` says of the store."""
    return shell(f"ficsd check --store {STORE}")[0]
