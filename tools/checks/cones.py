"""What each crate of a command stands on, itself included: how many crates of the repository, and how many seconds of a
processor they cost by tools/launch/seconds.py. No command stands on what it doesn't use, so each has a bound."""
from seconds import SECONDS
from sources import crates_for

from .parts import with_part
from .sources import text, uses_of_crates

PAGE = "CONTRIBUTING.md"
HEAD = ["| Crate | Crates | Seconds | At most |", "|---|---|---|---|"]
OF_COMMANDS = "cmd_"
# a tenth and less above what the command's own parts cost
MOST = {
    "cmd_lines": 290, "cmd_job": 420, "cmd_store": 3200, "cmd_board": 1300, "cmd_tourney": 580, "cmd_pgn": 3600,
    "cmd_tidy": 1900, "cmd_bot": 1100, "cmd_check": 3200, "cmd_examine": 3600, "cmd_replay": 5100, "cmd_demo": 5300,
    "cmd_run": 6700,
}
DEAREST = 3


def cones():
    """The crates of each command's crate, in the order of crates.txt."""
    uses = uses_of_crates()
    return {name: crates_for(name, uses) for name in uses if name.startswith(OF_COMMANDS)}


def cost(crates):
    return sum(SECONDS.get(it, 0) for it in crates)


def table():
    """The lines of the page's table."""
    rows = [f"| `{name}` | {len(crates)} | {cost(crates):,} | {MOST.get(name, 0):,} |"
            for name, crates in cones().items()]
    return [*HEAD, *rows]


def with_table(page):
    return with_part(page, table())


def faults():
    for name, crates in cones().items():
        if name not in MOST:
            yield f"tools/checks/cones.py has no bound of {name}"
        elif cost(crates) > MOST[name]:
            dearest = sorted(crates, key=lambda it: SECONDS.get(it, 0))[-DEAREST:]
            yield (f"{name} stands on {len(crates)} crates, which cost {cost(crates)} seconds, more than {MOST[name]}; "
                   f"the dearest are {', '.join(reversed(dearest))}")
    if with_table(text(PAGE)) != text(PAGE):
        yield f"{PAGE} has another table of what commands stand on; tools/print/cones --write mends it"
