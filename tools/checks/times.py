"""How long a build takes is said once and truly: the pages have the launcher's words, and the table of seconds, which
has each crate of the programs that the launcher builds, bears them out by the plan."""
import re

import plan
from seconds import SECONDS
from sources import BUILT, crates_for

from .sources import text, uses_of_crates

LAUNCHER = "ficsd"
PAGES = ("README.md", "docs/OPERATING.md")
CLUB = "companions/ficsd_companions/club/options.py"  # whose `--help` says when a club without proofs is there
SAID = re.compile(r'^(\w+)_takes="(.*)"$', re.MULTILINE)
# what the launcher's words mean: the program, and on so many processors so many minutes of a machine at 2.5 GHz
MEANT = {
    "whole": ("fics_server", {4: ("about 35 minutes on four idle processors", 35), 2: ("70 on two", 70)}),
    "board": ("fics_board", {4: ("about eight minutes on four idle processors", 8),
                             2: ("a quarter of an hour on two", 15)}),
}
# by how much of it a time may be off
NEAR = 0.25


def faults_of_table(uses):
    crates = {it for program in BUILT for it in crates_for(program, uses)}
    for it in sorted(crates - set(SECONDS)):
        yield f"tools/launch/seconds.py hasn't the seconds of {it}: a build from nothing and --times print them"
    for it in sorted(set(SECONDS) - crates):
        yield f"tools/launch/seconds.py has the seconds of {it}, on which no program stands that is built"


def faults_of_words(said, uses):
    for name, (program, meant) in MEANT.items():
        for processors, (words, minutes) in meant.items():
            if words not in said.get(name, ""):
                yield f"{LAUNCHER} doesn't say `{words}` of {program}"
            takes = plan.Run(plan.Plan(crates_for(program, uses), processors, program=program)).end / 60
            if abs(takes - minutes) > NEAR * minutes:
                yield (f"{LAUNCHER} says {minutes} minutes of {program} on {processors} processors, "
                       f"and by the table it takes {takes:.0f}")


def faults():
    uses, said = uses_of_crates(), dict(SAID.findall(text(LAUNCHER)))
    yield from faults_of_table(uses)
    yield from faults_of_words(said, uses)
    for name, words in said.items():
        for page in PAGES:
            if words not in text(page):
                yield f"{page} doesn't say as {LAUNCHER} does: {words}"
    if (words := said.get("unproved", "")) not in re.sub(r'"\n *"', "", text(CLUB)):
        yield f"{CLUB} doesn't say as {LAUNCHER} does: {words}"
