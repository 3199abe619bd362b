"""Each crate that promises something has its row among what is proved, test crates are few, and a crate stands below
those that it uses. That each has its line in the list of crates is for `tools/print/crates_table`."""
import re

from .sources import text, uses_of_crates

MOST_TESTS = 14
PAGE = "docs/PROVED.md"
# tests, and programs that are timed, promise nothing
WITHOUT_ROW = ("test_", "pace_", "perft")
ROW = re.compile(r"^\| ((?:`\w+`(?:, )?)+) \|", re.MULTILINE)


def out_of_order(uses):
    above = set()
    for crate, used in uses.items():
        if early := [it for it in used if it in uses and it not in above]:
            yield f"crates.txt has {crate} above {', '.join(early)}, on which it stands"
        above.add(crate)


def faults():
    crates = list(uses_of_crates())
    yield from out_of_order(uses_of_crates())
    tests = [it for it in crates if it.startswith("test_")]
    if len(tests) > MOST_TESTS:
        yield f"there are {len(tests)} crates of tests, more than {MOST_TESTS}"
    rows = {name for row in ROW.findall(text(PAGE)) for name in re.findall(r"\w+", row)}
    for crate in crates:
        if crate not in rows and not crate.startswith(WITHOUT_ROW):
            yield f"{PAGE} has no row of the crate {crate}"
