"""Edits that must fail: what the crates that have them cost together, and that each finds its text."""
from plan import seconds_of

from .sources import TOP, text, tracked

# a crate with edits is proved once more before them, so what counts is the seconds of the crates and not of the edits
MOST_SECONDS = 3100
DEAREST = 3


def pairs(edit):
    """The file that an edit names, and the texts that it replaces."""
    lines = [it.partition(": ") for it in text(edit).splitlines()]
    files = [rest for key, _, rest in lines if key == "file"]
    return files, [(old, new) for (a, _, old), (b, _, new) in zip(lines, lines[1:]) if (a, b) == ("old", "new")]


def faults_of(edit):
    files, changes = pairs(edit)
    if len(files) != 1 or not changes:
        yield f"{edit} names {len(files)} files and has {len(changes)} changes"
        return
    file = edit.parent.parent / files[0]
    if not (TOP / file).is_file():
        yield f"{edit} names {file}, which isn't there"
        return
    changed = text(file)
    for old, new in changes:
        if changed.count(old) != 1:
            yield f"{edit}: its old text stands {changed.count(old)} times in {file}: {old}"
        changed = changed.replace(old, new)


def faults():
    edits = [it for it in tracked() if it.suffix == ".edit"]
    crates = {it.parts[1] for it in edits}
    costs = {it: seconds_of(it) for it in crates}
    if sum(costs.values()) > MOST_SECONDS:
        dearest = sorted(costs, key=costs.get, reverse=True)[:DEAREST]
        yield (f"{len(costs)} crates have edits that must fail, and cost {sum(costs.values()):.0f} seconds, more than "
               f"{MOST_SECONDS}; the dearest are {', '.join(dearest)}")
    for edit in edits:
        yield from faults_of(edit)
