"""Looks again and again: a line each time, a text for Prometheus, and soon what becomes wrong or right of the disk."""

import sys
import time
from pathlib import Path

from ficsd_companions.limits.refused import put

from . import metrics, shelf
from .seen import Places, Watcher

DISK_EVERY = 20.0  # seconds between two looks at the disk
WARNING = "<4>"  # by which the journal knows a line of a warning


def say(text: str, how: str = "") -> None:
    print(f"{how}fics_watch: {text}", flush=True)


def tell(watcher: Watcher, file: Path | None) -> None:
    """One look."""
    seen = watcher.look()
    say(metrics.line_of(seen))
    for it in seen.troubles:
        say(it, WARNING)
    if file and not put(file, metrics.text_of(seen)):
        say(f"{file} can't be written", WARNING)


def go_on(places: Places, every: float, file: Path | None) -> None:
    """Until it is ended."""
    watcher = Watcher(places, metrics.waited(file) if file else 0)
    due = time.monotonic()
    while True:
        tell(watcher, file)
        due = max(due + every, time.monotonic())
        was_full = watcher.full_since is not None
        while (left := due - time.monotonic()) > 0:
            time.sleep(min(left, DISK_EVERY))
            if (shelf.why_no_room(places.store) is not None) != was_full:
                break  # which the next look tells, before it is due


def print_once(places: Places, known: Path | None) -> None:
    """The text for Prometheus on the standard output; `known` is where another keeps it that goes on, if one does."""
    sys.stdout.write(metrics.text_of(Watcher(places, metrics.waited(known) if known else 0).look()))
