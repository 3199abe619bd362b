"""A look at a club as text: one line for people, and the form that Prometheus reads."""

import re
import time
from pathlib import Path

from .seen import Seen

WAITS = "ficsd_order_waits_seconds"
REFUSED = "ficsd_refused_total"
# of each metric its name, the field that it tells, and what it is
GAUGES = (
    ("ficsd_members", "members", "people and programs in the hall"),
    ("ficsd_games", "games", "games that run"),
    ("ficsd_stored_games", "stored", "adjourned games in the store"),
    ("ficsd_accounts", "accounts", "accounts in the store"),
    (WAITS, "waits", "how long the disk of the store has taken nothing; no order of the server waits longer"),
    ("ficsd_store_bytes", "store_bytes", "bytes of the store and its log"),
    ("ficsd_archive_bytes", "archive_bytes", "bytes of the archive of games"),
    ("ficsd_disk_free_bytes", "free_bytes", "room on the disk of the store"),
)
# of each field its words on the line
WORDS = (
    ("members", "members"),
    ("games", "games"),
    ("stored", "stored games"),
    ("accounts", "accounts"),
    ("store_bytes", "bytes of store"),
    ("archive_bytes", "bytes of archive"),
)


def text_of(seen: Seen) -> str:
    """All that is known, in the text form of Prometheus; `ficsd_up` says whether the hall answers."""
    lines = [*head("ficsd_up", "gauge", "whether the hall answers"), f"ficsd_up {int(seen.members is not None)}"]
    for name, value_of, says in GAUGES:
        value = getattr(seen, value_of)
        if value is not None:
            lines += [*head(name, "gauge", says), f"{name} {value:.0f}"]
    if seen.refused:
        lines += head(REFUSED, "counter", "what the go-betweens have refused since they began")
        lines += [f"{name} {count}" for name, count in seen.refused.items()]
    return "\n".join(lines) + "\n"


def head(name: str, kind: str, says: str) -> list[str]:
    return [f"# HELP {name} {says}", f"# TYPE {name} {kind}"]


def line_of(seen: Seen) -> str:
    """The same for people."""
    said = [f"{getattr(seen, it)} {words}" for it, words in WORDS if getattr(seen, it) is not None]
    if seen.waits:
        said.append(f"orders wait for up to {seen.waits:.0f} seconds")
    if seen.refused:
        said.append(f"{sum(seen.refused.values())} refusals")
    return ", ".join(said) or "nothing is known"


def waited(file: Path) -> float:
    """For how long by now an order may have waited, as a text of this form has it that another has written."""
    try:
        found = re.search(rf"^{WAITS} (\d+)$", file.read_text(encoding="utf-8"), re.M)
        passed = time.time() - file.stat().st_mtime
    except (OSError, UnicodeDecodeError):
        return 0
    return int(found[1]) + max(0, passed) if found and int(found[1]) else 0
