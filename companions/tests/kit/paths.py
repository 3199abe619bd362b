"""Where things lie, and which program is tried."""

from pathlib import Path

COMPANIONS = Path(__file__).resolve().parents[2]
TOP = COMPANIONS.parent
PAGE = COMPANIONS / "page"
CLUB = TOP / "club"

# the server's program: pytest's option `--program` names another one
program = TOP / "crates" / "fics_server" / "out" / "fics_server"
# what shows the page, chromium or firefox, and where pictures of it are put, by `--browser` and `--pictures`
browser = "chromium"
pictures: Path | None = None


def companion(name: str) -> Path:
    """A program of companions/, as `fics_bot`."""
    return COMPANIONS / name
