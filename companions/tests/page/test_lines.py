"""The page's events are held to docs/CLIENTS.md over all that the server says in the evenings of `lines/`."""

import subprocess
from pathlib import Path

from tests.kit import paths

HOLD = Path(__file__).parent / "lines" / "hold.mjs"


def test_lines() -> None:
    words = ["node", HOLD, paths.program, paths.TOP / "docs" / "CLIENTS.md"]
    ended = subprocess.run(words, capture_output=True, text=True)
    assert ended.returncode == 0, ended.stdout + ended.stderr
