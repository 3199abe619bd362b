"""The tests of the page's modules that need no browser, by node's own runner: each file of `modules/` is one here."""

import subprocess
from pathlib import Path

import pytest

FILES = sorted((Path(__file__).parent / "modules").glob("*.test.mjs"))


@pytest.mark.parametrize("file", FILES, ids=[it.name.removesuffix(".test.mjs") for it in FILES])
def test_module(file: Path) -> None:
    ended = subprocess.run(["node", "--test", file], capture_output=True, text=True)
    assert ended.returncode == 0, ended.stdout + ended.stderr
