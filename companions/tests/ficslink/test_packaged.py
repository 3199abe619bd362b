"""The package: its types, and that it installs by itself."""

import shutil
import subprocess
import sys
from pathlib import Path
from typing import Any

from tests.kit.paths import COMPANIONS

PACKAGE = COMPANIONS / "ficslink"
USES = "import ficslink; print(ficslink.__file__); print(repr(ficslink.parse('Your seek is 7.')))"


def run(*words: object, **settings: Any) -> tuple[int, str]:
    """The status of a program, and what it writes."""
    done = subprocess.run(
        [str(it) for it in words], stdout=subprocess.PIPE, stderr=subprocess.STDOUT, text=True, check=False, **settings
    )
    return done.returncode, done.stdout


def test_its_types_hold(tmp_path: Path) -> None:
    status, said = run("/usr/bin/mypy", "--strict", "--cache-dir", tmp_path, "ficslink", cwd=PACKAGE.parent)
    assert status == 0, said


def test_a_wrong_type_doesnt_hold(tmp_path: Path) -> None:
    shutil.copytree(PACKAGE, tmp_path / "ficslink")
    with open(tmp_path / "ficslink" / "texts.py", "a", encoding="utf-8") as file:
        file.write("\nREADY = 1\n")
    status, said = run("/usr/bin/mypy", "--strict", "--cache-dir", tmp_path, "ficslink", cwd=tmp_path)
    assert status == 1, said


def test_it_installs_without_the_network(tmp_path: Path) -> None:
    shutil.copytree(PACKAGE, tmp_path / "package")
    into = tmp_path / "into"
    pip = (sys.executable, "-m", "pip", "install", "--no-index", "--no-build-isolation")
    status, said = run(*pip, "--target", into, tmp_path / "package")
    assert status == 0, said
    written = run(sys.executable, "-c", USES, cwd=tmp_path, env={"PYTHONPATH": str(into)})
    assert written == (0, f"{into}/ficslink/__init__.py\nSeekMade(number=7)\n")
    assert (into / "ficslink" / "py.typed").exists()
