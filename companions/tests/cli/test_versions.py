"""--version of each program."""

import shutil
import subprocess
import tomllib
from pathlib import Path

import pytest

from tests.kit import paths
from tests.kit.running import ended

PROJECT = tomllib.loads((paths.COMPANIONS / "pyproject.toml").read_text(encoding="utf-8"))
PROGRAMS = sorted(PROJECT["project"]["scripts"])


@pytest.mark.parametrize("name", PROGRAMS)
def test_it_is_the_launchers(name: str) -> None:
    """The revision of the repository."""
    of_git = ["git", "-C", str(paths.TOP), "describe", "--always", "--dirty=-changed"]
    revision = subprocess.run(of_git, stdout=subprocess.PIPE, text=True, check=True).stdout.strip()
    done = ended(paths.companion(name), "--version")
    assert (done.returncode, done.stdout) == (0, f"{name}, ficsd {revision}\n")


@pytest.fixture(scope="module")
def installed(tmp_path_factory: pytest.TempPathFactory) -> Path:
    folder = tmp_path_factory.mktemp("installed")
    program = folder / "program"
    program.write_text("#!/bin/sh\n", encoding="utf-8")
    program.chmod(0o755)
    done = ended(paths.TOP / "tools/pack/install", "--program", program, "--prefix", "usr", folder)
    assert done.returncode == 0, done.stderr
    return folder / "usr"


@pytest.mark.parametrize("name", ["ficsd", *PROGRAMS])
def test_what_is_installed_says_the_same(installed: Path, name: str) -> None:
    """Also that the program was built elsewhere, where it was."""
    done = ended(installed / "bin" / name, "--version")
    assert done.returncode == 0, done.stderr
    assert done.stdout.removeprefix(f"{name}, ").startswith("ficsd ")
    assert done.stdout.endswith(", of a program that was built elsewhere\n")


def test_a_program_that_was_built_here(tmp_path: Path) -> None:
    """It isn't said of the repository's own."""
    copy = tmp_path / "repository"
    for it in ("tools", "companions", "docs"):
        shutil.copytree(paths.TOP / it, copy / it, ignore=shutil.ignore_patterns("tests", "__pycache__"))
    program = copy / "crates/fics_server/out/fics_server"
    program.parent.mkdir(parents=True)
    program.write_text("#!/bin/sh\n", encoding="utf-8")
    program.chmod(0o755)
    done = ended(copy / "tools/pack/install", "--program", program, "--prefix", "usr", tmp_path / "root")
    assert done.returncode == 0, done.stderr
    assert "elsewhere" not in ended(tmp_path / "root/usr/bin/ficsd", "--version").stdout
