"""What pip installs, and what tools/pack/packed says that packages have."""

import ast
import shutil
import subprocess
import sys
import tomllib
from pathlib import Path

import pytest

from tests.kit import paths

PROJECT = tomllib.loads((paths.COMPANIONS / "pyproject.toml").read_text(encoding="utf-8"))
SCRIPTS = PROJECT["project"]["scripts"]
PACKAGES = PROJECT["tool"]["ficsd"]["packages"]


def written(*words: object) -> str:
    """What a program writes that ends with 0."""
    done = subprocess.run([str(it) for it in words], stdout=subprocess.PIPE, stderr=subprocess.STDOUT, text=True)
    assert done.returncode == 0, done.stdout
    return done.stdout


@pytest.fixture(scope="module")
def installed(tmp_path_factory: pytest.TempPathFactory) -> Path:
    """An environment into which pip has put the library and what runs beside the server, without the network."""
    folder = tmp_path_factory.mktemp("installed")
    copy = shutil.copytree(paths.COMPANIONS, folder / "companions", ignore=shutil.ignore_patterns("tests", "build"))
    written("/usr/bin/python3", "-m", "venv", "--without-pip", "--system-site-packages", folder / "house")
    written(
        "/usr/bin/python3",
        "-m",
        "pip",
        "--python",
        folder / "house" / "bin" / "python3",
        "install",
        "-q",
        "--no-index",
        "--no-build-isolation",
        "--no-cache-dir",
        "--root-user-action=ignore",
        copy / "ficslink",
        copy,
    )
    return folder / "house"


@pytest.mark.parametrize("name", SCRIPTS)
def test_its_command_is_installed(installed: Path, name: str) -> None:
    """It tells the same as the one of companions/."""
    assert written(installed / "bin" / name, "--help") == written(paths.companion(name), "--help")


def test_its_page_is_whole(installed: Path) -> None:
    """All that is a file of the page is found from the package."""
    found = "from ficsd_companions.cli.program import PAGE; print(PAGE)"
    page = Path(written(installed / "bin" / "python3", "-Ic", found).strip())
    assert page.is_relative_to(installed)

    def files(folder: Path) -> set[Path]:
        return {it.relative_to(folder) for it in folder.rglob("*") if it.suffix in (".js", ".css", ".html", ".svg")}

    assert files(page) == files(paths.PAGE) != set()


def test_each_folder_is_a_package_that_is_installed() -> None:
    inside = [
        it.parent.relative_to(paths.COMPANIONS) for it in paths.COMPANIONS.glob("ficsd_companions/*/**/__init__.py")
    ]
    folders = {".".join(it.parts) for it in inside}
    named = set(PROJECT["tool"]["setuptools"]["packages"])
    assert named == folders | {"ficsd_companions", "ficsd_companions.page"}


@pytest.mark.parametrize("name", SCRIPTS)
def test_a_launcher_begins_what_the_script_begins(name: str) -> None:
    module, _, function = SCRIPTS[name].partition(":")
    first, *_ = [
        it
        for it in ast.walk(ast.parse(paths.companion(name).read_text(encoding="utf-8")))
        if isinstance(it, ast.ImportFrom)
    ]
    assert (first.module, first.names[0].name) == (module, function)


def test_each_command_is_of_one_package() -> None:
    commands = [it for row in PACKAGES.values() for it in row["commands"]]
    assert sorted(commands) == sorted(SCRIPTS)


@pytest.mark.parametrize("package", PACKAGES)
def test_its_commands_run_with_its_files_alone(tmp_path: Path, package: str) -> None:
    """`tools/pack/packed` names all that a program imports."""
    for name in written(paths.TOP / "tools" / "pack" / "packed", package, "files").split():
        (tmp_path / name).parent.mkdir(parents=True, exist_ok=True)
        shutil.copy(paths.COMPANIONS / name, tmp_path / name)
    for it in PACKAGES[package]["commands"] + PACKAGES[package].get("programs", []):
        assert written(sys.executable, "-B", tmp_path / it, "--help").startswith("usage: ")
