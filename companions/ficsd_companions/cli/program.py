"""Where the server's program and the page are found."""

import os
from collections.abc import Iterable
from pathlib import Path

PACKAGE = Path(__file__).resolve().parents[1]
# companions/, or the folder in which tools/pack/install lays out what runs beside the server
BESIDE = PACKAGE.parent
REPOSITORY = BESIDE.parent
# within the package where pip has installed that
PAGE = PACKAGE / "page" if (PACKAGE / "page").is_dir() else BESIDE / "page"
# the program itself: installed beside these companions, or in the folder beside theirs
INSTALLED = (BESIDE / "ficsd", BESIDE.parent / "ficsd" / "ficsd")


def is_program(path: Path) -> bool:
    """Whether a file is there that can be run."""
    return path.is_file() and os.access(path, os.X_OK)


def first(places: Iterable[Path]) -> Path | None:
    """The first of these files that can be run."""
    return next((it for it in places if is_program(it)), None)


def program() -> str:
    """The `ficsd` that these companions belong to: the installed one, or the launcher of the repository that they lie
    in; that of the PATH where there is neither."""
    return str(first((*INSTALLED, REPOSITORY / "ficsd")) or "ficsd")


def explained(program: str) -> list[str]:
    """The words that run a program which says what its status means: an installed one does where it is run by what lies
    beside it, the launcher does by itself."""
    runs = Path(program).with_name("run")
    return [str(runs), "--called", "ficsd", program] if runs.is_absolute() and is_program(runs) else [program]


def built_program() -> Path | None:
    """The program itself, for who starts it for each question: the installed one, or what the launcher has built; none
    where there is neither."""
    return first((*INSTALLED, REPOSITORY / "crates" / "fics_server" / "out" / "fics_server"))
