"""The login is shown once it can be used. Before that a name that was typed and sent would load the page anew, and be
lost: where the page's files come slowly, or the texts of another language."""

import shutil
from pathlib import Path

import pytest

from tests.kit import paths

from .browser import Evening

pytestmark = pytest.mark.browser

SLOWLY = "await new Promise((keep) => { setTimeout(keep, 3000); });\n"
SPEAKS_GERMAN = 'localStorage.setItem("language", "de");\n'
WHERE = "return location.href"


@pytest.fixture
def page(tmp_path: Path) -> Path:
    """A page of which one file comes late."""
    folder: Path = shutil.copytree(paths.PAGE, tmp_path / "page")
    return folder


def change(page: Path, name: str, before: str, after: str) -> None:
    """Changes the beginning of a file, wherever in the page it lies."""
    (file,) = page.rglob(name)
    file.write_text(file.read_text().replace(before, after, 1))


def test_who_enters_before_the_page_has_begun(evening: Evening, page: Path) -> None:
    change(page, "lines.js", "", SLOWLY)
    ann = evening.window("Ann", enters=False, path="/icon.svg")
    ann.script("setTimeout(() => location.assign(arguments[0]), 0)", evening.go_between.address())
    ann.enter()
    assert ann.script(WHERE) == evening.go_between.address()


def test_who_enters_before_its_language_is_there(evening: Evening, page: Path) -> None:
    change(page, "de.js", "", SLOWLY)
    page.joinpath("speaks.js").write_text(SPEAKS_GERMAN)
    change(page, "index.html", "<script", '<script src="speaks.js"></script>\n<script')
    ann = evening.window("Ann")
    assert ann.text("#lobby-title") == "Halle"
    assert ann.text('#ways [data-view="board"]').strip() == "Brett"
    assert ann.script(WHERE) == evening.go_between.address()
