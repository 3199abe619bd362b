"""The page's types, by TypeScript's compiler where it is at hand, and its table of elements, held to the HTML."""

import re
import shutil
import subprocess

import pytest

from tests.kit import paths

CLASSES = {
    "a": "HTMLAnchorElement",
    "button": "HTMLButtonElement",
    "dialog": "HTMLDialogElement",
    "form": "HTMLFormElement",
    "input": "HTMLInputElement",
    "select": "HTMLSelectElement",
}


@pytest.mark.skipif(shutil.which("tsc") is None, reason="there is no tsc, which Debian's node-typescript has")
def test_types() -> None:
    ended = subprocess.run(["tsc", "-p", paths.COMPANIONS], capture_output=True, text=True)
    assert ended.returncode == 0, ended.stdout + ended.stderr


def test_elements_are_of_their_classes() -> None:
    table = (paths.PAGE / "types.d.ts").read_text().partition("interface Elements {")[2]
    named = dict(re.findall(r'^  "?([\w-]+)"?: (\w+);$', table, re.M))
    pages = [it.read_text() for it in paths.PAGE.glob("*.html")]
    found = {(name, CLASSES.get(tag)) for it in pages for tag, name in re.findall(r'<(\w+)\b[^>]*\bid="([^"]+)"', it)}
    assert len(named) > 50
    assert not set(named.items()) - found
    assert not {name for name, kind in found if kind} - set(named)
