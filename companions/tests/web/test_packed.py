"""A visit costs few requests and few bytes, and a second one nearly none; who works on the page sees what was changed,
and where nothing packs the page is served as it is."""

import gzip
import os
import re
import shutil
import urllib.request
from collections.abc import Iterator
from pathlib import Path
from typing import NamedTuple
from urllib.error import HTTPError
from urllib.parse import urljoin

import pytest

from tests.kit import paths
from tests.kit.go_between import GoBetween
from tests.kit.running import Server, wait_until

pytestmark = pytest.mark.skipif(not shutil.which("esbuild"), reason="wants Debian's esbuild")

MOST_REQUESTS, MOST_BYTES = 8, 80_000
LOADED = re.compile(r'(?:href|src|data-\w+)="([\w./-]+\.(?:js|css|svg))[#"]')
IMPORT = re.compile(r'(?:from|import)\s*\(?["`]\.{1,2}/')


class Got(NamedTuple):
    """An answer as it came over the wire."""

    status: int
    headers: dict[str, str]
    body: bytes

    @property
    def text(self) -> str:
        return (gzip.decompress(self.body) if self.headers.get("content-encoding") == "gzip" else self.body).decode()


def get(go_between: GoBetween, path: str = "/", **headers: str) -> Got:
    named = {"Accept-Encoding": "gzip, deflate, br", **{key.replace("_", "-"): it for key, it in headers.items()}}
    request = urllib.request.Request(go_between.address(path), headers=named)
    try:
        with urllib.request.urlopen(request) as answer:
            return Got(answer.status, {key.lower(): it for key, it in answer.headers.items()}, answer.read())
    except HTTPError as it:
        with it:
            return Got(it.code, {key.lower(): value for key, value in it.headers.items()}, it.read())


def loaded(go_between: GoBetween, page: str = "/") -> dict[str, Got]:
    """What a first visit loads, by the paths."""
    html = get(go_between, page)
    return {
        page: html,
        **{it: get(go_between, it) for it in sorted({urljoin(page, it) for it in LOADED.findall(html.text)})},
    }


@pytest.fixture
def page(tmp_path: Path) -> Path:
    folder: Path = shutil.copytree(paths.PAGE, tmp_path / "page")
    return folder


def test_a_first_visit(go_between: GoBetween) -> None:
    got = loaded(go_between)
    assert all(it.status == 200 for it in got.values())
    assert len(got) <= MOST_REQUESTS, list(got)
    assert sum(len(it.body) for it in got.values()) <= MOST_BYTES
    assert [len([it for it in got if it.endswith(end)]) for end in (".js", ".css")] == [1, 1]
    assert LOADED.findall(got["/"].text)[0].endswith(".js")  # what is largest is asked for first
    (script,) = (it.text for path, it in got.items() if path.endswith(".js"))
    assert not IMPORT.search(script)
    assert "Come in" in script and "Halle" in script


def test_a_second_visit_asks_for_the_page_alone(go_between: GoBetween) -> None:
    got = loaded(go_between)
    html = got.pop("/")
    assert html.headers["cache-control"] == "no-cache"
    again = get(go_between, "/", If_None_Match=html.headers["etag"])
    assert (again.status, again.body) == (304, b"")
    for path, it in got.items():
        assert it.headers["cache-control"] == "public, max-age=31536000, immutable", path
        assert it.headers["x-content-type-options"] == "nosniff"


def test_names_stand_for_what_is_in_them(go_between: GoBetween, server: Server, page: Path) -> None:
    before = loaded(go_between)
    text = page / "texts" / "en.js"
    text.write_text(text.read_text().replace('title: "Chess club"', 'title: "Chess circle"', 1))
    other = GoBetween(server.port, page=page)
    try:
        behind = loaded(other)
    finally:
        other.end()
    assert before.keys() & behind.keys() == {it for it in before if not it.endswith(".js")}
    assert all(before[it].body == behind[it].body for it in before.keys() & behind.keys() if it != "/")


def test_who_takes_no_packed_answers(go_between: GoBetween) -> None:
    plain = get(go_between, "/", Accept_Encoding="identity")
    assert "content-encoding" not in plain.headers
    assert plain.text == get(go_between, "/").text
    assert plain.headers["vary"] == "Accept-Encoding"


def test_a_change_is_seen_within_a_second(go_between: GoBetween, page: Path) -> None:
    packed = loaded(go_between)
    (page / "main.js").write_text("// another\n" + (page / "main.js").read_text())
    assert wait_until(lambda: 'src="main.js"' in get(go_between).text, seconds=10)
    assert get(go_between, "/main.js").text.startswith("// another\n")
    for path in packed.keys() - {"/"}:  # of a page that is open
        assert get(go_between, path).body == packed[path].body


def check_served_as_it_is(go_between: GoBetween, page: Path) -> None:
    for path, file in (("/", "index.html"), ("/main.js", "main.js"), ("/css/board.css", "css/board.css")):
        got = get(go_between, path)
        assert (got.status, got.text) == (200, (page / file).read_text())
        assert got.headers["cache-control"] == "no-cache"


def test_a_page_that_cant_be_packed(server: Server, page: Path) -> None:
    (page / "main.js").write_text("const = ;\n")
    it = GoBetween(server.port, page=page)
    try:
        it.until("the page is served in many files: esbuild: ")
        it.until("main.js:1:6")
        check_served_as_it_is(it, page)
    finally:
        it.end()


@pytest.fixture
def nothing_packs(tmp_path: Path, monkeypatch: pytest.MonkeyPatch) -> Iterator[None]:
    """The programs of the system but for the one that packs."""
    folder = tmp_path / "bin"
    folder.mkdir()
    for it in ("python3", "env"):
        found = shutil.which(it, path="/usr/bin")
        assert found
        os.symlink(found, folder / it)
    monkeypatch.setenv("PATH", str(folder))
    yield


def test_without_what_packs(server: Server, page: Path, nothing_packs: None) -> None:
    it = GoBetween(server.port, page=page)
    try:
        it.until("the page is served in many files: Debian's package esbuild isn't there")
        check_served_as_it_is(it, page)
    finally:
        it.end()
