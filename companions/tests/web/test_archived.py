"""The archive below `/games/`, as the go-between serves it: what is there, what isn't, and who else waits for it."""

import asyncio
import json
import re
from pathlib import Path
from typing import Any

import pytest

from tests.archive.archives import game, put
from tests.kit.go_between import FROM_ONE
from tests.kit.running import async_wait_until

from . import boards
from .asked import Answer, asked
from .played import Played

SCRIPT = "<script>document.title='x'</script>"
NOTHING = (
    "/games/x",
    "/games/../secret.txt",
    "/games/%2e%2e/secret.txt",
    "/games/..%2fsecret.txt",
    "/games//etc/passwd",
    "/games/2026/2026-11-30.pgn",
    "/games/waiting/a.lines",
    "/games/2026-11-30/1.bpgn",
    "/games/%00",
    "/games/2026-11-30/..",
    "/games/player/",
    "/games/" + "a" * 4000,
)
EMPTY = ("/games/2026-11-30/99", "/games/2026-11-29", "/games/player/Nobody")
MOST_LISTS = 40  # of which 17 requests each are far more than an address has
REFILLS = 4  # seconds
GAMES = 20_000
LONGEST_WAIT = 0.1  # seconds of processor time between a tab's line and its answer
POLICY = "default-src 'self'; base-uri 'none'; form-action 'self'; frame-ancestors 'none'"


@pytest.fixture
def archive(tmp_path: Path) -> Path:
    folder = tmp_path / "archive"
    folder.mkdir()
    (folder / "secret.txt").write_text("secret")
    return folder


@pytest.fixture
def words(archive: Path, request: pytest.FixtureRequest) -> tuple[object, ...]:
    mark = request.node.get_closest_marker("words")
    return *(mark.args if mark else FROM_ONE), "--archive", archive


@pytest.fixture
async def served(played: Played) -> Played:
    """A go-between with an archive, and its page for it."""
    played.page.joinpath("games.html").write_text("<title>Games</title>")
    return played


async def get(served: Played, path: str, **words: str) -> Answer:
    """The answer of exactly this path."""
    answer = await asked(served.go_between.port, path, **words)
    assert answer.headers["content-security-policy"] == POLICY
    assert answer.headers["x-content-type-options"] == "nosniff"
    return answer


async def told(served: Played, path: str) -> Any:
    status, headers, body = await get(served, path)
    assert (status, headers["content-type"].split(";")[0]) == (200, "application/json")
    return json.loads(body)


async def add(served: Played, archive: Path, *games: str) -> None:
    """Puts games into the archive, and waits until the go-between has found them."""
    put(archive, "".join(games))
    link = re.findall(r'\[Link "(.*)"\]', games[-1])[0]

    async def is_found() -> bool:
        return (await get(served, f"/games/{link}.pgn")).status == 200

    assert await async_wait_until(is_found)


async def test_pages_lists_and_games(served: Played, archive: Path) -> None:
    await add(served, archive, game(1), game(2, "Cat"))
    for path in ("/games/", "/games/?name=ann", "/games/2026-11-30", "/games/2026-11-30/2", "/games/player/ann"):
        status, headers, body = await get(served, path)
        assert (status, body) == (200, "<title>Games</title>"), path
        assert headers["content-type"] == "text/html; charset=utf-8"
    assert [it["link"] for it in (await told(served, "/games/found.json"))["games"]] == ["2026-11-30/2", "2026-11-30/1"]
    assert (await told(served, "/games/player/CAT.json"))["tally"] == {"chess": [1, 0, 0, 0]}
    assert (await told(served, "/games/2026-11-30.json"))["count"] == 2
    assert (await told(served, "/games/2026-11-30/1.json"))["pgn"] == game(1)
    status, headers, body = await get(served, "/games/2026-11-30/2.pgn")
    assert (status, body) == (200, game(2, "Cat"))
    assert headers["content-disposition"] == 'attachment; filename="2026-11-30-2.pgn"'


async def test_what_there_was_of_a_game_that_is_played(served: Played, archive: Path) -> None:
    head = {"games": [[3, "Ann", "Ben", "2 12 chess"], [4, "Cat", "Dan", "2 12 chess"]], "begun": "2026-11-30T20:00:00"}
    lines = (
        boards.start(0, game=3),
        "Ann kibitzes: <12> hi",
        boards.after_e4(0, game=3),
        "<b1> game 3 white [] black []",
    )
    running = archive / "running"
    running.mkdir()
    (running / "20261130T200000-3-Ann-Ben.lines").write_text("\n".join([json.dumps(head), *lines, "<12> cut o"]))
    (running / "20261130T210000-5-Eve-Fay.lines").write_text("no journal\n")
    for path in ("3/Ann/Ben", "4/Cat/Dan"):
        assert await told(served, f"/games/now/{path}.json") == [lines[0], *lines[2:]]
    for path in ("3/Ben/Ann", "5/Eve/Fay", "3/Ann/Cat"):
        assert await told(served, f"/games/now/{path}.json") == []
    for path in ("3/Ann", "3/Ann/..", "3/Ann/%2e%2e", "x/Ann/Ben", "3/Ann/Ben%00"):
        assert (await get(served, f"/games/now/{path}.json")).status == 404, path


async def test_games_that_come_later(served: Played, archive: Path) -> None:
    await add(served, archive, game(1))
    assert (await told(served, "/games/found.json"))["count"] == 1
    await add(served, archive, game(2))
    assert (await told(served, "/games/found.json"))["count"] == 2


async def test_what_is_not_there(served: Played, archive: Path) -> None:
    await add(served, archive, game(1))
    for path in NOTHING:
        status, _, body = await get(served, path)
        assert status == 404, path
        assert "secret" not in body
        assert "Games" not in body
    for path in EMPTY:
        status, _, body = await get(served, path)
        assert (status, body) == (404, "<title>Games</title>"), path
        assert (await get(served, f"{path}.json")).status == 404
    assert (await get(served, "/games/2026-11-30/99.pgn")).status == 404


async def test_addresses_that_lead_elsewhere(served: Played, archive: Path) -> None:
    await add(served, archive, game(1, result="1/2-1/2"))
    rows = (
        ("/games", 301, "/games/"),
        ("/games/last?white=Ann&black=Ben&result=1/2-1/2&half-moves=2", 302, "/games/2026-11-30/1"),
        ("/games/last?white=Ann&black=Ben&result=1-0&half-moves=2", 302, "/games/?name=ann&other=ben"),
        ("/games/last?white=//evil.example", 302, "/games/?name=//evil.example&other="),
        ("/games/last?white=a%0d%0aset-cookie:x", 302, "/games/?name=a%0d%0aset-cookie:x&other="),
    )
    for path, status, address in rows:
        found = await get(served, path)
        assert (found.status, found.headers["location"]) == (status, address)


async def test_names_that_are_no_names(served: Played, archive: Path) -> None:
    await add(served, archive, game(1, SCRIPT, "x" * 5000), game(2, "Müller", "Ben"))
    rows = (await told(served, "/games/found.json"))["games"]
    assert [len(it["black"]) for it in rows] == [3, 80]
    status, headers, body = await get(served, "/games/player/%3Cscript%3E.json")
    assert (status, "script" in body) == (404, False)
    assert (await told(served, "/games/player/M%C3%BCller.json"))["name"] == "Müller"


async def test_nothing_is_written(served: Played, archive: Path) -> None:
    await add(served, archive, game(1))
    before = sorted(str(it) for it in archive.rglob("*"))
    for path in ("/games/", "/games/found.json?name=a", "/games/2026-11-30/1.json", "/games/x"):
        await get(served, path)
    assert sorted(str(it) for it in archive.rglob("*")) == before
    for method in ("POST", "PUT", "DELETE"):
        assert (await get(served, "/games/2026-11-30/1", method=method)).status == 405


@pytest.mark.words("--tabs-from-one", 1)  # an address has 8 requests a second and 128 at once
async def test_lists_without_end(served: Played, archive: Path) -> None:
    """A list counts for many requests: who asks for one after the other is refused, and let in a little later."""
    await add(served, archive, game(1))
    statuses = [200]
    while statuses[-1] == 200:
        statuses.append((await get(served, "/games/found.json")).status)
    assert statuses[-1] == 429
    assert len(statuses) < MOST_LISTS
    await asyncio.sleep(REFILLS)  # who asks meanwhile has fewer again
    assert (await get(served, "/games/found.json")).status == 200


async def test_a_page_is_told_that_there_is_an_archive(played: Played) -> None:
    _, answer = await played.seat()
    assert answer["archive"] is True


@pytest.fixture
def large(archive: Path) -> None:
    """20 days of games."""
    movetext = "1. e4 {[%clk 0:05:00] [%emt 0:00:00]} " * 40
    for day in range(1, 21):
        name = f"2025-01-{day:02}"
        numbers = range(1, GAMES // 20 + 1)
        put(archive, "".join(game(n, f"P{n % 97}", f"Q{n % 89}", day=name, movetext=movetext) for n in numbers), name)


def seconds(played: Played) -> float:
    """The processor time of all threads of the go-between, of which one at a time runs."""
    files = Path(f"/proc/{played.go_between.id}/task").glob("*/schedstat")
    return sum(int(it.read_text().split()[0]) for it in files) / 1e9


async def test_others_meanwhile(large: None, served: Played) -> None:
    """No other tab's line waits long for a search through all of 20,000 games, nor for their reading."""
    tab, end = await served.entered()
    search = asyncio.create_task(told(served, "/games/found.json?result=*"))
    waits = []
    while not search.done():
        before = seconds(served)
        await tab.send("zz 1")
        await end.line()
        await end.say("Ok.\n\rfics% ")
        await tab.part()
        waits.append(seconds(served) - before)
    found = await search
    assert (found["count"], found["games"]) == (GAMES, [])
    assert len(waits) > 20
    assert max(waits) < LONGEST_WAIT
