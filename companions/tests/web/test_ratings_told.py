"""Ratings below `/games/`, as the go-between tells them: where the operator has chosen so, and nowhere else."""

import json
from pathlib import Path
from typing import Any

import pytest

from tests.archive.archives import put
from tests.kit.go_between import FROM_ONE
from tests.kit.running import async_wait_until
from tests.ratings import paper
from tests.ratings.evenings import put_days, rated

from .asked import asked
from .played import Played


@pytest.fixture
def archive(tmp_path: Path) -> Path:
    folder = tmp_path / "archive"
    folder.mkdir()
    return folder


@pytest.fixture
def words(archive: Path, request: pytest.FixtureRequest) -> tuple[object, ...]:
    mark = request.node.get_closest_marker("words")
    return *FROM_ONE, "--archive", archive, *(mark.args if mark else ("--ratings",))


@pytest.fixture
async def served(played: Played, archive: Path) -> Played:
    """A go-between with an archive that has some days by now."""
    played.page.joinpath("games.html").write_text("<title>Games</title>")
    days = put_days(archive, 20)
    put(archive, rated(90, "Ann", "Ben", day=days[-1]) + rated(91, "Ann", "House", day=days[-1]), days[-1])

    async def are_found() -> bool:
        return (await asked(played.go_between.port, f"/games/{days[-1]}/91.pgn")).status == 200

    assert await async_wait_until(are_found)
    return played


async def told(served: Played, path: str) -> Any:
    answer = await asked(served.go_between.port, path)
    assert answer.status == 200, path
    return json.loads(answer.body)


def figures(archive: Path, pool: str, name: str) -> tuple[int, int]:
    r, rd, _ = paper.rate(archive)[pool, name]
    return round(r), round(rd)


async def test_players_ladders_and_games(served: Played, archive: Path) -> None:
    player = await told(served, "/games/player/ann.json")
    its = {it["pool"]: (it["points"], it["deviation"]) for it in player["ratings"]}
    assert its == {pool: figures(archive, pool, "Ann") for pool, name in paper.rate(archive) if name == "Ann"}
    for it in player["ratings"]:
        days = [day for day, _, _ in it["curve"]]
        assert days == sorted(days) and it["curve"][-1][1] == it["points"]
    ladder = await told(served, "/games/ladder/blitz.json")
    shown = {it["name"]: (it["points"], it["deviation"]) for it in ladder["rows"]}
    assert shown == {name: figures(archive, "blitz", name) for pool, name in paper.rate(archive) if pool == "blitz"}
    sure = [it["points"] for it in ladder["rows"] if not it["isProvisional"]]
    assert sure == sorted(sure, reverse=True)
    assert [it["isProvisional"] for it in ladder["rows"]] == sorted(it["isProvisional"] for it in ladder["rows"])
    last = (await told(served, "/games/found.json"))["games"]
    verdicts = [(await told(served, f"/games/{it['link']}.json"))["rated"] for it in last[:2]]
    assert verdicts == [{"why": "PROGRAM", "who": "House", "pool": ""}, {"why": "RATED", "who": "", "pool": "blitz"}]
    assert (await asked(served.go_between.port, "/games/ladder/blitz")).status == 200
    assert (await asked(served.go_between.port, "/games/ladder/chess")).status == 404
    assert (await asked(served.go_between.port, "/games/ladder/chess.json")).status == 404


async def test_some_names(served: Played, archive: Path) -> None:
    found = await told(served, "/games/ratings.json?names=Ann,ben,Nobody,House")
    assert set(found) == {"Ann", "ben"}
    assert [it["games"] for it in found["Ann"]] == sorted((it["games"] for it in found["Ann"]), reverse=True)
    assert {it["pool"]: it["points"] for it in found["ben"]}["blitz"] == figures(archive, "blitz", "Ben")[0]
    assert await told(served, "/games/ratings.json") == {}


@pytest.mark.words("--tabs-from-one", 1)
async def test_where_nobody_has_chosen_so_nothing_is_told(served: Played) -> None:
    for path in ("/games/ladder/blitz", "/games/ladder/blitz.json", "/games/ratings.json?names=Ann"):
        assert (await asked(served.go_between.port, path)).status == 404, path
    assert "ratings" not in await told(served, "/games/player/ann.json")
    found = await told(served, "/games/found.json")
    assert "ladders" not in found
    assert "rated" not in await told(served, f"/games/{found['games'][0]['link']}.json")
