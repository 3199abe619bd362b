"""What is found: the newest first, page by page, by names, variants and results; and what is told of it."""

from pathlib import Path

import pytest
from ficsd_companions.archive import search
from ficsd_companions.archive.addresses import Place, place_of
from ficsd_companions.archive.answers import Archive
from ficsd_companions.archive.search import Wish, found

from .archives import game, put

EVENING = (
    ("Ann", "Ben", "1-0", {}),
    ("Ben", "Ann", "1-0", {}),
    ("Ann", "Annabel", "1/2-1/2", {}),
    ("Cat", "Dan", "*", {"Variant": "Crazyhouse"}),
    ("Dan", "Ann", "0-1", {"Variant": "Crazyhouse"}),
)


@pytest.fixture(scope="module")
def archive(tmp_path_factory: pytest.TempPathFactory) -> Archive:
    """Two days with the same games."""
    folder = tmp_path_factory.mktemp("archive")
    for day in ("2026-11-29", "2026-11-30"):
        for number, (white, black, result, tags) in enumerate(EVENING, 1):
            text = game(number, white, black, result, day, **tags)
            put(folder, text, day, "-crazyhouse.pgn" if tags else ".pgn")
    it = Archive(folder)
    it.index.refresh()
    return it


def links(archive: Archive, most: int = 50, **wish: str) -> tuple[list[str], bool]:
    games, has_more = found(archive.index, Wish(**wish), most)
    return [it.link.removeprefix("2026-11-") for it in games], has_more


def test_all_the_newest_first(archive: Archive) -> None:
    assert links(archive, 3) == (["30/5", "30/4", "30/3"], True)
    assert links(archive, 4, before="2026-11-30/3") == (["30/2", "30/1", "29/5", "29/4"], True)
    assert links(archive, 5, before="2026-11-30/1") == (["29/5", "29/4", "29/3", "29/2", "29/1"], False)


def test_names(archive: Archive) -> None:
    assert links(archive, name="annab") == (["30/3", "29/3"], False)
    assert links(archive, name="ANN", other="b") == (["30/3", "30/2", "30/1", "29/3", "29/2", "29/1"], False)
    assert links(archive, other="cat") == (["30/4", "29/4"], False)
    assert links(archive, name="ben", other="cat") == ([], False)
    assert links(archive, player="Annab") == ([], False)
    assert links(archive, player="dan", before="2026-11-30/5")[0] == ["30/4", "29/5", "29/4"]
    assert links(archive, name="an", most=2, before="2026-11-30/4") == (["30/3", "30/2"], True)


def test_variants_results_and_days(archive: Archive) -> None:
    assert links(archive, variant="crazyhouse")[0] == ["30/5", "30/4", "29/5", "29/4"]
    assert links(archive, variant="crazyhouse", result="*")[0] == ["30/4", "29/4"]
    assert links(archive, day="2026-11-29", result="1-0")[0] == ["29/2", "29/1"]
    assert links(archive, day="2026-11-28") == ([], False)
    assert links(archive, variant="<script>") == ([], False)


def test_players(archive: Archive) -> None:
    assert [it.name for it in search.players(archive.index, "a")] == ["Ann", "Annabel", "Dan", "Cat"]


def test_what_came_of_a_players_games(archive: Archive) -> None:
    told = archive.told(Place("player", "json", name="ann"), {})
    assert (told["name"], told["count"]) == ("Ann", 8)
    assert told["tally"] == {"chess": [2, 2, 2, 0], "crazyhouse": [2, 0, 0, 0]}
    told = archive.told(Place("player", "json", name="Dan"), {"variant": "crazyhouse"})
    assert (told["tally"], len(told["games"])) == ({"crazyhouse": [0, 2, 0, 2]}, 4)
    assert archive.told(Place("player", "json", name="Nobody"), {}) is None


def test_days(archive: Archive) -> None:
    told = archive.told(Place("day", "json", day="2026-11-30"), {})
    assert (told["count"], told["earlier"], told["later"], len(told["games"])) == (5, "2026-11-29", None, 5)
    assert archive.told(Place("day", "json", day="2026-12-24"), {}) is None


def test_a_game_and_those_beside_it(archive: Archive) -> None:
    told = archive.told(Place("game", "json", day="2026-11-30", number=3), {})
    assert (told["link"], told["earlier"], told["later"], told["pair"]) == (
        "2026-11-30/3",
        "2026-11-30/2",
        "2026-11-30/4",
        None,
    )
    assert '[Black "Annabel"]' in told["pgn"]
    assert archive.pgn(Place("game", "pgn", day="2026-11-30", number=3)).decode() == told["pgn"]
    assert archive.told(Place("game", "json", day="2026-11-30", number=6), {}) is None


def test_the_newest_game_of_two(archive: Archive) -> None:
    assert archive.last("Ann", "ben").link == "2026-11-30/1"
    assert archive.last("Ben", "Ann").link == "2026-11-30/2"
    assert archive.last("Cat", "Ann") is None
    assert archive.last("", "") is None


def test_the_first_page(archive: Archive) -> None:
    told = archive.told(Place("found", "json"), {})
    assert (told["count"], told["days"], told["firstDay"], told["lastDay"], told["players"]) == (
        10,
        [["2026-11-30", 5], ["2026-11-29", 5]],
        "2026-11-29",
        "2026-11-30",
        [],
    )
    told = archive.told(Place("found", "json"), {"name": " cat "})
    assert (told["players"], len(told["games"])) == ([["Cat", 2]], 2)


def test_a_text_that_was_changed_a_moment_ago_is_not_another_games(tmp_path: Path) -> None:
    file = put(tmp_path, game(1) + game(2))
    archive = Archive(tmp_path)
    place = Place("game", "json", day="2026-11-30", number=2)
    assert archive.told(place, {}) is not None
    file.write_text(game(2) + game(1))
    assert archive.told(place, {}) is None
    file.unlink()
    assert archive.told(place, {}) is None


def test_places() -> None:
    rows = (
        ("", Place("found", "page")),
        ("found.json", Place("found", "json")),
        ("last", Place("last", "page")),
        ("2026-11-30", Place("day", "page", day="2026-11-30")),
        ("2026-11-30.json", Place("day", "json", day="2026-11-30")),
        ("2026-11-30/17", Place("game", "page", day="2026-11-30", number=17)),
        ("2026-11-30/17.pgn", Place("game", "pgn", day="2026-11-30", number=17)),
        ("player/Ann", Place("player", "page", name="Ann")),
        ("player/<script>.json", Place("player", "json", name="<script>")),
    )
    for path, place in rows:
        assert place_of(path) == place, path


def test_what_is_none() -> None:
    for path in (
        "x",
        "..",
        "../x",
        "2026-11-30/",
        "2026-11-30/0",
        "2026-11-30/017",
        "2026-11-30/../1",
        "player/",
        "player/../x",
        "player/a/b",
        "2026-11-30.pgn",
        "found",
        "found.pgn",
        "2026/2026-11-30.pgn",
        "2026-11-30/17.bpgn",
        "2026-11-30/17.json.json",
        "player/" + "a" * 81,
        "waiting/x.lines",
        "2026-11-30/" + "9" * 12,
        "2026-11-30\n",
    ):
        assert place_of(path) is None, path
