"""Evenings over a server: what is played stands in the archive as it was played."""

import itertools

from tests.kit.running import async_wait_until

from .archived import files_of, half_moves_of
from .conftest import Evening

MATE = "f3 e5 g4 Qh4"


async def test_mate(evening: Evening) -> None:
    await evening.enter("Ann", "Ben")
    await evening.seat()
    await evening.play(MATE)
    [(tags, text)] = await evening.kept()
    assert half_moves_of(text) == ["f3", "e5", "g4", "Qh4#"]
    assert text.rstrip().endswith("{Ann checkmated} 0-1"), text
    wanted = {"White": "Ann", "Black": "Ben", "Result": "0-1", "TimeControl": "300", "Termination": "normal"}
    assert {it: tags[it] for it in wanted} == wanted
    assert "FEN" not in tags


async def test_takeback(evening: Evening) -> None:
    await evening.enter("Ann", "Ben")
    await evening.seat()
    await evening.play("e4 e5 Nf3 Nc6")
    await evening.say("Ann", "takeback 3")
    await evening.say("Ben", "accept")
    await evening.play("d5 exd5", "Ben", "Ann")
    await evening.say("Ben", "resign")
    [(_, text)] = await evening.kept()
    assert half_moves_of(text) == ["e4", "d5", "exd5"]


async def test_crazyhouse_and_fischer_random(evening: Evening) -> None:
    await evening.enter("Ann", "Ben")
    await evening.seat("5 0 crazyhouse")
    await evening.play("e4 d5 exd5 Qxd5 P@e4")
    await evening.say("Ben", "resign")
    await evening.kept()
    await evening.seat("5 0 fischer 0")
    await evening.say("Ann", "resign")
    games = {tags["Variant"]: (tags, text) for tags, text in await evening.kept(2)}
    assert half_moves_of(games["Crazyhouse"][1]) == ["e4", "d5", "exd5", "Qxd5", "P@e4"]
    assert games["Chess960"][0]["FEN"] == "bbqnnrkr/pppppppp/8/8/8/8/PPPPPPPP/BBQNNRKR w HFhf - 0 1"
    assert [it.split("-", 3)[3] for it in files_of(evening.archive)] == ["crazyhouse.pgn", "fischer.pgn"]


async def test_bughouse(evening: Evening) -> None:
    await evening.enter("Ann", "Ben", "Cat", "Dan")
    for one, other in (("Ann", "Dan"), ("Ben", "Cat")):
        await evening.say(one, f"partner {other}")
        await evening.say(other, f"partner {one}")
    await evening.seat("0 0 bughouse")
    await evening.play("e4 d5 exd5")
    await evening.play("e4 e5", "Cat", "Dan")
    await evening.say("Dan", "resign")
    first, second = await evening.kept(2)
    assert (first[0]["Partner"], second[0]["Partner"]) == (second[0]["Link"], first[0]["Link"])
    assert half_moves_of(first[1]) == ["e4", "d5", "exd5"]
    assert half_moves_of(second[1]) == ["e4", "e5"]

    def pairs() -> list[str]:
        return [text for name, text in files_of(evening.archive).items() if name.endswith(".bpgn")]

    assert await async_wait_until(lambda: any(pairs()))  # it is written behind the two games
    [pair] = pairs()
    assert "1A. e4 1a. d5 2A. exd5 1B. e4 1b. e5 {Dan resigns} 0-1" in pair


async def test_again_at_the_same_desk(evening: Evening) -> None:
    """Games of the same two on the same terms, one right behind the other, are each one game."""
    await evening.enter("Ann", "Ben")
    for _ in range(5):
        await evening.seat()
        await evening.play(MATE)
    games = await evening.kept(5)
    assert [half_moves_of(text) for _, text in games] == [["f3", "e5", "g4", "Qh4#"]] * 5


async def test_come_to_late(evening: Evening) -> None:
    evening.stop_scribe()
    await evening.enter("Ann", "Ben")
    await evening.say("Ann", "match ben 5 0 white")
    await evening.say("Ben", "accept")
    await evening.play("e4 e5 Nf3")
    await evening.start_scribe()
    await evening.until_seen("Ann", "Ben")
    await evening.play("Nc6", "Ben", "Ann")
    await evening.say("Ann", "resign")
    [(tags, text)] = await evening.kept()
    assert tags["FEN"] == "rnbqkbnr/pppp1ppp/8/4p3/4P3/5N2/PPPP1PPP/RNBQKB1R b KQkq - 1 2"
    assert half_moves_of(text) == ["Nc6"]


async def test_more_games_than_a_link_looks_on_at(evening: Evening) -> None:
    """Nine givers of simuls, each at a board with each other: 36 games, of which the first link sees 32 and a guest
    the others."""
    names = [f"Giver{it}" for it in "ABCDEFGHI"]
    pairs = list(itertools.combinations(names, 2))
    await evening.enter(*names)
    for name in names:
        await evening.say(name, "simopen")
    for white, black in pairs:
        await evening.say(white, f"match {black} 0 0 white")
        await evening.say(black, f"accept {white}")
    assert await async_wait_until(lambda: len(evening.journals("running")) == len(pairs))
    lookers = [str(it) for it in (await evening.say(names[0], "who")).lines if str(it) not in names]
    assert lookers == ["GuestAAAA", "Scribe"]
    for white, black in pairs:
        await evening.say(white, f"goboard {black}")
        await evening.say(white, "e4")
        await evening.say(black, f"goboard {white}")
        await evening.say(black, "resign")
    games = await evening.kept(len(pairs))
    written = sorted((tags["White"], tags["Black"], *half_moves_of(text)) for tags, text in games)
    assert written == [(*it, "e4") for it in pairs]
