"""Games that go on: adjourned ones that are resumed, and those beside which the server or the scribe ended."""

from tests.kit import paths
from tests.kit.running import async_wait_until, ended

from .archived import games_of, half_moves_of
from .conftest import Evening

MATE = "f3 e5 g4 Qh4"


async def test_adjourned_and_resumed(evening: Evening) -> None:
    await evening.register("Ann", "Ben")
    await evening.seat()
    await evening.play("e4 e5 Nf3")
    await evening.say("Ann", "adjourn")
    await evening.say("Ben", "accept")
    await evening.until_waits()
    assert games_of(evening.archive) == []
    evening.stop_scribe()
    await evening.start_scribe()
    await evening.say("Ann", "resume ben")
    await evening.say("Ben", "resume ann")
    await evening.until_seen("Ann", "Ben")
    await evening.play("Nc6", "Ben", "Ann")
    await evening.say("Ann", "resign")
    [(tags, text)] = await evening.kept()
    assert half_moves_of(text) == ["e4", "e5", "Nf3", "Nc6"]
    assert "FEN" not in tags


async def test_the_server_ends(evening: Evening) -> None:
    """A game that the server's end adjourned is one game, once it goes on at the next one."""
    await evening.register("Ann", "Ben")
    await evening.seat()
    await evening.play("e4 e5")
    for name in ("Ann", "Ben"):
        await evening.players.pop(name).close()
    check = paths.program, "check", "--store", evening.store
    assert await async_wait_until(lambda: ended(*check).stdout == "ok: 2 accounts, 1 games\n")
    evening.server.terminate()
    evening.start_server()
    await evening.until_scribe_is_in()
    for name in ("Ann", "Ben"):
        await evening.enter(name, password=name)
    await evening.say("Ann", "resume ben")
    await evening.say("Ben", "resume ann")
    await evening.until_seen("Ann", "Ben")
    await evening.play("Nf3", "Ann", "Ben")
    await evening.say("Ben", "resign")
    [(tags, text)] = await evening.kept()
    assert half_moves_of(text) == ["e4", "e5", "Nf3"]
    assert "FEN" not in tags


async def test_twenty_times(evening: Evening) -> None:
    """Twice in each of ten games the scribe is killed, and one half-move is made before the next one looks on."""
    await evening.enter("Ann", "Ben")
    for _ in range(10):
        await evening.seat()
        words = MATE.split()
        for at, word in enumerate(words):
            if at in (1, 2):
                await evening.until_told(words[at - 1])
                evening.kill_scribe()
            await evening.say(("Ann", "Ben")[at % 2], word)
            if at in (1, 2):
                await evening.start_scribe()
                await evening.until_told(word)
    games = await evening.kept(10)
    assert [half_moves_of(text) for _, text in games] == [["f3", "e5", "g4", "Qh4#"]] * 10
    assert [tags["Link"].split("/")[1] for tags, _ in games] == [str(it) for it in range(1, 11)]
    assert all("FEN" not in tags for tags, _ in games)


async def test_the_game_ends_meanwhile(evening: Evening) -> None:
    """What was seen of it waits, and nothing is made up."""
    await evening.enter("Ann", "Ben")
    await evening.seat()
    await evening.play("f3 e5 g4")
    await evening.until_told("g4")
    evening.kill_scribe()
    await evening.play("Qh4", "Ben", "Ann")
    await evening.start_scribe()
    await evening.until_waits()
    [waiting] = evening.journals("waiting")
    assert " g4 0\n" in waiting.read_text(encoding="utf-8")
    assert games_of(evening.archive) == []
