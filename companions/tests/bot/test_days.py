"""Another day: adjourned games that go on, links that are lost, and how the bot leaves."""

import signal

import pytest

from ficslink import RefusalError
from tests.bot.conftest import Evening
from tests.kit.guests import Guest
from tests.kit.running import Server, running, wait_until


async def adjourned(evening: Evening) -> Guest:
    """Ann, who has an account, and a game with House that lies on the shelf, behind 1. e4 and a half-move."""
    ann = await evening.guest("Ann", "swordfish")
    game = await ann.challenges()
    await ann.plays(game, "e2e4")
    await ann.turn(game, 2)
    await ann.member.act(game, "adjourn")
    await ann.ended(game)
    return ann


async def goes_on(ann: Guest) -> None:
    """The adjourned game goes on, and the bot answers two half-moves."""
    game = await ann.game()
    assert game.board.ply == 2
    await ann.plays_on(game, 2)
    await ann.turn(game, 6)


async def test_it_resumes_where_it_is_asked(evening: Evening) -> None:
    run = evening.with_account("--most", "3")
    ann = await adjourned(evening)
    await ann.does("resume House")
    await goes_on(ann)
    assert not [it for it in run.log if "any half-move" in it]


async def test_it_asks_once_the_other_is_there(evening: Evening) -> None:
    run = evening.with_account()
    await (await adjourned(evening)).leave()
    assert run.terminate() == 0
    again = evening.with_account()
    ann = await evening.guest("Ann", "swordfish")
    await ann.hears("House asks to resume.")
    await ann.does("resume House")
    await goes_on(ann)
    assert not [it for it in again.log if "any half-move" in it], "the house knows the half-moves"


async def test_a_game_whose_half_moves_are_lost_goes_on_all_the_same(evening: Evening) -> None:
    run = evening.with_account()
    ann = await adjourned(evening)
    run.terminate()
    (evening.folder / "games").unlink()
    again = evening.with_account()
    await ann.hears("House asks to resume.")
    await ann.does("resume House")
    await goes_on(ann)
    again.until("any half-move that the server takes; the board is ", times=2)


async def test_a_bot_that_is_killed_leaves_an_adjourned_game_and_goes_on_with_it(evening: Evening) -> None:
    run = evening.with_account()
    ann = await evening.guest("Ann", "swordfish")
    game = await ann.challenges()
    await ann.plays_on(game, 2)
    await ann.turn(game, 4)
    run.end()
    assert await ann.ended(game) == ("adjourned", "*")
    again = evening.with_account()
    await ann.hears("House asks to resume.")
    await ann.does("resume House")
    game = await ann.game()
    assert game.board.ply == 4
    await ann.plays_on(game, 1)
    await ann.turn(game, 6)
    assert not [it for it in again.log if "any half-move" in it]


async def test_its_engine_ends_with_it(evening: Evening) -> None:
    run = evening.fake("better")
    ann = await evening.guest("Ann")
    game = await ann.challenges()
    await ann.plays(game, "e2e4")
    await ann.turn(game, 2)
    engine = evening.folder / "better"
    assert running(engine)
    run.end()
    assert wait_until(lambda: not running(engine))


async def test_a_server_that_is_killed_and_comes_again(evening: Evening) -> None:
    run = evening.with_account("--seek", "5 0")
    await evening.guest("Ann", "swordfish")
    assert wait_until(lambda: evening.server.kept() == "ok: 2 accounts, 0 games")
    evening.server.end()
    run.until("the link is lost: ")
    evening.runs.append(Server(evening.folder / "club.db", evening.server.port))
    run.until("in again, as House")
    ben = await evening.guest("Ben")
    await ben.answered("sought", lambda texts: any(" House " in it for it in texts))


async def test_a_server_that_doesnt_come_again(evening: Evening) -> None:
    run = evening.bot("--patience", "2")
    evening.server.end()
    assert run.rest() == 1
    run.until("the server isn't back after 2 seconds")


async def test_told_to_leave_it_adjourns(evening: Evening) -> None:
    run = evening.with_account("--seek", "5 0")
    ann = await evening.guest("Ann", "swordfish")
    game = await ann.challenges()
    await ann.plays(game, "e2e4")
    await ann.turn(game, 2)
    assert run.terminate() == 0
    assert await ann.ended(game) == ("adjourned", "*")
    assert run.out == ["ready", "closed"]
    assert await ann.does("stored") == ["1 Ann House 5 0 chess"]


async def test_told_to_leave_it_finishes_what_cant_be_adjourned(evening: Evening) -> None:
    run = evening.bot("--grace", "60")
    ann = await evening.guest("Ann")
    game = await ann.challenges()
    run.process.send_signal(signal.SIGTERM)
    await ann.tell("I am leaving, and offer to adjourn.")
    ben = await evening.guest("Ben")
    with pytest.raises(RefusalError):
        await ben.does("match House 5 0")
    await ann.plays(game, "e2e4", "d2d4")
    await ann.turn(game, 4)
    await ann.member.act(game, "resign")
    assert run.rest() == 0
    assert await ann.ended(game) == ("Ann resigns", "0-1")


async def test_the_grace_has_an_end_and_a_second_signal_is_at_once(evening: Evening) -> None:
    for grace, signals in (("1", 1), ("3600", 2)):
        run = evening.bot("--grace", grace)
        ann = await evening.guest("Ann")
        game = await ann.challenges()
        for _ in range(signals):
            run.process.send_signal(signal.SIGTERM)
            run.until("told to leave")
        assert run.rest() == 0
        assert await ann.ended(game) == ("House forfeits by disconnection", "1-0")
        await ann.leave()


async def test_it_leaves_behind_so_many_games(evening: Evening) -> None:
    run = evening.bot("--count", "2")
    ann = await evening.guest("Ann")
    for _ in range(2):
        game = await ann.challenges()
        await ann.member.act(game, "resign")
        await ann.ended(game)
    assert run.rest() == 0
