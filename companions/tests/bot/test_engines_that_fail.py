"""An engine that dies, answers nonsense or an illegal half-move, or nothing: the game goes on by legal half-moves."""

import os
import signal

from ficslink import Game
from tests.bot.conftest import Bot, Evening
from tests.kit.guests import Guest
from tests.kit.running import running


async def fails(evening: Evening, kind: str, half_moves: int = 3) -> tuple[Bot, Guest, Game]:
    """A game against an engine of that kind; the bot's run, Ann and the game."""
    run = evening.fake(kind)
    ann = await evening.guest("Ann")
    game = await ann.challenges("5 0 white")
    await ann.plays(game, *("e2e4", "d2d4", "b1c3")[:half_moves])
    await ann.turn(game, 2 * half_moves)
    return run, ann, game


async def test_one_that_dies_is_started_again(evening: Evening) -> None:
    run, _, game = await fails(evening, "dies")
    run.until(r"has ended by SIGKILL, and is started again; the board is \S+ b ")
    assert [str(it.short) for it in game.boards[2::2]] == ["a6", "b6", "c6"], "they are all its own"


async def test_one_that_is_killed_between_half_moves(evening: Evening) -> None:
    run, ann, game = await fails(evening, "better", 2)
    for process in running(evening.folder / "better"):
        os.kill(process, signal.SIGKILL)
    await ann.plays(game, "g1f3")
    await ann.turn(game, 6)
    run.until("has ended by SIGKILL, and is started again")
    assert game.board.short == "c6", "that is its own"


async def test_nonsense(evening: Evening) -> None:
    run, ann, game = await fails(evening, "nonsense")
    run.until(r"answers 'bestmove h.*x', which is no half-move; the board is rnbqkbnr/\S+ b ", times=3)
    await ann.tell("My engine has failed several times; I offer to abort.")
    await ann.until(lambda it: "abort" in [offer.kind for offer in game.offers], "offered an abort")
    await ann.member.act(game, "abort")
    assert await ann.ended(game) == ("aborted", "*")
    assert not any("\x1b" in it for it in run.log), "its bytes for a terminal don't come to the log"


async def test_an_illegal_half_move(evening: Evening) -> None:
    run, _, _ = await fails(evening, "illegal")
    run.until(r"it answers a1a8, which is refused; the board is \S+ b ", times=3)


async def test_one_that_is_silent(evening: Evening) -> None:
    run = evening.fake("silent", "--minutes", "0..5")
    ann = await evening.guest("Ann")
    game = await ann.challenges("1 0 white")
    await ann.plays(game, "e2e4", "d2d4", "c2c3")
    await ann.turn(game, 6)
    run.until(r"answers nothing within \d+\.\d seconds; the board is ", times=3)
    assert (game.left("black") or 0) > 0


async def test_one_that_hangs_as_it_starts_anew(evening: Evening) -> None:
    """Its start is within the budget of the half-move, and the game isn't lost by it."""
    run = evening.fake("mute", "--minutes", "0..5")
    ann = await evening.guest("Ann")
    game = await ann.challenges("0 3 white")
    await ann.plays(game, "e2e4", "d2d4", "c2c3")
    await ann.turn(game, 6)
    run.until("has ended by SIGKILL, and is started again")
    run.until(r"the engine isn't ready within \d+\.\d seconds; the board is ", times=2)
    assert (game.left("black") or 0) > 0


async def test_one_that_always_dies(evening: Evening) -> None:
    run, _, _ = await fails(evening, "always dies")
    run.until("has ended with status 3, behind 'no more'; the board is ", times=3)
