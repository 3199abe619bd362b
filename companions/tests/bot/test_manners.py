"""What the bot does at a board: offers, claims and clocks."""

import time

from ficslink.events import Offered
from ficslink.lines import ChallengeDeclined, OfferDeclined, TakenBack
from tests.bot.conftest import Evening


async def test_challenges(evening: Evening) -> None:
    evening.bot("--variants", "chess", "--minutes", "3..10", "--increments", "0..5")
    ann = await evening.guest("Ann")
    for terms, said in (
        ("5 0 crazyhouse", "I play chess."),
        ("2 0", "I play with 3 to 10 minutes, as in: 5 0 chess"),
        ("3 6", "I play with an increment of 0 to 5 seconds, as in: 5 0 chess"),
    ):
        await ann.does(f"match House {terms}")
        await ann.tell(said)
    await ann.until(lambda it: isinstance(it, ChallengeDeclined), "declined")
    assert (await ann.challenges("3 5 black")).colour == "black"


async def test_help(evening: Evening) -> None:
    evening.bot("--minutes", "3..10")
    ann = await evening.guest("Ann")
    await ann.does("tell House help")
    await ann.tell("To play, type: match House 5 0 chess")
    await ann.tell("I play chess, crazyhouse and fischer, 3 to 10 minutes")


async def test_one_takeback_a_game(evening: Evening) -> None:
    evening.bot()
    ann = await evening.guest("Ann")
    game = await ann.challenges()
    await ann.plays(game, "e2e4", "d2d4")
    await ann.turn(game, 4)
    await ann.member.act(game, "takeback 2")
    await ann.until(lambda it: isinstance(it, TakenBack), "taken back")
    await ann.plays(game, "b1c3")
    await ann.turn(game, 4)
    await ann.member.act(game, "takeback 2")
    await ann.tell("I take back once in a game.")
    assert game.board.ply == 4


async def test_a_takeback_of_what_it_thinks_about(evening: Evening) -> None:
    evening.fake("slow", "--minutes", "0..5")
    ann = await evening.guest("Ann")
    game = await ann.challenges()
    await ann.plays(game, "e2e4")
    await ann.turn(game, 2)
    await ann.member.move(game, "d2d4")
    await ann.member.act(game, "takeback 1")
    await ann.until(lambda it: isinstance(it, TakenBack), "taken back")
    assert (game.board.ply, game.is_my_turn) == (2, True)
    await ann.plays(game, "c2c4")
    await ann.turn(game, 4)
    assert [it.short for it in game.boards] == ["none", "e4", "a6", "c4", "b6"]


async def test_an_abort_before_the_second_move_alone(evening: Evening) -> None:
    evening.bot()
    ann = await evening.guest("Ann")
    game = await ann.challenges()
    await ann.plays(game, "e2e4")
    await ann.turn(game, 2)
    await ann.member.act(game, "abort")
    assert await ann.ended(game) == ("aborted", "*")
    game = await ann.challenges()
    await ann.plays(game, "e2e4", "d2d4")
    await ann.turn(game, 4)
    await ann.member.act(game, "abort")
    await ann.tell("I abort before the second move alone.")
    assert not game.is_over


async def draw_with(evening: Evening, kind: str) -> str:
    """What becomes of a draw that is offered to an engine with that value."""
    evening.fake(kind)
    ann = await evening.guest("Ann")
    game = await ann.challenges("5 0 black")
    await ann.plays(game, "h7h6")
    await ann.turn(game, 3)
    await ann.member.act(game, "draw")
    await ann.until(lambda it: game.is_over or isinstance(it, OfferDeclined), "answered")
    return game.reason


async def test_a_draw_where_it_stands_worse(evening: Evening) -> None:
    assert await draw_with(evening, "worse") == "drawn by agreement"


async def test_no_draw_where_it_stands_better(evening: Evening) -> None:
    assert await draw_with(evening, "better") == ""


async def test_it_claims_a_repetition(evening: Evening) -> None:
    evening.fake("shuffles")
    ann = await evening.guest("Ann")
    game = await ann.challenges("5 0 black")
    await ann.plays(game, "g8f6", "f6g8", "g8f6", "f6g8")
    assert await ann.ended(game) == ("drawn by repetition", "1/2-1/2")
    assert game.board.ply == 8


async def test_it_calls_the_flag_a_second_behind_the_fall(evening: Evening) -> None:
    evening.bot("--minutes", "0..5")
    ann = await evening.guest("Ann")
    game = await ann.challenges("0 1 white")
    await ann.plays(game, "e2e4")
    await ann.turn(game, 2)
    began = time.monotonic()
    assert await ann.ended(game) == ("Ann forfeits on time", "0-1")
    assert time.monotonic() - began > 10.5
    assert not [it for it in ann.events if isinstance(it, Offered)]


async def test_it_adjourns_where_both_have_accounts(evening: Evening) -> None:
    evening.with_account()
    ann = await evening.guest("Ann", "swordfish")
    game = await ann.challenges()
    await ann.plays(game, "e2e4")
    await ann.turn(game, 2)
    await ann.member.act(game, "adjourn")
    assert await ann.ended(game) == ("adjourned", "*")
