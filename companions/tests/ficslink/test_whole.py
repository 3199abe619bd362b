"""Whole games over the real server: each move is one that an engine finds legal in the game's FEN, and that is the
position to which the engine comes by the game's moves."""

import asyncio
import random
import re
import time
from pathlib import Path

import pytest

from ficslink import Game, lines
from ficslink.arrays import array
from ficslink.errors import Closed, RefusalError
from ficslink.events import Began, CameAgain, Ended, LinkLost, Offered, Turn
from ficslink.member import Member
from ficslink.refusals import Refusal
from tests.ficslink.conftest import Begin, Evening, until
from tests.ficslink.engines import Engine
from tests.kit import records
from tests.kit.running import Server, async_wait_until

HALF_MOVES = 120
SHELF = 10_000  # adjourned games and desks in use together
SEED = 59
USUAL = "rnbqkbnr/pppppppp/8/8/8/8/PPPPPPPP/RNBQKBNR"


def placed(fen: str) -> str:
    """A FEN without the square of a double push, which engines name only where it matters, and in crazyhouse without
    the quiet half-moves, among which Fairy-Stockfish counts drops."""
    return re.sub(r"^(\S+\] \S+ \S+) \S+ \d+|^(\S+ \S+ \S+) \S+", r"\1\2 -", fen)


async def play(evening: Evening, engine: Engine, terms: str, start: str, by_rook: bool = False) -> Game:
    """Two members play by random moves; the game."""
    white, black = await evening.enter("Ann", "Ben", stamped=True)
    draw = random.Random(SEED)
    await white.do(f"match Ben {terms} white")
    await until(black, lines.Challenge)
    await black.do("accept")
    games = [(await until(it, Began)).game for it in (white, black)]
    for ply in range(HALF_MOVES):
        mover, game = (white, black)[ply % 2], games[ply % 2]
        if isinstance(await until(mover, Turn, Ended), Ended):
            break
        assert placed(engine.fen(game.fen())) == placed(engine.fen(start, game.moves(by_rook)))
        await mover.move(game, draw.choice(engine.moves(game.fen())))
    assert games[0].board.ply > 20
    assert games[0].board.ply == len(games[0].moves())
    return games[0]


async def test_chess(evening: Evening, engines: Begin) -> None:
    await play(evening, engines("stockfish"), "0 0", USUAL + " w KQkq - 0 1")


async def test_crazyhouse(evening: Evening, engines: Begin) -> None:
    engine = engines("fairy-stockfish", UCI_Variant="crazyhouse")
    game = await play(evening, engine, "0 0 crazyhouse", USUAL + "[] w KQkq - 0 1")
    assert any("@" in it for it in game.moves())


async def test_fischer_random(evening: Evening, engines: Begin) -> None:
    engine = engines("stockfish", UCI_Chess960="true")
    rank = array(468)
    start = f"{rank.lower()}/pppppppp/8/8/8/8/PPPPPPPP/{rank} w GAga - 0 1"
    game = await play(evening, engine, "0 0 fischer 468", start, by_rook=True)
    assert game.boards[0].ranks[7] == "RBBNNKRQ"


async def test_arrays_are_the_servers(evening: Evening) -> None:
    ann, ben = await evening.enter("Ann", "Ben")
    for number in (0, 1, 137, 518, 700, 959):
        await ann.do(f"match ben 0 0 fischer {number} white")
        await ben.do("accept ann")
        game = (await until(ann, Began)).game
        assert (game.board.ranks[7], game.array) == (array(number), array(number))
        await ann.act(game, "resign")
        await until(ben, Ended)  # until then he has a game


async def test_the_opponents_move_is_heard_without_asking(evening: Evening) -> None:
    ann, ben = await evening.enter("Ann", "Ben")
    await ann.do("match ben 0 0 white")
    await ben.do("accept ann")
    games = [(await until(it, Began)).game for it in (ann, ben)]
    await until(ann, Turn)
    taken = []
    for ply in range(24):
        mover, other = (ann, ben) if ply % 2 == 0 else (ben, ann)
        await asyncio.sleep(random.random() * 0.1)  # so that the server looks at the links at any moment meanwhile
        begin = time.monotonic()
        await mover.move(games[ply % 2], ("Nf3", "Nf6", "Ng1", "Ng8")[ply % 4])
        await until(other, Turn)
        taken.append(time.monotonic() - begin)
    assert sorted(taken)[12] < 0.5


async def test_a_simul(evening: Evening) -> None:
    giver, *others = await evening.enter("Giver", "Ann", "Ben", "Cat")
    await giver.do("simopen")
    for it in others:
        await it.do("match giver 0 0")
        await giver.do(f"accept {it.name}")
        await until(it, Began)
        await until(giver, Turn)
    games = {it.opponent: it for it in giver.own_games}
    assert sorted(games) == ["Ann", "Ben", "Cat"]
    # all at once, in another order than that of the circle
    await asyncio.gather(
        *(giver.move(games[name], word) for name, word in (("Cat", "e4"), ("Ann", "d4"), ("Ben", "c4")))
    )
    for it in others:
        await until(it, Turn)
        await it.move(it.own_games[0], "e5")
    for _ in others:
        await until(giver, Turn)
    assert {name: it.moves() for name, it in games.items()} == {
        "Ann": ["d2d4", "e7e5"],
        "Ben": ["c2c4", "e7e5"],
        "Cat": ["e2e4", "e7e5"],
    }
    await giver.act(games["Ben"], "draw")
    await until(others[1], Offered)
    await others[1].act(others[1].own_games[0], "accept")
    ended = await until(giver, Ended)
    assert (ended.game.opponent, ended.game.reason) == ("Ben", "drawn by agreement")
    assert [it.opponent for it in giver.own_games] == ["Ann", "Cat"]


async def test_bughouse(evening: Evening) -> None:
    four = await evening.enter("Ann", "Ben", "Cat", "Dan")
    ann, ben, cat, dan = four
    for one, other in ((ann, ben), (cat, dan)):
        await one.do(f"partner {other.name}")
        await other.do(f"partner {one.name}")
    await ann.do("match cat 0 0 bughouse white")
    await cat.do("accept ann")
    for it in four:
        await until(it, Began)
        await until(it, Began)
        assert sorted(game.role for game in it.games.values()) == ["own", "partner's"]
    own = {it.name: it.own_games[0] for it in four}
    for mover, word in ((ann, "e4"), (cat, "d5"), (ann, "exd5")):
        await mover.move(own[mover.name], word)
    # Ann's pawn goes to her partner, who has Black
    await dan.move(own["Dan"], "e4")
    await until(ben, Turn)
    assert own["Ben"].hands == ("", "P")
    await ben.move(own["Ben"], "P@e5")
    assert own["Ben"].moves() == ["e2e4", "P@e5"]
    await dan.act(own["Dan"], "resign")
    assert own["Dan"].won is False


async def test_the_servers_end_in_the_midst_of_a_game(evening: Evening) -> None:
    ann, ben = await evening.enter("Ann", "Ben")
    for it, password in ((ann, "swordfish"), (ben, "knight")):
        await it.register(password)
    await ann.do("match ben 2 12 white")
    await ben.do("accept ann")
    game = (await until(ann, Began)).game
    await ann.move(game, "e4")
    await until(ben, Turn)
    await ann.act(game, "adjourn")
    await ben.do("adjourn")
    await until(ann, Ended)
    server = evening.server
    assert await async_wait_until(lambda: server.kept() == "ok: 2 accounts, 1 games")
    server.end()
    for it in (ann, ben):
        await until(it, LinkLost)
        with pytest.raises(Closed):
            await it.do("who")
    evening.server = await asyncio.to_thread(Server, server.store, server.port)
    for it in (ann, ben):
        await until(it, CameAgain)
        assert it.is_registered
    await ann.do("resume ben")
    await until(ben, lines.ResumeAsked)
    await ben.do("resume ann")
    began = (await until(ben, Began)).game
    assert began.is_my_turn
    assert (began.board.short, str(began.terms)) == ("e4", "2 12 chess")


async def test_a_name_that_is_taken_and_one_that_is_none(evening: Evening) -> None:
    await evening.enter("Ann")
    for name, number in (("ann", 24), ("A1", 22)):
        with pytest.raises(RefusalError) as why:
            await Member.enter("127.0.0.1", evening.server.port, name)
        assert why.value.number == number


async def test_a_full_shelf(tmp_path: Path) -> None:
    store = tmp_path / "full.db"
    accounts = [records.account(it, records.PASSWORD) for it in ("Ann", "Ben")]
    records.make_store(store, accounts + [records.game(n, "Ann", "Ben", ()) for n in range(1, SHELF)])
    evening = Evening(Server(store))
    cat, dan, eve, fay = await evening.enter("Cat", "Dan", "Eve", "Fay")
    await cat.do("match dan 0 0")
    await dan.do("accept cat")
    await eve.do("match fay 0 0")
    with pytest.raises(RefusalError) as refused:
        await fay.do("accept eve")
    assert (refused.value.number, refused.value.name) == (45, "ShelfFull")
    assert refused.value.refusal is Refusal.SHELF_FULL
    evening.server.end()
    for it in evening.members:
        await it.leave()
