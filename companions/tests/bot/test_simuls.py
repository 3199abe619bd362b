"""Several games at a time, which the bot plays as a simul's giver."""

import asyncio
import re

import pytest

from ficslink import Game, RefusalError
from tests.bot.conftest import Evening
from tests.kit.guests import Guest

NAMES = ("Ann", "Ben", "Cat", "Dan", "Eva", "Fay")


async def test_it_plays_several_at_a_time_and_no_more(evening: Evening) -> None:
    evening.bot("--most", "3")
    guests = [await evening.guest(it) for it in NAMES[:4]]
    games = [await it.challenges("5 0") for it in guests[:3]]
    assert [it.colour for it in games] == ["black"] * 3
    await guests[3].does("match House 5 0")
    await guests[3].tell("I play 3 games now, and no more at a time. Please try later.")
    played = await asyncio.gather(*(guest.plays_on(game, 3) for guest, game in zip(guests, games)))
    for guest, game, words in zip(guests, games, played):
        await guest.turn(game, 7)
        assert game.moves()[1::2] == words
    await guests[0].member.act(games[0], "resign")
    await guests[0].ended(games[0])
    assert not (await guests[3].challenges("5 0")).is_over


async def test_an_end_elsewhere_moves_nothing_at_another_board(evening: Evening) -> None:
    evening.bot("--most", "6")
    guests = [await evening.guest(it) for it in NAMES]
    games = [await it.challenges("5 0") for it in guests]

    async def play(guest: Guest, game: Game, resigns: bool) -> list[str]:
        words = await guest.plays_on(game, 2)
        if resigns:
            await guest.member.act(game, "resign")
            return words
        return words + await guest.plays_on(game, 3)

    ways = (play(guest, game, n % 2 == 1) for n, (guest, game) in enumerate(zip(guests, games)))
    played = await asyncio.gather(*ways)
    for guest, game, words in list(zip(guests, games, played))[::2]:
        await guest.turn(game, 11)
        assert game.moves()[1::2] == words


async def test_who_asks_for_white_gets_it_alone(evening: Evening) -> None:
    evening.bot("--most", "3")
    ann, ben = await evening.guest("Ann"), await evening.guest("Ben")
    game = await ann.challenges("5 0 white")
    assert game.colour == "white"
    with pytest.raises(RefusalError, match="33 Playing"):
        await ben.does("match House 5 0")
    await ann.member.act(game, "resign")
    await ann.ended(game)
    assert (await ben.challenges("5 0")).colour == "black"


async def test_no_second_game_with_one_member(evening: Evening) -> None:
    evening.bot("--most", "3")
    ann = await evening.guest("Ann")
    await ann.does("simopen")
    await ann.challenges("5 0")
    await ann.does("match House 5 0")
    await ann.tell("We play already.")


async def test_it_seeks_again_whenever_it_is_free(evening: Evening) -> None:
    evening.bot("--most", "2", "--seek", "5 0", "--seek", "3 0 fischer")
    ann = await evening.guest("Ann")
    for _ in range(2):
        sought = await ann.answered("sought", lambda texts: len(texts) == 2)
        assert re.search(r"^\d+ House 5 0 chess$", sought[0])
        assert re.search(r"^\d+ House 3 0 fischer \d+$", sought[1])
        await ann.does(f"play {sought[0].split()[0]}")
        game = await ann.game()
        assert await ann.does("sought") == ["none"]
        await ann.member.act(game, "resign")
        await ann.ended(game)


async def test_it_takes_a_seek_that_nobody_takes(evening: Evening) -> None:
    evening.bot("--most", "3", "--take", "2", "--variants", "chess")
    ann, ben = await evening.guest("Ann"), await evening.guest("Ben")
    await ann.does("seek 5 0 crazyhouse")
    await ben.does("seek 3 0")
    assert (await ben.game()).opponent == "House"
    assert await ann.does("sought") == ["1 Ann 5 0 crazyhouse"]
    await ann.does("seek 2 12")
    assert (await ann.game()).opponent == "House"


async def test_it_challenges_whom_it_is_to(evening: Evening) -> None:
    evening.bot("--challenge", "Ann 3 0 crazyhouse", "--most", "1")
    ann = await evening.guest("Ann")
    await ann.hears("Challenge: House 3 0 crazyhouse")
