"""A member over a server that the test plays: coming in, games, simuls, and coming again."""

import asyncio

import pytest

from ficslink import lines
from ficslink.errors import BadLine, Closed, NoGame, NoServer, PasswordWanted, RefusalError
from ficslink.events import Began, CameAgain, Ended, LinkLost, Moved, Offered, Turn
from ficslink.game import OWN, PARTNERS, WATCHED, Game, Offer
from ficslink.member import Member
from tests.ficslink.conftest import Played, some
from tests.kit.played import End

ARRAY = "rnbqkbnr pppppppp -------- -------- -------- -------- PPPPPPPP RNBQKBNR"
AFTER_E4 = "rnbqkbnr pppppppp -------- -------- ----P--- -------- PPPP-PPP RNBQKBNR"


def board(
    relation: int,
    ranks: str = ARRAY,
    rest: str = "W -1 1 1 1 1 0",
    game: int = 1,
    white: str = "Ann",
    black: str = "Ben",
    move: str = "1 none (0:00) none",
) -> str:
    return f"<12> {ranks} {rest} {game} {white} {black} {relation} 2 12 39 39 120 120 {move} 0\n\r"


def creating(game: int = 1, white: str = "Ann", black: str = "Ben", terms: str = "2 12 chess") -> str:
    return f"{{Game {game} ({white} vs. {black}) Creating {terms} match.}}\n\r"


E4 = board(-1, AFTER_E4, "B 4 1 1 1 1 0", move="1 P/e2-e4 (0:00) e4")


async def begun(played: Played) -> tuple[Member, Game, End]:
    """Ann, who has White, in a game with Ben, its first events, and the server's end."""
    member, end = await played.member("Ann")
    await end.say("\n\r" + creating() + board(1) + "fics% ")
    began, turn = await some(member.events(), 2)
    assert isinstance(began, Began)
    assert turn == Turn(began.game)
    return member, began.game, end


async def test_coming_in(played: Played) -> None:
    member, _ = await played.member()
    assert (member.name, member.is_registered, member.is_in) == ("Ann", False, True)
    coming = Member.enter("127.0.0.1", played.port)
    guest, _ = await played.opening(coming, ("guest", "Entered as GuestAAAA.\n\rfics% "))
    assert guest.name == "GuestAAAA"


async def test_a_password_is_sent_where_it_is_asked_for_alone(played: Played) -> None:
    member, _ = await played.opening(
        Member.enter("127.0.0.1", played.port, "Ann", "sword fish"),
        ("Ann", "password: "),
        ("sword fish", "Entered as Ann.\n\rfics% "),
    )
    assert member.is_registered
    member, end = await played.opening(
        Member.enter("127.0.0.1", played.port, "Ann", "secret"), ("Ann", "Entered as Ann.\n\rfics% ")
    )
    assert not member.is_registered
    assert await end.is_silent(0.3)


async def test_a_login_that_fails(played: Played) -> None:
    for says, error, number in (
        ((("Ann", "password: "),), PasswordWanted, None),
        ((("Ann", "refused 24 HandleTaken\n\rlogin: "),), RefusalError, 24),
        ((("Ann", "refused 25 HallFull\n\rlogin: "),), RefusalError, 25),
        ((("Ann", "login: "),), NoServer, None),
    ):
        with pytest.raises(error) as why:
            await played.opening(Member.enter("127.0.0.1", played.port, "Ann"), *says)
        assert getattr(why.value, "number", None) == number
    with pytest.raises(RefusalError):
        await played.opening(
            Member.enter("127.0.0.1", played.port, "Ann", "x"),
            ("Ann", "password: "),
            ("x", "refused 23 WrongPassword\n\rlogin: "),
        )
    with pytest.raises(BadLine):
        await played.opening(Member.enter("127.0.0.1", played.port, "Änn"))


async def test_settings_are_said_at_the_entrance(played: Played) -> None:
    await played.member(
        "Ann", ("set shout 0", "Ok.\n\rfics% "), ("+channel 4", "Ok.\n\rfics% "), settings=("set shout 0", "+channel 4")
    )


async def test_a_game_from_its_beginning_to_its_end(played: Played) -> None:
    member, game, end = await begun(played)
    assert (game.role, game.colour, game.opponent, str(game.terms)) == (OWN, "white", "Ben", "2 12 chess")
    moving = asyncio.create_task(member.move(game, "e2e4"))
    await end.answer("e2e4", E4)
    await moving
    assert game.moves() == ["e2e4"]
    assert await some(member.events(), 1) == [Moved(game, game.board)]
    assert await end.is_silent(0.3)  # though Ben is awaited
    await end.say("\n\r{Game 1 (Ann vs. Ben) Ben resigns} 1-0\n\rfics% ")
    assert await some(member.events(), 1) == [Ended(game)]
    assert (game.reason, game.result, game.won, member.games) == ("Ben resigns", "1-0", True, {})
    assert await end.is_silent(0.3)


async def test_it_isnt_ones_turn_where_one_is_mated(played: Played) -> None:
    member, game, end = await begun(played)
    await end.say("\n\r" + E4 + "fics% ")
    mate = board(
        1,
        "rnb-kbnr pppp-ppp -------- ----p--- ------Pq -----P-- PPPPP--P RNBQKBNR",
        "W -1 1 1 1 1 1",
        move="3 Q/d8-h4 (0:00) Qh4#",
    )
    await end.say("\n\r" + mate + "{Game 1 (Ann vs. Ben) Ann checkmated} 0-1\n\rfics% ")
    kinds = [type(it) for it in await some(member.events(), 3)]
    assert (kinds, game.won) == ([Moved, Moved, Ended], False)


async def test_what_stands_behind_a_board_is_known_at_the_turn(played: Played) -> None:
    member, end = await played.member()
    hands = "<b1> game 1 white [P] black []\n\r"
    await end.say("\n\r" + creating(terms="2 12 crazyhouse") + board(1) + hands + "fics% ")
    began, _ = await some(member.events(), 2)
    assert began.game.hands == ("P", "")
    assert began.game.fen().startswith("rnbqkbnr/pppppppp/8/8/8/8/PPPPPPPP/RNBQKBNR[P] w KQkq")


async def test_offers(played: Played) -> None:
    member, game, end = await begun(played)
    await end.say("\n\rBen offers a draw.\n\rBen offers to take back 2.\n\rfics% ")
    first, second = await some(member.events(), 2)
    assert first == Offered(game, Offer("Ben", "draw"))
    assert second == Offered(game, Offer("Ben", "takeback", 2))
    declining = asyncio.create_task(member.act(game, "decline"))
    await end.answer("decline", "Ann declines.\n\r")
    await declining
    assert game.offers == [Offer("Ben", "takeback", 2)]


async def test_a_move_is_a_word_of_a_move(played: Played) -> None:
    member, game, end = await begun(played)
    for word in ("resign", "quit", "e2e4\nquit", "", "e9e4", "draw", "e2e4 x", "Kx"):
        with pytest.raises(BadLine):
            await member.move(game, word)
    moving = asyncio.create_task(member.move(game, "e2e5"))
    await end.answer("e2e5", "refused 9 CannotReach\n\r")
    with pytest.raises(RefusalError):
        await moving
    assert game.is_my_turn


async def test_a_giver_goes_to_the_game_before_it_moves(played: Played) -> None:
    member, first, end = await begun(played)
    await end.say("\n\r" + creating(3, black="Cat") + board(1, game=3, black="Cat") + "fics% ")
    second = (await some(member.events(), 2))[0].game
    assert member.own_games == [first, second]
    moving = [asyncio.create_task(member.move(it, "e2e4")) for it in (second, first)]
    for name, number in (("Cat", 3), ("Ben", 1)):
        await end.answer(f"goboard {name}", "Ok.\n\r")
        await end.answer("e2e4", E4.replace(" 1 Ann Ben", f" {number} Ann {name}"))
    await asyncio.gather(*moving)
    assert (first.moves(), second.moves()) == (["e2e4"], ["e2e4"])


async def test_of_games_with_the_same_opponent_the_right_one_is_looked_for(played: Played) -> None:
    member, first, end = await begun(played)
    await end.say("\n\r" + creating(3) + board(1, game=3) + "fics% ")
    second = (await some(member.events(), 2))[0].game
    moving = asyncio.create_task(member.move(second, "e2e4"))
    await end.answer("goboard Ben", "Ok.\n\r")
    await end.answer("refresh", board(1))
    await end.answer("simnext", "Ok.\n\r")
    await end.answer("refresh", board(1, game=3))
    await end.answer("e2e4", E4.replace(" 1 Ann Ben", " 3 Ann Ben"))
    await moving
    assert (first.moves(), second.moves()) == ([], ["e2e4"])


async def test_no_act_goes_to_a_game_that_has_ended_meanwhile(played: Played) -> None:
    member, first, end = await begun(played)
    await end.say("\n\r" + creating(3, black="Cat") + board(1, game=3, black="Cat") + "fics% ")
    second = (await some(member.events(), 2))[0].game
    resigning = asyncio.create_task(member.act(second, "resign"))
    await end.answer("goboard Cat", "Ok.\n\r{Game 3 (Ann vs. Cat) Cat resigns} 1-0\n\r")
    with pytest.raises(NoGame):
        await resigning
    assert await end.is_silent(0.3)


async def test_ones_own_offers_belong_to_the_game_at_which_one_acts(played: Played) -> None:
    member, first, end = await begun(played)
    await end.say("\n\r" + creating(3, black="Cat") + board(1, game=3, black="Cat") + "fics% ")
    second = (await some(member.events(), 2))[0].game
    offering = asyncio.create_task(member.act(second, "draw"))
    await end.answer("goboard Cat", "Ok.\n\r")
    await end.answer("draw", "Ann offers a draw.\n\r")
    await offering
    assert (first.offers, second.offers) == ([], [Offer("Ann", "draw")])


async def test_looking_on(played: Played) -> None:
    member, end = await played.member("Cat")
    observing = asyncio.create_task(member.observe(1))
    await end.answer("games", "1 Ann Ben 2 12 fischer 518\n\r")
    await end.answer("observe 1", board(0))
    await observing
    (began,) = await some(member.events(), 1)
    assert (began.game.role, began.game.colour, began.game.terms.array) == (WATCHED, None, 518)
    assert member.own_games == []
    leaving = asyncio.create_task(member.unobserve(1))
    await end.answer("unobserve 1", "Ok.\n\r")
    await leaving
    assert member.games == {}


async def test_the_partners_board(played: Played) -> None:
    member, end = await played.member()
    lines_of_pair = creating(terms="2 12 bughouse") + creating(2, "Cat", "Dan", "2 12 bughouse")
    await end.say("\n\r" + lines_of_pair + board(1) + board(0, game=2, white="Cat", black="Dan") + "fics% ")
    await some(member.events(), 3)
    assert [it.role for it in member.games.values()] == [OWN, PARTNERS]
    assert member.own_games == [member.games[1]]


async def test_other_lines_are_events_as_they_are(played: Played) -> None:
    member, end = await played.member()
    await end.say("\n\rChallenge: Ben 2 12 chess white\n\rBen tells you: hi\n\rfics% ")
    challenge, tell = await some(member.events(), 2)
    assert (challenge.who, challenge.terms.colour, tell) == ("Ben", "white", lines.Tell("Ben", "hi"))


async def test_a_line_that_isnt_known_is_logged_without_its_control_characters(
    played: Played, caplog: pytest.LogCaptureFixture
) -> None:
    member, end = await played.member()
    with caplog.at_level("WARNING", "ficslink"):
        await end.say("\n\rBen whispers\x1b[2J\n\rfics% ")
        await some(member.events(), 1)
    assert "Ben whispers\\x1b[2J" in caplog.text


async def test_leaving(played: Played) -> None:
    member, end = await played.member()
    played.come.clear()
    leaving = asyncio.create_task(member.leave())
    assert await end.line() == "quit"
    await end.say("Goodbye.\n\r")
    end.close()
    await leaving
    assert [it async for it in member.events()] == [lines.Goodbye()]
    with pytest.raises(Closed):
        await member.do("who")


async def come_again(played: Played, *says: tuple[str, str]) -> End:
    """The server's end of the next link."""
    end = await played.opened()
    for line, text in says:
        assert await end.line() == line
        await end.say(text)
    return end


async def test_a_lost_link_breaks_the_games_off_and_is_made_again(played: Played) -> None:
    member, end = await played.member("Ann", ("set shout 0", "Ok.\n\rfics% "), settings=("set shout 0",))
    await end.say("\n\r" + creating() + board(1) + "fics% ")
    game = (await some(member.events(), 2))[0].game
    asked = asyncio.create_task(member.do("who"))
    assert await end.line() == "who"
    end.writer.transport.abort()
    with pytest.raises(Closed):
        await asked
    with pytest.raises(Closed):
        await member.do("who")
    assert isinstance((await some(member.events(), 1))[0], LinkLost)
    assert (member.games, game.is_over, member.is_in) == ({}, True, False)
    await come_again(played, ("Ann", "refused 24 HandleTaken\n\rlogin: "))
    await come_again(played, ("Ann", "refused 25 HallFull\n\rlogin: "))
    end = await come_again(played, ("Ann", "Entered as Ann.\n\rfics% "), ("set shout 0", "Ok.\n\rfics% "))
    assert await some(member.events(), 1) == [CameAgain("Ann")]
    asked = asyncio.create_task(member.do("who"))
    await end.answer("who", "Ann\n\r")
    await asked


async def test_what_waiting_doesnt_help_is_told(played: Played) -> None:
    member, end = await played.member("Ann")
    end.close()
    await come_again(played, ("Ann", "password: "))
    with pytest.raises(PasswordWanted):
        async for _ in member.events():
            pass


async def test_the_pauses_grow(played: Played, monkeypatch: pytest.MonkeyPatch) -> None:
    pauses: list[float] = []
    given_sleep, has_paused = asyncio.sleep, asyncio.Event()

    async def sleep(seconds: float) -> None:
        pauses.append(seconds)
        if len(pauses) == 8:
            has_paused.set()
        await given_sleep(0)

    _, end = await played.member("Ann", longest_pause=8.0)
    played.close()
    monkeypatch.setattr(asyncio, "sleep", sleep)
    end.close()
    await has_paused.wait()
    for pause, most in zip(pauses, (1, 2, 4, 8, 8, 8, 8, 8)):
        assert most / 2 <= pause <= most, pauses


"""Whether one looks on is known once that is refused."""


async def watched(played: Played, *answers: tuple[str, str]) -> tuple[bool, Member]:
    """Whether Cat looks on at game 1, where the server answers so; her member."""
    member, end = await played.member("Cat")
    watching = asyncio.create_task(member.watch(1))
    await end.answer("games", "1 Ann Ben 2 12 fischer 518\n\r")
    for line, text in answers:
        await end.answer(line, text)
    return await watching, member


async def test_it_is_asked_until_one_looks_on(played: Played) -> None:
    does, member = await watched(played, ("observe 1", board(0)), ("observe 1", "refused 55 AlreadyWatching\n\r"))
    assert does
    assert member.games[1].terms.array == 518


async def test_a_game_that_has_just_ended_is_shown_and_not_looked_on_at(played: Played) -> None:
    does, member = await watched(played, ("observe 1", board(0)), ("observe 1", "refused 46 NoSuchGame\n\r"))
    assert (does, member.games) == (False, {})
    does, _ = await watched(played, *[("observe 1", board(0))] * 4)
    assert not does


async def test_who_looks_on_at_as_many_as_may_be(played: Played) -> None:
    full = ("observe 1", "refused 40 ListFull\n\r")
    does, _ = await watched(played, ("observe 1", board(0)), full)
    assert does
    gone = ("unobserve 1", "refused 18 NotWatching\n\r")
    does, _ = await watched(played, full, gone, full, gone, full, gone, full, gone)
    assert not does
    does, _ = await watched(played, full, ("unobserve 1", "Ok.\n\r"), ("observe 1", board(0)), full)
    assert does
