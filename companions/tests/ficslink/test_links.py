"""A link over a server that the test plays: answers and news, refusals, and its end."""

import asyncio
import time

import pytest

from ficslink import lines
from ficslink.errors import BadLine, Closed, NoServer, RefusalError, Silent
from ficslink.link import Link
from ficslink.stream import MOST

from tests.ficslink.conftest import Played, some
from tests.kit.played import OPENING
from tests.kit.ports import free_port
from tests.kit.stamped import plain_of

BOARD = (
    "<12> rnbqkbnr pppppppp -------- -------- -------- -------- PPPPPPPP RNBQKBNR W -1 1 1 1 1 0 1 Ann Ben 1 2 12 "
    "39 39 120 120 1 none (0:00) none 0"
)


async def test_answers_and_news_are_told_apart(played: Played) -> None:
    link, end = await played.linked()
    asked = [asyncio.create_task(link.ask(it)) for it in ("tell ben hi", "e4", "who")]
    assert [await end.line() for _ in asked] == ["tell ben hi", "e4", "who"]
    await end.say(
        "\n\rBen tells you: one\n\rfics% (told 1)\n\rBen tells you: two\n\rfics% \n\rBen tells you: 3\n\r"
        f"fics% {BOARD}\n\rfics% Ann\n\rBen\n\rBen tells you: four\n\rfics% "
    )
    told, moved, who = await asyncio.gather(*asked)
    assert (told.lines, told.news) == ((lines.Told(1),), (lines.Tell("Ben", "two"),))
    assert (moved.lines, [str(it) for it in moved.news]) == ((), [BOARD])
    assert who.all(lines.Player) == [lines.Player("Ann"), lines.Player("Ben")]
    assert (who.news, who.prompt) == ((lines.Tell("Ben", "four"),), "fics% ")
    news = await some(link.news(), 5)
    assert [str(it) for it in news] == [
        "Ben tells you: one",
        "Ben tells you: two",
        "Ben tells you: 3",
        BOARD,
        "Ben tells you: four",
    ]


async def test_however_the_bytes_are_cut(played: Played) -> None:
    link, end = await played.linked()
    asked = asyncio.create_task(link.ask("sought"))
    await end.line()
    for byte in b"\n\rBen tells you: fics% login: \n\rfics% 1 Cat 5 0 fischer 518 white\n\rfics% ":
        await end.say(bytes([byte]))
        await asyncio.sleep(0)
    assert [str(it) for it in (await asked).lines] == ["1 Cat 5 0 fischer 518 white"]
    assert await some(link.news(), 1) == [lines.Tell("Ben", "fics% login: ")]


async def test_lists_are_read_behind_shortened_commands(played: Played) -> None:
    link, end = await played.linked()
    for word, text, kind in (
        ("wh", "Ann", lines.Player),
        ("SO", "2 Ben 5 0 chess", lines.Sought),
        ("sto", "2 Ben Cat 5 0 chess", lines.Stored),
        ("pe", "none", lines.Nothing),
        ("ga", "2 Ben Cat 5 0 chess", lines.GameListed),
    ):
        asked = asyncio.create_task(link.ask(word))
        await end.answer(word, text + "\n\r")
        assert [type(it) for it in (await asked).lines] == [kind], word


async def test_a_board_that_is_shown_is_both(played: Played) -> None:
    link, end = await played.linked()
    asked = asyncio.create_task(link.ask("refresh"))
    await end.answer("refresh", BOARD + "\n\rBen tells you: hi\n\r")
    answer = await asked
    assert [str(it) for it in answer.lines] == [BOARD]
    assert [str(it) for it in answer.news] == [BOARD, "Ben tells you: hi"]


async def test_a_refusal_has_number_and_name(played: Played) -> None:
    link, end = await played.linked()
    asked = asyncio.create_task(link.ask("e5"))
    await end.answer("e5", "refused 9 CannotReach\n\rBen tells you: no\n\r")
    with pytest.raises(RefusalError) as why:
        await asked
    assert (why.value.number, why.value.name) == (9, "CannotReach")
    assert "reaches the square" in str(why.value)
    assert await some(link.news(), 1) == [lines.Tell("Ben", "no")]


async def test_a_line_that_the_server_refuses_isnt_sent(played: Played) -> None:
    link, end = await played.linked()
    for line in ("e4\nquit", "e4\r", "tell ben \xe9", "\x7f", "\0", "tell ben \u2654", "\x1b[2J", "x" * 1024):
        with pytest.raises(BadLine):
            await link.ask(line)
    asked = asyncio.create_task(link.ask("x" * 1023))
    await end.answer("x" * 1023)
    await asked


async def test_good_bye(played: Played) -> None:
    link, end = await played.linked()
    asked = asyncio.create_task(link.ask("quit"))
    assert await end.line() == "quit"
    await end.say("Goodbye.\n\r")
    end.close()
    assert (await asked).lines == (lines.Goodbye(),)
    await link.ended()
    with pytest.raises(Closed):
        await link.ask("who")


async def test_the_servers_end_is_told_to_all_who_ask(played: Played) -> None:
    link, end = await played.linked()
    asked = [asyncio.create_task(link.ask("who")) for _ in range(3)]
    await end.line()
    await end.say("\n\rBen tells you: hal")
    end.close()
    for it in asked:
        with pytest.raises(Closed):
            await it
    assert [it async for it in link.news()] == [lines.Tell("Ben", "hal")]
    assert "server has closed" in link.why


async def test_an_answer_that_is_cut_off_is_none(played: Played) -> None:
    link, end = await played.linked()
    asked = asyncio.create_task(link.ask("who"))
    await end.line()
    await end.say("Ann\n\rBe")
    end.close()
    with pytest.raises(Closed):
        await asked


async def test_a_server_that_says_nothing(played: Played) -> None:
    link, end = await played.linked(patience=0.3)
    begin = time.monotonic()
    with pytest.raises(Silent):
        await link.ask("who")
    assert time.monotonic() - begin < 20
    assert not link.is_open
    assert [it async for it in link.news()] == []


async def test_no_server(played: Played) -> None:
    with pytest.raises(NoServer):
        await Link.open("127.0.0.1", free_port())
    rows = (
        ("220 mail\r\n", True),
        ("HTTP/1.1 400\n\rfics% ", False),
        ("x" * 70000, False),
        ("", True),
        ("SSH-2.0\r\n", False),
    )
    for says, closes in rows:
        opening = asyncio.create_task(Link.open("127.0.0.1", played.port, patience=0.5))
        end = await played.end()
        await end.say(says)
        if closes:
            end.close()
        with pytest.raises(NoServer):
            await opening


async def test_news_that_nobody_takes_are_left_with_the_server(played: Played) -> None:
    link, end = await played.linked()
    sent = 0
    piece = b"\n\r" + b"Ben tells you: hi\n\r" * 2000 + b"fics% "
    end.writer.transport.set_write_buffer_limits(high=0)
    while sent < 2000:  # the sockets' own room is some megabytes
        try:
            end.writer.write(piece)
            sent += 1
            await asyncio.wait_for(end.writer.drain(), 1)
        except asyncio.TimeoutError:
            break
    assert sent < 2000
    assert len(link._news._items) < MOST + 65536 // 19
    assert set(map(str, await some(link.news(), sent * 2000))) == {"Ben tells you: hi"}


async def test_an_answer_comes_where_news_wait(played: Played) -> None:
    link, end = await played.linked()
    asked = asyncio.create_task(link.ask("who"))
    await end.line()
    await end.say("\n\r" + "Ben tells you: hi\n\r" * (3 * MOST) + "fics% Ann\n\rfics% ")
    assert (await asked).all(lines.Player) == [lines.Player("Ann")]


async def test_a_stamped_link(played: Played) -> None:
    opening = asyncio.create_task(Link.open("127.0.0.1", played.port, stamped=True))
    end = await played.end()
    greeting = plain_of((await end.reader.readline()).rstrip(b"\n"))
    assert greeting[0].startswith(b"TIMESTAMP|")
    await end.say(OPENING)
    link = await opening
    played.come.append(link)
    asked = asyncio.create_task(link.ask("Ann"))
    assert plain_of((await end.reader.readline()).rstrip(b"\n"))[0] == b"Ann"
    await end.say("Entered as Ann.\n\rfics% ")
    await asked
    before = int(time.monotonic() * 1000) % 10_000_000
    await end.say(b"\n\r" + BOARD.encode() + b"\n\r[G]\0fics% ")
    text, stamp = plain_of((await end.reader.readline()).rstrip(b"\n"))
    assert text == b"\x029"
    assert (stamp - before) % 10_000_000 < 20_000
    asked = asyncio.create_task(link.ask("e4"))
    text, moved = plain_of((await end.reader.readline()).rstrip(b"\n"))
    assert text == b"e4"
    assert (moved - stamp) % 10_000_000 < 20_000
    await end.say("fics% ")
    await asked
    assert [str(it) for it in await some(link.news(), 1)] == [BOARD]


class Failing:
    """Who listens, and fails at what Ben tells."""

    is_full = False

    async def room(self) -> None:
        """There is always room."""

    def hear(self, told: tuple[lines.Line, ...]) -> None:
        if any(isinstance(it, lines.Tell) for it in told):
            raise OSError(28, "No space left on device")


async def test_who_listens_fails_at_news(played: Played, caplog: pytest.LogCaptureFixture) -> None:
    """The link is closed by that, and whoever has asked hears so, at once."""
    link, end = await played.linked(listener=Failing())
    asked = asyncio.create_task(link.ask("who"))
    assert await end.line() == "who"
    await end.say("\n\rBen tells you: one\n\rfics% ")
    with pytest.raises(Closed, match="who listens has failed: .* No space left on device"):
        await asyncio.wait_for(asked, 10)
    await asyncio.wait_for(link.ended(), 10)
    assert not link.is_open
    assert "who listens to a link has failed" in caplog.text


async def test_who_listens_fails_at_an_answer(played: Played) -> None:
    """The answer is told all the same, before the link is closed."""
    link, end = await played.linked(listener=Failing())
    asked = asyncio.create_task(link.ask("who"))
    assert await end.line() == "who"
    await end.say("Ann\n\r\n\rBen tells you: one\n\rfics% ")
    answer = await asyncio.wait_for(asked, 10)
    assert answer.all(lines.Player) == [lines.Player("Ann")]
    await asyncio.wait_for(link.ended(), 10)


async def test_who_listens_fails_at_what_comes_last(played: Played) -> None:
    link, end = await played.linked(listener=Failing())
    asked = asyncio.create_task(link.ask("who"))
    assert await end.line() == "who"
    await end.say("\n\rBen tells you: one\n\r")
    end.close()
    with pytest.raises(Closed, match="the server has closed the link"):
        await asyncio.wait_for(asked, 10)
    await asyncio.wait_for(link.ended(), 10)
