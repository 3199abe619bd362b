"""The lists that are the same for everybody are asked for once for all tabs, and told where they have changed."""

import asyncio
import json

from . import boards
from .played import MARK, End, Played, fields_of
from .tabs import Tab

QUIET_SECONDS = 5
ROWS = {"who": ["Ann", "Ben"], "sought": [], "games": ["1 Cat Dan 5 0 chess"]}


async def wanting(played: Played, name: str = "Ann") -> tuple[Tab, End]:
    tab, end, _ = await played.seated(name)
    await tab.send(MARK + '{"lists": true}')
    return tab, end


async def answers(end: End, who: str = "Ann\n\rBen", behind: str = "") -> None:
    """Answers the three questions: whether they came as they should."""
    lines = [await end.line() for _ in range(3)]
    assert [it.strip().lower() for it in lines] == [b"who", b"sought", b"games"]
    assert [it.upper() for it in lines] == lines  # which no alias has
    await end.say(f"{who}\n\rfics% none\n\rfics% 1 Cat Dan 5 0 chess\n\r{behind}fics% ")


async def told(tab: Tab) -> object:
    return fields_of(await tab.message())


async def both(tab: Tab) -> tuple[list[str], object]:
    """A part, and the lists, which may come in its midst."""
    part = await tab.part()
    own = [it for it in part if it.startswith(MARK)] or [await tab.message()]
    return [it for it in part if it not in own], fields_of(own[0])


async def test_one_tab_asks_for_all(played: Played) -> None:
    ann, end = await wanting(played)
    ben, others_end = await wanting(played, "Ben")
    asked = await asyncio.wait(
        {asyncio.create_task(answers(it)) for it in (end, others_end)}, return_when=asyncio.FIRST_COMPLETED
    )
    assert len(asked[0]) == 1
    assert [await told(it) for it in (ann, ben)] == [ROWS, ROWS]
    await asyncio.wait(asked[1])  # by turns
    cat, its_end = await wanting(played, "Cat")
    await answers(its_end)
    assert await told(cat) == ROWS


async def test_what_hasnt_changed_isnt_told(played: Played) -> None:
    tab, end = await wanting(played)
    await answers(end)
    assert await told(tab) == ROWS
    await answers(end)
    await answers(end, who="Ann")
    assert await told(tab) == {"who": ["Ann"]}


async def test_nothing_is_asked_while_nobody_wants_it(played: Played) -> None:
    tab, end, _ = await played.seated()
    assert await end.is_silent(QUIET_SECONDS)
    await tab.send(MARK + '{"lists": true}')
    await answers(end)
    await told(tab)
    await tab.send(MARK + '{"lists": false}')
    await tab.send("tell ben hi")  # behind which the wish was taken
    while await end.line() != b"tell ben hi\n":
        await end.say("none\n\rfics% ")  # a question that was under way
    await end.say("(told 1)\n\rfics% ")
    await tab.told(lambda it: it == "(told 1)")
    assert await end.is_silent(QUIET_SECONDS)


async def test_news_behind_the_rows_are_told(played: Played) -> None:
    tab, end = await wanting(played)
    await answers(end, behind=f"Ben tells you: hi\n\r{boards.start(1)}\n\r[G]\0")
    assert await both(tab) == (["", "Ben tells you: hi", boards.start(1), "[G]\0", "fics% "], ROWS)


async def test_a_board_in_text_is_no_name(played: Played) -> None:
    tab, end = await wanting(played)
    rows = ["rnbqkbnr", "pppppppp", *["--------"] * 4, "PPPPPPPP", "RNBQKBNR"]
    board = [*rows, "W to move, game 1, White 120, Black 120, last none"]
    await answers(end, who="\n\r".join(["Ann", "Ben", *board]))
    assert await both(tab) == (["", *board, "fics% "], ROWS)


async def test_a_refusal_changes_no_list_and_is_told_to_nobody(played: Played) -> None:
    tab, end = await wanting(played)
    await answers(end)
    await told(tab)
    await answers(end, who="refused 54 NotIn")
    await end.say("\n\rBen tells you: hi\n\rfics% ")
    assert await tab.part() == ["", "Ben tells you: hi", "fics% "]


async def test_the_tabs_own_answers_stay_its_own(played: Played) -> None:
    tab, end = await wanting(played)
    lines = [await end.line() for _ in range(3)]
    assert len(lines) == 3
    await tab.send("who")
    assert await end.line() == b"who\n"
    await end.say("Ann\n\rBen\n\rfics% none\n\rfics% 1 Cat Dan 5 0 chess\n\rfics% Ann\n\rBen\n\rfics% ")
    heard = [await tab.message() for _ in range(4)]
    assert [it for it in heard if not it.startswith(MARK)] == ["Ann", "Ben", "fics% "]
    assert [json.loads(it[1:]) for it in heard if it.startswith(MARK)] == [ROWS]
