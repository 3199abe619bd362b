"""Who had an account stands in a game's tags, where the scribe knows it."""

from tests.kit import paths
from tests.kit.running import Run

from .conftest import Evening


async def test_games_say_who_had_an_account(evening: Evening) -> None:
    evening.stop_scribe()
    await evening.register("Ann")
    await evening.enter("Ben")
    evening.scribe = Run(
        *(paths.companion("fics_scribe"), "--server", evening.server.address, "--archive", evening.archive),
        *("--name", "Scribe", "--accounts", evening.store),
    )
    await evening.until_scribe_is_in()
    await evening.seat()
    await evening.play("e4 e5 Nf3")
    await evening.say("Ann", "resign")
    [(tags, _)] = await evening.kept()
    assert (tags["WhiteAccount"], tags["BlackAccount"]) == ("yes", "no")


async def test_where_it_isnt_known_they_say_nothing(evening: Evening) -> None:
    await evening.register("Ann")
    await evening.enter("Ben")
    await evening.seat()
    await evening.play("e4 e5 Nf3")
    await evening.say("Ann", "resign")
    [(tags, _)] = await evening.kept()
    assert "WhiteAccount" not in tags and "BlackAccount" not in tags
