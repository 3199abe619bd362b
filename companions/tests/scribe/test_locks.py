"""A folder is one scribe's: the second one says who has it, and ends."""

from pathlib import Path

import pytest

from ficsd_companions.scribe.lock import Held, held
from tests.kit.running import async_wait_until

from .conftest import Evening


async def test_two_scribes(evening: Evening) -> None:
    second = evening.run_scribe()
    assert second.rest() == 4
    second.until(
        rf"^fics_scribe: {evening.archive} is kept by fics_scribe of {evening.server.address}, "
        rf"process {evening.scribe.id} on \S+; each scribe needs a folder of its own$"
    )
    assert evening.scribe.process.poll() is None
    evening.kill_scribe()
    evening.scribe = evening.run_scribe()
    await evening.until_scribe_is_in()
    assert await async_wait_until(lambda: evening.scribe.process.poll() is None)


def test_who_had_it_is_forgotten(tmp_path: Path) -> None:
    with held(tmp_path / "archive", "the first one, with a long name"):
        pass
    with held(tmp_path / "archive", "another"):
        with pytest.raises(Held, match=r"is kept by another, process \d+ on \S+; each"):
            with held(tmp_path / "archive", "a third"):
                pass
