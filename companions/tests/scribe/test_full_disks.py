"""A disk that is full, at each step in turn: what was played is what stands in the archive, once there is room."""

import signal
from collections.abc import AsyncIterator, Iterator
from pathlib import Path

import pytest

from ficsd_companions.cli.words import Address
from ficsd_companions.scribe.archive import Archive
from ficsd_companions.scribe.scribe import Scribe
from ficslink.board import Board
from ficslink.line import Line
from tests.kit.running import async_wait_until
from tests.kit.small_disk import SmallDisk, small_disk

from .archived import files_of, games_of, half_moves_of
from .boards import listed, over, parsed
from .conftest import Evening

pytestmark = pytest.mark.root

# knights that go out and back: of each half-move the ranks behind it, who is to move, the long and the short form
SHUFFLE = (
    ("rnbqkbnr pppppppp -------- -------- -------- -----N-- PPPPPPPP RNBQKB-R", "B", "N/g1-f3", "Nf3"),
    ("rnbqkb-r pppppppp -----n-- -------- -------- -----N-- PPPPPPPP RNBQKB-R", "W", "N/g8-f6", "Nf6"),
    ("rnbqkb-r pppppppp -----n-- -------- -------- -------- PPPPPPPP RNBQKBNR", "B", "N/f3-g1", "Ng1"),
    ("rnbqkbnr pppppppp -------- -------- -------- -------- PPPPPPPP RNBQKBNR", "W", "N/f6-g8", "Ng8"),
)
HALF_MOVES = 36  # by which a journal needs more than one page of a disk


def board(ply: int) -> Board:
    """The board behind so many half-moves."""
    ranks, side, long, short = SHUFFLE[(ply - 1) % 4]
    return parsed(
        f"<12> {ranks} {side} -1 1 1 1 1 {ply} 1 Ann Ben 0 5 0 39 39 300 300 {1 + ply // 2} {long} (0:00) {short} 0"
    )


GAME: tuple[Line, ...] = (*(board(it) for it in range(1, HALF_MOVES + 1)), over("Ben resigns", "1-0"))
WORDS = [SHUFFLE[it % 4][3] for it in range(HALF_MOVES)]


@pytest.fixture
def disk(tmp_path: Path) -> Iterator[SmallDisk]:
    with small_disk(tmp_path / "archive") as it:
        yield it


class Told:
    """A scribe that is told lines, without a server."""

    def __init__(self, disk: SmallDisk) -> None:
        self.disk, self.folder = disk, disk.folder
        self.open()

    def open(self) -> None:
        """A scribe that begins where the last one was, however that ended."""
        self.scribe = Scribe(Address("here", 1), "Scribe", None, Archive(self.folder, ""), 0.02)
        self.scribe.disk.write(*self.scribe.archive.open())

    async def hear(self, *lines: Line) -> None:
        for line in lines:
            self.scribe.told(line)
            await self.scribe.disk.do()

    async def begin(self) -> None:
        """A game of which nothing is told yet, at a desk at which it looks on."""
        self.scribe.take_list([])
        self.scribe.take_list([listed()])
        self.scribe.seen.add(1)

    def kept(self) -> list[list[str]]:
        return [half_moves_of(text) for _, text in games_of(self.folder)]

    def is_whole(self) -> bool:
        """Whether nothing stands in the archive's files but whole games."""
        texts = files_of(self.folder).values()
        return all(text.count("[Event ") == text.count("} 1-0\n\n") and text[-2:] in ("", "\n\n") for text in texts)

    def journals(self) -> list[Path]:
        return [it for folder in ("running", "waiting") for it in (self.folder / folder).glob("*")]


async def test_at_each_line_until_the_game_is_over(disk: SmallDisk) -> None:
    """Full before a line, and until behind the game's end."""
    told = Told(disk)
    for at in range(len(GAME)):
        await told.begin()
        await told.hear(*GAME[:at])
        disk.fill()
        await told.hear(*GAME[at:])
        assert told.is_whole(), f"full at {at}"
        disk.free()
        await told.scribe.disk.do()
        assert told.kept() == [WORDS] * (at + 1), f"full at {at}"
        assert told.journals() == []


async def test_at_each_line_for_a_moment(disk: SmallDisk) -> None:
    """Full before a line, and free again behind it."""
    told = Told(disk)
    for at, line in enumerate(GAME):
        await told.begin()
        await told.hear(*GAME[:at])
        disk.fill()
        await told.hear(line)
        disk.free()
        await told.hear(*GAME[at + 1 :])
        await told.scribe.disk.do()
        assert told.kept() == [WORDS] * (at + 1), f"full at {at}"
        assert told.journals() == []


async def test_it_is_killed_meanwhile(disk: SmallDisk) -> None:
    """Whatever had come to the disk is there once the next scribe begins: a game that was over is written, of one that
    runs all half-moves before the full one are known, and nothing is torn."""
    told = Told(disk)
    games = 0
    for at in range(1, len(GAME)):
        await told.begin()
        await told.hear(*GAME[:at])
        disk.fill()
        await told.hear(*GAME[at:])
        told.open()
        assert told.is_whole(), f"full at {at}"
        disk.free()
        told.open()
        is_over = len(told.kept()) > games
        games += is_over
        assert told.kept() == [WORDS] * games, f"full at {at}"
        left = [[it.short for it in known.sitting.first.half_moves] for known in told.scribe.archive.left]
        if not is_over:
            [half_moves] = left
            assert at <= len(half_moves), f"full at {at}"
            assert half_moves == WORDS[: len(half_moves)]
            told.scribe.archive.left[0].remove()
        assert told.journals() == []
    assert games > 0


@pytest.fixture
async def evening(tmp_path: Path, disk: SmallDisk) -> AsyncIterator[Evening]:
    """A server, and a scribe whose archive is on that disk."""
    it = Evening(tmp_path)
    try:
        await it.until_scribe_is_in()
        await it.enter("Ann", "Ben")
        yield it
        await it.close()
    finally:
        it.scribe.end()
        it.server.end()


async def begin(evening: Evening) -> None:
    """Ann and Ben begin a game, once all have heard of the end of the one before."""
    await evening.all_hear()
    await evening.say("Ann", "match Ben 5 0 white")
    await evening.say("Ben", "accept Ann")


def fails(evening: Evening, times: int) -> None:
    """Waits until the scribe has said so often that its disk takes nothing."""
    evening.scribe.until("the disk doesn't take", times=times)


async def test_over_a_server(evening: Evening, disk: SmallDisk) -> None:
    """Full as a game begins, while it is played, as it ends, and as the scribe begins. The scribe stays, and looks on
    at whatever is played."""
    half = HALF_MOVES // 2
    disk.fill()
    await begin(evening)
    fails(evening, 1)
    await evening.play(" ".join(WORDS[:half]))
    disk.free()
    await evening.play(" ".join(WORDS[half:]))
    await ends(evening, 1)
    await begin(evening)
    await evening.until_seen("Ann", "Ben")
    disk.fill()
    await evening.play(" ".join(WORDS))
    fails(evening, 2)
    disk.free()
    await ends(evening, 2)
    await begin(evening)
    await evening.until_seen("Ann", "Ben")
    await evening.play(" ".join(WORDS))
    disk.fill()
    await evening.say("Ben", "resign")
    fails(evening, 3)
    disk.free()
    await are_kept(evening, 3)
    assert not [it for it in evening.scribe.log if "link" in it]
    evening.stop_scribe()
    disk.fill()
    await evening.start_scribe()
    await begin(evening)
    fails(evening, 1)
    await evening.play(" ".join(WORDS))
    await evening.say("Ben", "resign")
    disk.free()
    await are_kept(evening, 4)


async def ends(evening: Evening, games: int) -> None:
    """Ben resigns, and so many games are kept."""
    await evening.say("Ben", "resign")
    await are_kept(evening, games)


async def are_kept(evening: Evening, games: int) -> None:
    """Waits until so many games are kept, whole, and the scribe has said that it knows of no other."""
    kept = await evening.kept(games)
    assert [half_moves_of(text) for _, text in kept] == [WORDS] * games, evening.scribe.log
    assert not [tags for tags, _ in kept if "FEN" in tags]
    evening.scribe.until("the disk takes games again", times=sum("doesn't take" in it for it in evening.scribe.log))
    assert await async_wait_until(lambda: not evening.journals("running"))


async def test_room_behind_the_signal_to_end(evening: Evening, disk: SmallDisk) -> None:
    disk.fill()
    await begin(evening)
    fails(evening, 1)
    await evening.play("e4 e5")
    await evening.say("Ben", "resign")
    evening.scribe.process.send_signal(signal.SIGTERM)

    async def has_left() -> bool:
        return "Scribe" not in map(str, (await evening.say("Ann", "who")).lines)

    assert await async_wait_until(has_left)
    disk.free()
    assert evening.scribe.rest() == 0
    evening.scribe.until("the disk takes games again")


async def test_games_that_no_disk_has_are_told_of_at_its_end(evening: Evening, disk: SmallDisk) -> None:
    disk.fill()
    await begin(evening)
    fails(evening, 1)
    await evening.play("e4 e5")
    await evening.say("Ben", "resign")
    assert evening.scribe.terminate() == 4
    evening.scribe.until("^fics_scribe: LOST: of 1 games the disk hasn't what was told since it takes nothing$")
