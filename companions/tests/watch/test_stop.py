"""What `stop_server`, by which a unit ends a server, notes before the links are cut, and says behind."""

import os
import time

from tests.kit import paths
from tests.kit.ports import free_port
from tests.kit.running import PATIENCE, Run

from .conftest import PLAYERS, Club, full, run, slow


def test_games_are_kept(club: Club) -> None:
    club.serve()
    registered = club.play(*club.names[:2]) + club.play(*club.names[2:4])
    done = club.stop(registered + club.play("Ann", "Ben", registered=False))
    said = (
        f"ficsd: kept: {PLAYERS} accounts and 2 adjourned games; 2 of the 2 that ran between players with accounts are "
        "among them\n"
    )
    assert (done.returncode, done.stdout) == (0, said), done.stderr


def test_nothing_runs(club: Club) -> None:
    club.serve()
    done = club.stop([])
    assert (done.returncode, done.stdout) == (0, f"ficsd: kept: {PLAYERS} accounts and 0 adjourned games\n")


def test_slow_disk(club: Club) -> None:
    """Twelve games take more than the second for which nothing was put."""
    club.serve(ahead=slow(0.15))
    links = club.play_all()
    begun = time.monotonic()
    done = club.stop(links)
    assert "and 12 adjourned games; 12 of the 12" in done.stdout
    assert time.monotonic() - begun > 12 * 0.15


def test_bound(club: Club) -> None:
    """A store that is put into for longer than the bound is said to be so, and what is missing is said."""
    club.serve(ahead=slow(2))
    done = club.stop(club.play_all(), "--seconds", 1)
    assert "hadn't come to rest after 1 seconds" in done.stdout
    assert "LOST: " in done.stdout


def test_full_disk(club: Club) -> None:
    club.serve()
    links = club.play(*club.names[:2])
    club.fill_disk()
    done = club.stop(links, ahead=full("fsync"))
    assert done.returncode == 4, done.stderr
    assert done.stdout.splitlines() == [
        f"ficsd: kept: {PLAYERS} accounts and 0 adjourned games; 0 of the 1 that ran between players with accounts "
        "are among them",
        f"ficsd: not kept: {club.names[0]} - {club.names[1]}",
        "<3>ficsd: LOST: the disk takes nothing (No space left on device), so accounts and games that are new since "
        "then are lost, 1 of those that ran just now among them",
    ]


def test_room_in_the_log(club: Club) -> None:
    """The disk takes no other file, and the log has room for what is new."""
    club.serve()
    done = club.stop(club.play(*club.names[:2]), ahead=full("fsync"))
    assert done.returncode == 0, done.stderr
    assert "; 1 of the 1" in done.stdout and "<4>ficsd: the disk takes nothing" in done.stdout
    assert "LOST" not in done.stdout


def test_full_disk_while_nothing_runs(club: Club) -> None:
    """What was new before the stop may be lost, and nobody knows."""
    club.serve()
    done = club.stop([], ahead=full("fsync"))
    assert (done.returncode, "LOST: the disk takes nothing" in done.stdout) == (4, True), done.stdout


def test_links_that_are_not_cut(club: Club) -> None:
    club.serve()
    club.play(*club.names[:2])
    done = club.stop([])
    assert (done.returncode, "0 of the 1" in done.stdout, "LOST: 1 games" in done.stdout) == (0, True, True)


def test_a_server_that_has_ended(club: Club) -> None:
    environment = {key: value for key, value in os.environ.items() if key != "MAINPID"}
    for act in ("note", "keep"):
        done = run("stop_server", act, club.folder / "running", "--store", club.path, env=environment)
        assert (done.returncode, done.stdout) == (0, "")
    assert list(club.folder.iterdir()) == []


def test_nobody_answers(club: Club) -> None:
    club.serve()
    club.port = free_port()
    noted = club.act("note", "--port", club.port)
    assert (noted.returncode, "isn't known" in noted.stdout) == (0, True)
    assert club.act("keep").stdout == f"ficsd: kept: {PLAYERS} accounts and 0 adjourned games\n"


def test_full_hall(club: Club) -> None:
    """Nobody can look which games run, so those that were adjourned are named."""
    club.serve()
    played = club.play(*club.names[:2])
    links = [*played, *club.fill_hall(len(played))]
    noted = club.act("note", "--port", club.port, "--seconds", 2)
    assert (noted.returncode, noted.stdout) == (
        0,
        "ficsd: which games run isn't known: the hall is full: 256 members are in, and nobody else can come\n",
    )
    for it in links:
        it.link.close()
    assert club.act("keep").stdout.splitlines() == [
        f"ficsd: kept: {PLAYERS} accounts and 1 adjourned games",
        f"ficsd: adjourned at this stop: {club.names[0]} - {club.names[1]}",
    ]


def test_full_hall_which_somebody_leaves(club: Club) -> None:
    """A stop waits a while for a place from which to look."""
    club.serve()
    played = club.play(*club.names[:2])
    links = club.fill_hall(len(played))
    words = "--port", club.port, "--seconds", PATIENCE, "--store", club.path, "--program", paths.program
    env = os.environ | {"MAINPID": "1"}
    note = Run(paths.companion("stop_server"), "note", club.folder / "running", *words, env=env)
    links.pop().link.close()
    assert (note.rest(), note.out) == (0, [])
    for it in (*links, *played):
        it.link.close()
    assert "; 1 of the 1 that ran" in club.act("keep").stdout


def test_those_that_are_lost_are_named(club: Club) -> None:
    """Of two games one is adjourned, since its links are cut."""
    club.serve()
    kept, _ = club.play(*club.names[:2]), club.play(*club.names[2:4])
    lines = club.stop(kept).stdout.splitlines()
    assert lines[1:3] == [
        f"ficsd: adjourned at this stop: {club.names[0]} - {club.names[1]}",
        f"ficsd: not kept: {club.names[2]} - {club.names[3]}",
    ]
    assert "LOST: 1 games that ran" in lines[3]
