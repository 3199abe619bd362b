"""What `fics_watch` finds, and of which bounds it tells."""

import pytest

from tests.kit import records
from tests.kit.ports import free_port

from .conftest import PLAYERS, Club, run


def test_what_is_there(club: Club) -> None:
    club.serve([records.game(n, club.names[0], club.names[1], ["e2e4"]) for n in (1, 2)])
    club.enter(club.names[0], records.PASSWORD)
    guest = club.enter("Ann")
    guest.say("shout Cat", "seek 5 0")
    guest.until("^Your seek is ")
    done = club.look()
    said = f"fics_watch: 2 adjourned games of at most 10000, {PLAYERS} accounts of at most 4096, "
    assert (done.returncode, done.stdout.startswith(said)) == (0, True), done.stdout + done.stderr
    assert done.stdout.endswith(" MiB free, 2 members of at most 256\n"), done.stdout
    for words, says in (
        (("--shelf", 1), "more than 1 adjourned games"),
        (("--shelf", 2), None),
        (("--accounts", 23), "more than 23 accounts"),
        (("--accounts", 24), None),
        (("--members", 1), "more than 1 members"),
        (("--members", 2), None),
        (("--disk", 999999999), "less than 999999999 MiB free"),
    ):
        done = club.look(*words)
        lines = done.stdout.splitlines()[1:]
        assert (done.returncode, len(lines)) == ((3, 1) if says else (0, 0)), (words, done.stdout)
        assert not says or lines[0].startswith(f"<4>fics_watch: {says}"), lines


def test_full_hall(club: Club) -> None:
    """That nobody else can come is a bound that is crossed, not a hall that can't be looked at."""
    club.serve()
    links = club.fill_hall()
    done = club.look()
    said, *crossed = done.stdout.splitlines()
    assert (done.returncode, said.endswith(", 256 members of at most 256")) == (3, True), done.stdout
    assert crossed == ["<4>fics_watch: the hall is full: 256 members are in, and nobody else can come"]
    links[0].say("quit")
    links[0].until("^Goodbye")
    done = club.look()
    assert (done.returncode, done.stdout.splitlines()[1:]) == (3, ["<4>fics_watch: more than 230 members"])


def test_no_hall_and_no_store(club: Club) -> None:
    done = club.look()
    assert (done.returncode, done.stdout.count("\n")) == (1, 1), done.stdout
    club.serve()
    club.port, port = free_port(), club.port
    done = club.look()
    assert (done.returncode, "nobody answers" in done.stdout) == (1, True), done.stdout
    club.port = port
    club.path.rename(club.path.with_name("away.db"))
    assert club.look().returncode == 1


@pytest.mark.parametrize("words", [["--shelf", "x"], ["--port", "-1"], ["mend"]])
def test_other_words(words: list[str]) -> None:
    assert run("fics_watch", *words).returncode == 2
