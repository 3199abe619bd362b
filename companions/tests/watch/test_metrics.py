"""What a running club tells of itself: the text for Prometheus, and a line each time."""

import re
import shutil
import subprocess
from collections.abc import Iterator
from pathlib import Path

import pytest

from tests.kit import paths, records
from tests.kit.link import Link
from tests.kit.ports import free_port
from tests.kit.running import Run, ended, wait_until

from .conftest import Club, run

# a line of the text form, https://prometheus.io/docs/instrumenting/exposition_formats/
ROW = re.compile(r'[a-z_]+(\{[a-z]+="[^"\\\n]*"(,[a-z]+="[^"\\\n]*")*\})? [0-9]+|# (HELP [a-z_]+ .+|TYPE [a-z_]+ \w+)')
A_MINUTE = 60
MOST = "2M"


def values(text: str) -> dict[str, int]:
    """The values of a text, each of whose lines has the form."""
    lines = text.splitlines()
    assert text.endswith("\n") and all(ROW.fullmatch(it) for it in lines), text
    pairs = [it.rpartition(" ") for it in lines if not it.startswith("#")]
    found = {name: int(value) for name, _, value in pairs}
    assert len(found) == len(pairs)
    return found


def metrics(club: Club, *words: object) -> dict[str, int]:
    done = run("fics_watch", "--store", club.path, "--port", club.port, "--metrics", *words)
    assert (done.returncode, done.stderr) == (0, ""), done
    return values(done.stdout)


@pytest.fixture
def face(club: Club) -> Iterator[Run]:
    """The go-between before the club, which has let nobody in by a wrong password twice."""
    club.serve([records.game(n, "Ann", "Ben", ["e2e4"]) for n in (1, 2, 3)])
    port = free_port()
    words = "--server", f"127.0.0.1:{club.port}", "--listen", port, "--counts", club.folder / "counts"
    it = Run(paths.companion("fics_face"), *words)
    it.begin()
    link = Link(port)
    for _ in range(2):
        link.say(club.names[0], "wrong")
        link.until("Invalid password")
    link.link.close()
    yield it
    it.end()


def test_all_is_told(club: Club, face: Run) -> None:
    """Members, games, what is stored, bytes and refusals."""
    club.play(club.names[0], club.names[1])
    archive = club.folder / "archive" / "2026"
    archive.mkdir(parents=True)
    for name, size in (("2026-12-01.pgn", 1234), ("2026-12-02.pgn", 66)):
        (archive / name).write_bytes(b"x" * size)
    wrong = 'ficsd_refused_total{by="fics_face",why="wrong password"}'
    words = "--archive", archive.parent, "--counts", club.folder / "counts", "--counts", club.folder / "none"
    assert wait_until(lambda: metrics(club, *words).get(wrong) == 2)
    found = metrics(club, *words)
    stat = [it.stat().st_size for it in (club.path, club.path.with_name("club.db-wal"))]
    assert {name: found[f"ficsd_{name}"] for name in ("up", "members", "games", "stored_games", "accounts")} == {
        "up": 1,
        "members": 2,  # the go-between's own link stays at the login
        "games": 1,
        "stored_games": 3,
        "accounts": len(club.names),
    }
    assert (found["ficsd_order_waits_seconds"], found["ficsd_archive_bytes"]) == (0, 1300)
    assert found["ficsd_store_bytes"] == sum(stat)
    assert sum(count for name, count in found.items() if name.startswith("ficsd_refused")) == 2


@pytest.mark.skipif(not shutil.which("promtool"), reason="prometheus isn't installed")
def test_prometheus_reads_it(club: Club, face: Run) -> None:
    done = run("fics_watch", "--store", club.path, "--port", club.port, "--metrics", "--counts", club.folder / "counts")
    checked = ended("promtool", "check", "metrics", given=done.stdout)
    assert (checked.returncode, checked.stderr) == (0, "")


def test_a_server_that_is_gone(club: Club) -> None:
    """What isn't known isn't told."""
    records.make_store(club.path, [records.account(it, "secret") for it in club.names])
    found = metrics(club)
    assert (found["ficsd_up"], "ficsd_members" in found, found["ficsd_accounts"]) == (0, False, len(club.names))


def test_a_line_each_time(club: Club) -> None:
    club.serve()
    file = club.folder / "metrics"
    words = "--store", club.path, "--port", club.port, "--every", 1, "--metrics", file
    it = Run(paths.companion("fics_watch"), *words)
    try:
        line = rf"^fics_watch: 0 members, 0 games, 0 stored games, {len(club.names)} accounts, \d+ bytes of store$"
        it.until(line, it.out, 3)
        assert values(file.read_text(encoding="utf-8"))["ficsd_up"] == 1
        link = club.enter("Eve")
        it.until("^fics_watch: 1 members", it.out)
        link.link.close()
    finally:
        it.end()


@pytest.fixture
def small_disk(tmp_path: Path) -> Iterator[Path]:
    subprocess.run(["mount", "-t", "tmpfs", "-o", f"size={MOST}", "tmpfs", tmp_path], check=True)
    yield tmp_path
    subprocess.run(["umount", "-l", tmp_path], check=True)


@pytest.mark.root
@pytest.mark.slow
def test_a_full_disk_is_told_within_a_minute(small_disk: Path, tmp_path_factory: pytest.TempPathFactory) -> None:
    """With lines a minute apart; and how long it has lasted, also by another look at once."""
    store, file = small_disk / "club.db", tmp_path_factory.mktemp("kept") / "metrics"
    records.make_store(store, [records.account("Ann", "secret")])
    it = Run(paths.companion("fics_watch"), "--store", store, "--every", A_MINUTE, "--metrics", file)
    try:
        it.until("^fics_watch: 0 stored games, 1 accounts", it.out)
        with (small_disk / "fill").open("wb", buffering=0) as fill:
            try:
                while fill.write(bytes(4096)):
                    pass
            except OSError:
                pass
        full = r"^<4>fics_watch: the disk of the store takes nothing \(No space left on device\), for \d+ seconds"
        assert wait_until(lambda: any(re.match(full, line) for line in it.out), seconds=A_MINUTE), it.out
        assert wait_until(lambda: len([1 for line in it.out if re.match(full, line)]) > 1, seconds=2 * A_MINUTE)
        waits = values(file.read_text(encoding="utf-8"))["ficsd_order_waits_seconds"]
        assert A_MINUTE / 2 < waits <= 2 * A_MINUTE
        (small_disk / "fill").unlink()
        assert wait_until(lambda: values(file.read_text())["ficsd_order_waits_seconds"] == 0, seconds=A_MINUTE)
    finally:
        it.end()
