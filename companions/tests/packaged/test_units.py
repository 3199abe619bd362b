"""What the units say, as systemd reads them; trials/install has them run in a booted machine."""

import shutil
import stat
from pathlib import Path

import pytest

from tests.kit import paths
from tests.kit.running import ended

# an address and a port of the server, which stands in etc/default/ficsd alone
PORT = "5000"
OF_THE_SERVER = "ficsd fics_face fics_web fics_bot fics_scribe fics_director fics_watch fics_meter".split()


@pytest.fixture(scope="module")
def laid_out(tmp_path_factory: pytest.TempPathFactory) -> Path:
    """All that is installed, under a folder, with a program that is none."""
    folder = tmp_path_factory.mktemp("laid_out")
    program = folder / "program"
    program.write_text("#!/bin/sh\n", encoding="utf-8")
    program.chmod(0o755)
    done = ended(paths.TOP / "tools/pack/install", "--program", program, "--prefix", "usr", folder / "root")
    assert done.returncode == 0, done.stderr
    for it in ("bin/sh", "bin/rm"):
        (folder / "root" / it).parent.mkdir(exist_ok=True)
        shutil.copy(f"/{it}", folder / "root" / it)
    return folder / "root"


def settings(laid_out: Path, unit: str) -> dict[str, list[str]]:
    """The settings of a unit: of each name the values in their order."""
    found: dict[str, list[str]] = {}
    for line in (laid_out / f"lib/systemd/system/{unit}.service").read_text(encoding="utf-8").splitlines():
        name, equals, value = line.partition("=")
        if equals and not line.startswith("#"):
            found.setdefault(name, []).append(value)
    return found


def units(laid_out: Path) -> list[Path]:
    return [it for it in (laid_out / "lib/systemd/system").iterdir() if it.suffix == ".service"]


@pytest.mark.skipif(not shutil.which("systemd-analyze"), reason="systemd isn't installed")
def test_systemd_takes_each(laid_out: Path) -> None:
    names = [it.name.replace("@", "@blue") for it in units(laid_out)]
    done = ended("systemd-analyze", "verify", f"--root={laid_out}", "--man=no", *names)
    said = [it for it in done.stderr.splitlines() if it.split(".")[0].split("@")[0] in (*OF_THE_SERVER, "fics_server")]
    said = [it for it in said if not it.endswith("Unit sysinit.target not found.")]
    assert said == [], done.stderr


def test_the_port_stands_once(laid_out: Path) -> None:
    files = [it for it in laid_out.glob("etc/**/*") if it.is_file()] + units(laid_out)
    assert len(files) > 10
    having = [it.relative_to(laid_out) for it in files if PORT in it.read_text(encoding="utf-8")]
    assert having == [Path("etc/default/ficsd")]


@pytest.mark.parametrize("unit", OF_THE_SERVER)
def test_each_has_it_from_there(laid_out: Path, unit: str) -> None:
    found = settings(laid_out, unit)
    assert "/etc/default/ficsd" in found["EnvironmentFile"]
    assert "${PORT}" in found["ExecStart"][0]


def test_only_the_go_between_is_open(laid_out: Path) -> None:
    """The server and the page's go-between are this machine's; the other one is everybody's, and has limits."""
    found = settings(laid_out, "ficsd")
    assert "--bind ${BIND}" in found["ExecStart"][0] and "BIND=127.0.0.1" in found["Environment"]
    open_to_all = [it.stem for it in units(laid_out) if "--bind 0.0.0.0" in settings(laid_out, it.stem)["ExecStart"][0]]
    assert open_to_all == ["fics_face"]
    assert "BIND" not in (laid_out / "etc/default/ficsd").read_text(encoding="utf-8")


@pytest.mark.parametrize("unit", ("ficsd", "fics_server@"))
def test_a_stop_goes_by_the_port_of_the_start(laid_out: Path, unit: str) -> None:
    """Which root keeps, since what is read of it decides which links are cut."""
    found = settings(laid_out, unit)
    (kept,) = found["ExecStartPre"]
    assert kept.startswith("+/bin/sh -c 'umask 022; echo ${PORT} >/run/fics")
    file = kept.split(">")[1].rstrip("'")
    assert "/" not in file.removeprefix("/run/")  # a folder that root alone writes
    assert all(f"read port <{file} || port=${{PORT}}; " in it for it in found["ExecStop"][:2])


def test_an_engine_has_bounds(laid_out: Path) -> None:
    """Of memory, of tasks, and of the network, of which it has the server's alone."""
    found = settings(laid_out, "fics_bot")
    assert (found["MemoryMax"], found["TasksMax"]) == (["2G"], ["128"])
    assert (found["IPAddressDeny"], found["IPAddressAllow"]) == (["any"], ["127.0.0.1"])
    assert (found["SocketBindDeny"], found["RestrictAddressFamilies"]) == (["any"], ["AF_INET"])


def test_what_fail2ban_reads(laid_out: Path) -> None:
    for it in ("filter.d", "jail.d"):
        file = laid_out / "etc/fail2ban" / it / "ficsd.conf"
        assert file.read_text(encoding="utf-8") == (paths.COMPANIONS / "fail2ban" / it / "ficsd.conf").read_text()
        assert stat.S_IMODE(file.stat().st_mode) == 0o644
