"""Sets the server up in a fresh Debian that is booted by systemd-nspawn, by its packages, as docs/OPERATING.md says,
and tries it there: stop, start, restart, kill, stops with a running game, a full disk, backup and restore, a second
club, members that are programs, a reboot, an upgrade, remove and purge.

As root, on a machine with Debian's mmdebstrap, systemd-container, debhelper, dh-python and lintian, and a way to a
mirror. Ends with 1 where something came otherwise than it should.
"""

import argparse
import os
import re
import shutil
import subprocess
import sys
import tempfile
from pathlib import Path
from typing import Any

from tests.kit import paths

from .machine import FOLDER

PAGE = paths.TOP / "docs" / "OPERATING.md"
SUITE = "bookworm"
PATIENCE = 7200  # seconds
REBOOTED = 133  # by which systemd-nspawn says that its machine wants to be booted again
# with what the packages depend on, since the booted machine has no network but its own
NEEDED = "systemd,systemd-sysv,dbus,iproute2,procps,sqlite3,python3,python3-aiohttp,esbuild"
# how the blocks of the page that are run begin
BLOCKS = {
    "setup": "./ficsd --build",
    "backup": "systemctl stop ficsd\ninstall -d",
    "hot": "install -d",
    "restore": "systemctl stop ficsd\nrm",
    "update": "apt-get install",
    "port": "sed -i 's/^PORT",
    "club": "mkdir -p /etc/ficsd",
    "club_page": "sed 's/ficsd",
}
# what tries it within the machine, and what that imports
INSIDE = (
    "trials/__init__.py",
    "trials/tale.py",
    "trials/install/__init__.py",
    "trials/install/inside.py",
    "trials/install/machine.py",
    "trials/install/members.py",
    "trials/install/players.py",
    "companions/tests/__init__.py",
    "companions/tests/kit/__init__.py",
    "companions/tests/kit/link.py",
)
# what is left in a machine that was tried
LEFT = (
    "root/try",
    "var/log/journal",
    "var/lib/ficsd",
    "var/lib/private",
    "etc/ficsd",
    "etc/systemd/system/fics*",
    "etc/systemd/system/*/fics*",
)
UNIT = f"""[Unit]
After=multi-user.target
[Service]
Type=oneshot
WorkingDirectory={FOLDER}
ExecStart=-/usr/bin/python3 -Bm trials.install.inside STOPS
ExecStartPost=/bin/systemctl poweroff
StandardOutput=append:{FOLDER}/said
StandardError=append:{FOLDER}/said
[Install]
WantedBy=graphical.target
"""
QUIET: dict[str, Any] = {"stdout": subprocess.DEVNULL, "stderr": subprocess.DEVNULL}


def blocks_of_page() -> dict[str, list[str]]:
    """The lines of each block of the page that is run, by its name."""
    blocks = re.findall(r"^```sh\n(.*?)^```", PAGE.read_text(encoding="utf-8"), re.M | re.S)
    found = {}
    for name, first in BLOCKS.items():
        those = [it for it in blocks if it.startswith(first)]
        if len(those) != 1:
            sys.exit(f"install: {len(those)} blocks of OPERATING.md begin with `{first}`")
        found[name] = those[0].splitlines()
    return found


def run(*words: object, **more: Any) -> None:
    subprocess.run([str(it) for it in words], check=True, **more)


def machine(root: Path) -> list[str]:
    """The words that enter the new machine, also where no systemd runs here."""
    return ["systemd-nspawn", "-q", "-D", str(root), "--register=no", "--keep-unit"]


def make_root(root: Path) -> None:
    run("mmdebstrap", "--variant=minbase", f"--include={NEEDED}", SUITE, root, **QUIET)


def pack(program: Path | None, lines: list[str], folder: Path) -> None:
    """Runs the lines of the page where the program was built, up to the copying; the packages go into the folder."""
    words = f"--program {program} " if program else ""
    for line in lines:
        if not (line.startswith("./ficsd") and program):
            line = line.replace("tools/pack/package ", f"tools/pack/package {words}").replace("/tmp/ficsd", str(folder))
            run("bash", "-c", line, cwd=paths.TOP, stdout=subprocess.DEVNULL)


def pack_older(packages: list[Path], folder: Path) -> None:
    """Puts the packages into another folder under a version that is older, for an upgrade."""
    for it in packages:
        with tempfile.TemporaryDirectory() as inner:
            run("dpkg-deb", "-R", it, inner)
            run("sed", "-i", "s/^Version: .*/Version: 2026.1.1/", f"{inner}/DEBIAN/control")
            run("dpkg-deb", "--root-owner-group", "-Zgzip", "-z1", "-b", inner, folder, stdout=subprocess.DEVNULL)


def look_over(packages: list[Path]) -> None:
    """What lintian calls an error in the packages."""
    done = subprocess.run(["lintian", "--allow-root", "--fail-on", "error", *packages], capture_output=True, text=True)
    if done.returncode:
        sys.exit(f"install: lintian:\n{done.stdout}{done.stderr}")


def clear(root: Path) -> None:
    """Takes away what a machine has that was tried before."""
    run(*machine(root), "--pipe", "dpkg", "--purge", "ficsd", "ficsd-companions", **QUIET)
    for it in (found for pattern in LEFT for found in root.glob(pattern)):
        if it.is_dir() and not it.is_symlink():
            shutil.rmtree(it)
        else:
            it.unlink()


def fill(root: Path, blocks: dict[str, list[str]], program: Path | None, stops: int) -> None:
    """Puts into the new machine what its operator copies there, and what tries it."""
    there = root / FOLDER.relative_to("/")
    clear(root)
    (there / "older").mkdir(parents=True)
    (root / "var" / "log" / "journal").mkdir(parents=True)  # where it outlives a reboot
    at = next(place for place, line in enumerate(blocks["setup"]) if line.startswith("scp"))
    pack(program, blocks["setup"][:at], there)
    packages = list(there.glob("*.deb"))
    look_over(packages)
    pack_older(packages, there / "older")
    behind = [it for it in blocks["setup"][at + 1 :] if it != "apt-get update"]
    for name, lines in (blocks | {"setup": behind}).items():
        (there / f"{name}.sh").write_text("\n".join(lines) + "\n", encoding="utf-8")
    for it in INSIDE:
        to = there / it.removeprefix("companions/")
        to.parent.mkdir(parents=True, exist_ok=True)
        shutil.copy(paths.TOP / it, to)
    (root / "etc/systemd/system/try.service").write_text(UNIT.replace("STOPS", str(stops)), encoding="utf-8")
    run("systemctl", "--root", root, "enable", "-q", "try", stderr=subprocess.DEVNULL)


def boot(root: Path) -> str:
    """Boots the machine, which reboots once and ends by itself, and says what came of it."""
    words = ["setpriv", "--pdeathsig", "TERM", "--", *machine(root), "-b", "--private-network"]
    for _ in range(2):
        with subprocess.Popen(words, stdin=subprocess.DEVNULL, **QUIET) as machine_here:
            try:
                ended = machine_here.wait(PATIENCE)
            except subprocess.TimeoutExpired:
                machine_here.terminate()  # which shuts the machine down
                break
        if ended != REBOOTED:
            break
    return (root / FOLDER.relative_to("/") / "said").read_text(encoding="utf-8")


def in_mounts_of_its_own() -> None:
    """Starts this trial again with a /run that is in memory, which systemd-nspawn wants, where it isn't so."""
    kind = subprocess.run(["stat", "-f", "-c", "%T", "/run"], capture_output=True, text=True, check=True)
    if kind.stdout != "tmpfs\n":
        words = [sys.executable, "-m", "trials.install", *sys.argv[1:]]
        os.execvp("unshare", ["unshare", "-m", "sh", "-c", 'mount -t tmpfs tmpfs /run && exec "$@"', "sh", *words])


def main() -> int:
    words = argparse.ArgumentParser(prog="trial install", description=__doc__.split("\n\n")[0])
    words.add_argument("--program", type=Path, help="a built program; without it the one that ./ficsd has built")
    words.add_argument(
        "--root",
        type=Path,
        metavar="FOLDER",
        help="a Debian to use again; it is made there where the folder isn't there yet",
    )
    words.add_argument("--stops", type=int, default=30, metavar="N", help="stops with a running game, %(default)s")
    chosen = words.parse_args()
    missing = [
        it for it in ("mmdebstrap", "systemd-nspawn", "unshare", "lintian", "dh", "dh_python3") if not shutil.which(it)
    ]
    if missing or os.geteuid() != 0:
        sys.exit(f"install: needs to run as root{', and ' + ', '.join(missing) if missing else ''}")
    in_mounts_of_its_own()
    with tempfile.TemporaryDirectory() as folder:
        root = (chosen.root or Path(folder) / "root").resolve()
        if not root.is_dir():
            make_root(root)
        fill(root, blocks_of_page(), chosen.program and chosen.program.resolve(), chosen.stops)
        said = boot(root)
    print(said, end="")
    return 0 if said.endswith("all came as it should\n") else 1


if __name__ == "__main__":
    sys.exit(main())
