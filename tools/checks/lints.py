"""What tools for Python and for the page find in what runs beside the server, each where Debian's package is there."""
import shutil
import subprocess
import sys

from .sources import TOP, tracked

COMPANIONS = TOP / "companions"
PLACES = "/usr/bin"  # Debian's own, whatever else the PATH has
TYPED = ("ficsd_companions", "ficslink", "tests.kit")


def scripts():
    """The files of Python of these folders, and the launchers, which have no ending."""
    files = [TOP / it for it in tracked() if it.parts[0] in ("companions", "trials", "bench")]
    return [str(it) for it in files if it.suffix == ".py" or it.read_bytes().startswith(b"#!/usr/bin/python3\n")]


def packages(names):
    return [word for name in names for word in ("-p", name)]


# of each program its package and what it is called with, in companions/
LINTS = {
    "flake8": ("flake8", lambda: scripts()),
    "black": ("black", lambda: ["--check", "--config", "pyproject.toml", *scripts()]),
    "mypy": ("mypy", lambda: packages(TYPED)),
    "tsc": ("node-typescript", lambda: ["-p", "."]),
}


def found(name):
    """What a lint says is wrong, a line each; none where its package isn't there."""
    package, words = LINTS[name]
    program = shutil.which(name, path=PLACES)
    if not program:
        return None
    ran = subprocess.run([program, *words()], cwd=COMPANIONS, capture_output=True, text=True, check=False)
    if ran.returncode == 0:
        return []
    said = [it.replace(f"{TOP}/", "") for it in (ran.stdout + ran.stderr).splitlines()]
    return [f"{name}: {it}" for it in said if it.strip()] or [f"{name} ends with {ran.returncode}"]


def faults():
    for name, (package, _) in LINTS.items():
        said = found(name)
        if said is None:
            print(f"check: lints: {name} isn't run, Debian's package {package} has it", file=sys.stderr)
        yield from said or []
