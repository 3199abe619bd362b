#!/usr/bin/env python3
"""The sources of a program: the crates that it stands on, their files, and whether its build is of these very files.

A build leaves a stamp beside the program: a sum of the sources, and one of the program. It is current where both are
as they were, whatever the times of the files say; so a copy of program and stamp is current in any clone of the same
sources.

usage: sources.py PROGRAM (a crate of crates.txt); ends with 0 where its build is current, and with 1 where it isn't
"""
import hashlib
import os
import sys
from pathlib import Path

TOP = Path(__file__).resolve().parent.parent.parent
# the programs that the launcher builds: the whole one, and the one of `board` alone
BUILT = "fics_server", "fics_board"


def folder_of(name):
    return TOP / "crates" / name


def program_of(name):
    return folder_of(name) / "out" / name


def stamp_of(name):
    return folder_of(name) / "out" / "launcher.stamp"


def uses_of_crates():
    """Each crate of crates.txt with the libraries that it uses, the toolchain's among them."""
    lines = (TOP / "crates.txt").read_text(encoding="utf-8").splitlines()
    found = [it.partition("#")[0].partition(":") for it in lines]
    return {head.split()[0]: uses.split() for head, _, uses in found if head.strip()}


def crates_for(program, uses):
    """Each crate that the program stands on, itself included, with the repository's crates that it uses."""
    crates, waiting = {}, [program]
    while waiting:
        name = waiting.pop()
        if name not in crates:
            crates[name] = [it for it in uses[name] if it in uses]
            waiting += crates[name]
    return crates


def files_of(name):
    folders = [folder_of(name) / kind for kind in ("src", "specs", "proofs")]
    return sorted(os.path.join(at, it) for folder in folders for at, _, files in os.walk(folder) for it in files)


def sum_of_sources(program):
    """A sum of the names and bytes of all files of the crates that the program stands on, and of what each uses."""
    uses = uses_of_crates()
    total = hashlib.sha256()
    for name in sorted(crates_for(program, uses)):
        total.update(repr([name, uses[name]]).encode())
        for file in files_of(name):
            with open(file, "rb") as content:
                total.update(repr([os.path.relpath(file, TOP), hashlib.sha256(content.read()).hexdigest()]).encode())
    return total.hexdigest()


def stamp_text(program, sources):
    return f"sources {sources}\nprogram {hashlib.sha256(program_of(program).read_bytes()).hexdigest()}\n"


def is_current(program):
    try:
        kept = stamp_of(program).read_text(encoding="utf-8")
        return os.access(program_of(program), os.X_OK) and kept == stamp_text(program, sum_of_sources(program))
    except OSError:
        return False


if __name__ == "__main__":
    sys.exit(0 if is_current(*sys.argv[1:]) else 1)
