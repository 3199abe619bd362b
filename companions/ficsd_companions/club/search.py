"""The program by which House searches where nothing is built: a copy of the one that serves."""

import shlex
import shutil
import subprocess
from pathlib import Path

LAUNCHERS_RUN = Path("tools", "launch", "run")


def copied(top: Path, launcher: int, folder: Path) -> Path | None:
    """A command in the folder that runs a copy of the program that serves; none where there is no such program. The
    launcher, which is this process, says by which words it runs it: before any proof they begin with a loader and its
    libraries."""
    said = subprocess.run(
        [top / LAUNCHERS_RUN, "--serving", str(launcher)], stdout=subprocess.PIPE, text=True, check=False
    )
    if said.returncode:
        return None
    *before, program = shlex.split(said.stdout)
    copy, command = folder / "program", folder / "ficsd"
    shutil.copyfile(program, copy)
    command.write_text(f'#!/bin/sh\nexec {shlex.join([*before, str(copy)])} "$@"\n')
    for file in (command, copy):
        file.chmod(0o755)
    return command
