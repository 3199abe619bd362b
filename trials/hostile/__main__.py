"""All trials of this folder, one after the other, each short; ends with 0 only where nothing was lost in any."""

import subprocess
import sys

from .script import options

TRIALS = (
    ("bytes",),
    ("megabyte",),
    ("silent",),
    ("resets",),
    ("crowd",),
    ("descriptors",),
    ("evening", "--seconds", "60"),
    ("disk",),
    ("growths", "--every", "5"),
    ("growths", "--every", "25", "--store"),
    ("growths", "--evenings", "100"),
    ("commands",),
)


def main() -> int:
    given = options(__doc__)
    failed = []
    for name, *words in TRIALS:
        call = [sys.executable, "-m", f"{__package__}.{name}", given.program, *words]
        if subprocess.run(call, check=False).returncode:
            failed.append(name)
    print(f"hostile: {'lost in ' + ', '.join(failed) if failed else 'nothing was lost'}")
    return 1 if failed else 0


if __name__ == "__main__":
    sys.exit(main())
