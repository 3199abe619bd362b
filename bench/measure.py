"""What timings share: the program that is timed, the machine, and seconds and memory of what runs."""

import argparse
import os
import platform
import subprocess
import sys
import tempfile
import time
from collections.abc import Iterable, Iterator, Sequence
from contextlib import suppress
from pathlib import Path
from typing import IO

from tests.kit import paths

Case = tuple[str, list[bytes], int]  # a name, its inputs, and how many units they have


def words_for(crate: str, what: str | None) -> argparse.ArgumentParser:
    """Words of a call that names the program, which is the built one of a crate where it names none."""
    name = Path(sys.argv[0]).parent.name
    words = argparse.ArgumentParser(prog=f"bench {name}", description=(what or "").partition("\n\n")[0])
    words.add_argument(
        "program",
        nargs="?",
        default=paths.TOP / "crates" / crate / "out" / crate,
        type=Path,
        metavar="PROGRAM",
        help=f"the program; without it what {how_to_build(crate)} builds",
    )
    return words


def how_to_build(crate: str) -> str:
    return "`./ficsd --build`" if crate == "fics_server" else f"`(cd crates/{crate} && rt run)`"


def checked(program: Path, crate: str = "fics_server") -> str:
    """The program's whole path; ends where it isn't there."""
    if not os.access(program, os.X_OK):
        sys.exit(f"bench: {program} isn't there; {how_to_build(crate)} builds it")
    return str(program.resolve())


def program_for(crate: str, what: str | None) -> str:
    """The program of a timing that takes no other word."""
    return checked(words_for(crate, what).parse_args().program, crate)


def machine() -> str:
    """The machine's cores, the name of their kind, and what else it has to do."""
    model = platform.processor() or platform.machine()
    with suppress(OSError):
        names = [it for it in Path("/proc/cpuinfo").read_text().splitlines() if it.startswith("model name")]
        model = names[0].split(":", 1)[1].strip() if names else model
    return f"{os.cpu_count()} cores, {model}, load {os.getloadavg()[0]:.1f}"


def files_of(folder: str) -> list[tuple[str, bytes, int]]:
    """Each file's name with its bytes and the moment of its last change."""
    files = [it for it in sorted(Path(folder).iterdir()) if it.is_file()]
    return [(it.name, it.read_bytes(), it.stat().st_mtime_ns) for it in files]


# ---- a process that runs ----


def processor_seconds(process: int) -> float:
    """The processor time that it has taken, to a hundredth of a second."""
    fields = Path(f"/proc/{process}/stat").read_text().rpartition(")")[2].split()
    return sum(map(int, fields[11:13])) / os.sysconf("SC_CLK_TCK")


def status_of(process: int, name: str) -> int:
    """A number of its status, as VmRSS, the resident memory in KiB; 0 where it has ended."""
    with suppress(OSError, StopIteration):
        rows = Path(f"/proc/{process}/status").read_text().splitlines()
        return next(int(it.split()[1]) for it in rows if it.startswith(f"{name}:"))
    return 0


def resident(process: int) -> int:
    return status_of(process, "VmRSS")


def peak_of(process: int) -> int:
    return status_of(process, "VmHWM")


# ---- a process from its start to its end ----


def run_to_end(words: Sequence[str], source: IO[bytes]) -> tuple[float, int]:
    """The seconds and the peak memory in KiB of a program that reads a file, and ends with 0."""
    start, peak = time.perf_counter(), 0
    with subprocess.Popen(words, stdin=source, stdout=subprocess.DEVNULL, stderr=subprocess.DEVNULL) as process:
        while process.poll() is None:
            peak = max(peak, peak_of(process.pid))
            time.sleep(0.002)
    if process.returncode:
        sys.exit(f"bench: {words[0]} ended with status {process.returncode}")
    return time.perf_counter() - start, peak


def lines_with_seconds(words: Sequence[str]) -> Iterator[tuple[list[str], float]]:
    """Each line that a program writes, in words, with the processor time that it has taken for it."""
    with subprocess.Popen(words, stdout=subprocess.PIPE, text=True) as process:
        assert process.stdout
        before = 0.0
        for line in process.stdout:
            now = processor_seconds(process.pid)
            yield line.split(), now - before
            before = now


def print_table(program: str, command: str, unit: str, cases: Iterable[Case]) -> None:
    """Runs the command on each input of each case in turn, and prints a row for each."""
    print(machine())
    print(f"{'case':<28}{unit:>12}{'seconds':>10}{unit + '/s':>12}{'us each':>10}{'peak KiB':>10}")
    for name, inputs, count in cases:
        seconds, peak = 0.0, 0
        for text in inputs:
            with tempfile.TemporaryFile() as source:
                source.write(text)
                source.seek(0)
                took, most = run_to_end([program, command], source)
            seconds, peak = seconds + took, max(peak, most)
        print(f"{name:<28}{count:>12}{seconds:>10.2f}{count / seconds:>12.0f}{seconds / count * 1e6:>10.2f}{peak:>10}")
