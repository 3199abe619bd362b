"""Who goes first on a machine with other work."""

import contextlib
import os
from collections.abc import Iterator
from pathlib import Path

FIRST = -15  # the priority of what is timed
GROUP, GROUP_FIRST = Path("/proc/self/autogroup"), -8  # that of the session, where the system groups by sessions


def tasks_of(process: int) -> list[int]:
    """The ids of all threads of a process, and of all that it has started."""
    found: list[int] = []
    with contextlib.suppress(FileNotFoundError, ProcessLookupError):  # of one that ends meanwhile
        for thread in Path(f"/proc/{process}/task").iterdir():
            found.append(int(thread.name))
            for child in (thread / "children").read_text().split():
                found += tasks_of(int(child))
    return found


@contextlib.contextmanager
def first_of_sessions() -> Iterator[None]:
    """Lets this session go before others, where the system deals with each as one."""
    before = None
    with contextlib.suppress(OSError):
        before = GROUP.read_text(encoding="utf-8").rpartition(" ")[2]
        GROUP.write_text(f"{GROUP_FIRST}\n", encoding="utf-8")
    try:
        yield
    finally:
        if before is not None:
            with contextlib.suppress(OSError):
                GROUP.write_text(before, encoding="utf-8")


@contextlib.contextmanager
def first() -> Iterator[None]:
    """Lets a test, all that it has started and what it starts go before all others, where the system lets it: what is
    timed is theirs then, and not how much else a machine has to do. Of a browser this begins once its windows are open,
    since it gives its threads priorities of its own."""
    before: dict[int, int] = {}
    with contextlib.suppress(PermissionError):
        for task in tasks_of(os.getpid()):
            with contextlib.suppress(ProcessLookupError):
                priority = os.getpriority(os.PRIO_PROCESS, task)
                os.setpriority(os.PRIO_PROCESS, task, FIRST)
                before[task] = priority
    try:
        with first_of_sessions():
            yield
    finally:
        for task, priority in before.items():
            with contextlib.suppress(ProcessLookupError):
                os.setpriority(os.PRIO_PROCESS, task, priority)
