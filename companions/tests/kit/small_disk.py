"""A real disk that is small, in memory, which a test fills."""

import subprocess
from collections.abc import Iterator
from contextlib import contextmanager
from pathlib import Path

PAGE = 4096  # bytes, by which such a disk gives room


class SmallDisk:
    """A disk at a folder."""

    def __init__(self, folder: Path) -> None:
        self.folder, self.filler = folder, folder / "filler"

    def fill(self) -> None:
        """Takes all of its room. What is left is in the last page of each file that there is."""
        with open(self.filler, "ab", buffering=0) as file:
            try:
                while file.write(bytes(PAGE)):
                    pass
            except OSError:
                pass

    def free(self) -> None:
        """Gives that room back."""
        self.filler.unlink()


@contextmanager
def small_disk(folder: Path, kibibytes: int = 1024) -> Iterator[SmallDisk]:
    """One that is mounted, which takes root."""
    folder.mkdir()
    subprocess.run(["mount", "-t", "tmpfs", "-o", f"size={kibibytes}k", "tmpfs", folder], check=True)
    try:
        yield SmallDisk(folder)
    finally:
        subprocess.run(["umount", "--lazy", folder], check=True)
