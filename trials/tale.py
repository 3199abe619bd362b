"""What a trial saw, a line each, and what came otherwise than it should."""

import sys
from typing import NoReturn


class Tale:
    """What was seen, and what was lost."""

    def __init__(self, name: str = "") -> None:
        self.head = f"{name}: " if name else ""
        self.losses: list[str] = []

    def saw(self, text: str) -> None:
        print(f"{self.head}{text}", flush=True)

    def lost(self, text: str) -> None:
        self.losses.append(text)
        self.saw(f"LOST: {text}")

    def holds(self, right: bool, text: str) -> None:
        """Tells what was seen, as a loss where it isn't right."""
        (self.saw if right else self.lost)(text)

    def says(self, name: str, got: object, wanted: object) -> None:
        """Tells what came, as a loss where it isn't what was wanted."""
        if got == wanted:
            self.saw(f"{name}: as it should")
        else:
            self.lost(f"{name}: {got!r}, wanted {wanted!r}")

    def end(self) -> NoReturn:
        """Ends the trial: with 1 where something was lost."""
        self.saw(f"{len(self.losses)} losses" if self.losses else "nothing was lost")
        sys.exit(1 if self.losses else 0)
