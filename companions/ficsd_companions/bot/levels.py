"""How strong an opponent each member has chosen: so many half-moves the house looks ahead."""

import re

WORD = re.compile(r"level(?: (\d{1,2}))?")


class Levels:
    """The levels from 1 to a strongest one; who has chosen none plays the strongest."""

    def __init__(self, most: int) -> None:
        self.most = most
        self.chosen: dict[str, int] = {}

    def of(self, who: str) -> int:
        return self.chosen.get(who, self.most)

    def answer(self, who: str, text: str) -> str | None:
        """What is said to a choice, or to the question for it; none to anything else."""
        found = WORD.fullmatch(text.strip().lower().rstrip("?!."))
        if not found:
            return None
        level = int(found[1]) if found[1] else None
        if level is None:
            return f"You play me at level {self.of(who)} of {self.most}. {self.hint()}"
        if not 1 <= level <= self.most:
            return f"I have the levels 1 to {self.most}."
        self.chosen[who] = level
        return f"From your next game on I play at level {level} of {self.most}."

    def hint(self) -> str:
        """How one chooses, in a sentence."""
        return f"For another strength tell me level 1 to level {self.most}, and then challenge me."
