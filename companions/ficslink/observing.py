"""Looking on at a game, and knowing whether one does."""

from collections.abc import Awaitable, Callable
from contextlib import suppress

from .answer import Answer
from .errors import RefusalError
from .refusals import Refusal

MOST_TRIES = 4


def _nobody(answer: Answer) -> None:
    """Is told nothing."""


async def looks_on(
    ask: Callable[[str], Awaitable[Answer]], game: int, shown: Callable[[Answer], None] = _nobody
) -> bool:
    """Looks on at a game by a link's `ask` or a member's `do`; whether one does. `shown` is told each answer that shows
    the game.

    Who comes to a game that has just ended is shown its board and looks on no longer, without a word: so it is asked
    until it is refused, since one looks on. Who looks on at as many games as may be is told that in place of it; then
    this game is one of them where it was shown before."""
    was_shown = False
    for _ in range(MOST_TRIES):
        try:
            answer = await ask(f"observe {game}")
        except RefusalError as refusal:
            is_full = refusal.refusal is Refusal.LIST_FULL
            if refusal.refusal is Refusal.ALREADY_WATCHING or is_full and was_shown:
                return True
            if not is_full:
                return False
            with suppress(RefusalError):  # maybe one looks on there already
                await ask(f"unobserve {game}")
        else:
            was_shown = True
            shown(answer)
    return False
