"""What comes before the bot comes in: its engine is tried, and so is the house's search."""

import re

from ficsd_companions.cli.program import built_program, is_program

from . import host
from .house import House, HouseFault
from .journal import say
from .levels import Levels
from .options import Chosen
from .talk import About
from .terms import VARIANTS
from .thinker import Brain
from .uci import Engine, EngineFault, NoEngine, path_of

LONGEST_NAME = 80


class BadChoice(Exception):
    """What was chosen can't be had, and why."""


async def run(chosen: Chosen, password: str | None) -> int:
    """Tries what was chosen, plays, and leaves; the status."""
    house = await tried_house(chosen)
    able: tuple[str, ...] = VARIANTS
    levels = None
    if chosen.engine is None:
        if not house:
            raise BadChoice(
                "the house's search needs the server's program: ./ficsd --build builds it, or "
                "--program FILE names it"
            )
        brain, engine = Brain(house), f"the house's own search, {chosen.depth} half-moves ahead"
        levels = Levels(chosen.depth)
    else:
        brain = Brain(house, found(chosen.engine), chosen.option)
        engine, able = await tried_engine(brain)
    about = About(chosen.name, engine, chosen.terms(variants_of(chosen, engine, able)), levels)
    for it in (*chosen.seek, *([chosen.challenge[1]] if chosen.challenge else [])):
        if it.terms.kind not in about.terms.variants:
            raise BadChoice(f"{engine} doesn't play {it.terms.kind}")
    return await host.play(chosen, brain, about, password)


def variants_of(chosen: Chosen, engine: str, able: tuple[str, ...]) -> tuple[str, ...]:
    """The variants that it plays: those that were chosen, or all that the engine can."""
    for it in chosen.variants or ():
        if it not in able:
            raise BadChoice(f"{engine} doesn't play {it}")
    return chosen.variants or able


def found(name: str) -> str:
    """The file of an engine."""
    try:
        return path_of(name)
    except NoEngine as fault:
        raise BadChoice(str(fault)) from fault


async def tried_engine(brain: Brain) -> tuple[str, tuple[str, ...]]:
    """The name that the engine gives itself, and the variants that it plays."""
    assert brain.path
    engine = Engine(brain.path, dict(brain.settings))
    try:
        await engine.begin()
    except (NoEngine, EngineFault) as fault:
        raise BadChoice(f"{brain.path} is no engine that speaks UCI, or not with these options: {fault}") from fault
    finally:
        await engine.end()
    return re.sub("[^ -~]", "?", engine.name)[:LONGEST_NAME], tuple(it for it in VARIANTS if engine.plays(it))


async def tried_house(chosen: Chosen) -> House | None:
    """The house's search, where its program is there and answers."""
    program = chosen.program or built_program()
    if chosen.program and not is_program(chosen.program):
        raise BadChoice(f"{chosen.program} is no program")
    if not program:
        if chosen.engine:
            say("the server's program isn't there: where the engine fails, the bot plays any half-move")
        return None
    house = House(str(program.absolute()), chosen.depth)
    try:
        await house.best("chess", "chess\n", 0.0)
    except HouseFault as fault:
        raise BadChoice(f"{program} has no search: {fault}") from fault
    return house
