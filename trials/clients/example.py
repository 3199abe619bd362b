"""An example of a client over the library `companions/ficslink`: it plays a whole game of chess. It leaves the rules to
the server: it tries one word after the other until one is taken.

usage: tools/trial clients.example PORT                   plays against itself, over two links
       tools/trial clients.example PORT NAME              enters as NAME, and accepts whoever challenges it
       tools/trial clients.example PORT NAME OPPONENT     enters as NAME, and challenges OPPONENT
"""

import asyncio
import random
import sys

from ficslink import Ended, LinkError, Member, Refusal, RefusalError, Turn, lines

SQUARES = [file + rank for rank in "87654321" for file in "abcdefgh"]


def words(board):
    """From each man of who is to move to each square without one to which some kind of man goes, in any order."""
    own = {square for square, man in board.men() if man.isupper() == (board.turn == "white")}
    found = [start + end for start in own for end in SQUARES if end not in own and is_line_or_jump(start, end)]
    return random.sample(found, len(found))


def is_line_or_jump(start, end):
    across, up = abs(ord(start[0]) - ord(end[0])), abs(int(start[1]) - int(end[1]))
    return across == up or 0 in (across, up) or across * up == 2


async def step(member, game):
    """Makes a half-move, and says which. A draw by the rules has to be claimed, or the game goes on."""
    if game.may_claim_draw:
        await member.act(game, "draw")
    for word in words(game.board):
        if game.is_over:
            return
        try:
            await member.move(game, word)
            print(member.name, word, flush=True)
            return
        except RefusalError as why:
            if why.refusal is Refusal.TOO_MANY_MOVES:  # 1,200 half-moves were played, and no more can be
                await member.act(game, "resign")


async def play(member):
    """Plays until its game is over, and says how."""
    async for event in member.events():
        match event:
            case lines.Challenge(who) if not member.games:
                await member.do(f"accept {who}")
            case Turn(game):
                await step(member, game)
            case Ended(game):
                return f"{game.reason} {game.result}"


async def main(port, name="guest", opponent=None):
    async with await Member.enter("localhost", int(port), name) as member:
        if name != "guest":
            if opponent:
                await member.do(f"match {opponent} 5 0 white")
            print(await play(member))
            return
        async with await Member.enter("localhost", int(port)) as other:
            await member.do(f"match {other.name} 5 0 white")
            end, _ = await asyncio.gather(play(member), play(other))
            print(end)


if __name__ == "__main__":
    try:
        asyncio.run(main(*sys.argv[1:]))
    except LinkError as fault:
        sys.exit(f"example: {fault}")
