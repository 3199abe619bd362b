"""Lines of all kinds that players may say, at random."""

MOVES = b"e4 d4 e5 d5 exd5 Nf3 Nf6 Nc3 Bc4 Qxd5 O-O P@e6 N@f3 a3 a6 h3 h6 b3 b6".split()
TERMS = (b"", b" white", b" crazyhouse", b" crazyhouse black", b" bughouse", b" fischer 5")
# with a name in the place of H, and a small number in the place of N
LINES = (
    b"accept",
    b"accept H",
    b"decline",
    b"withdraw",
    b"seek 5 0",
    b"seek 3 0 crazyhouse",
    b"play N",
    b"unseek",
    b"partner H",
    b"draw",
    b"abort",
    b"adjourn",
    b"takeback 1",
    b"resign",
    b"flag",
    b"refresh",
    b"games",
    b"who",
    b"tell H hello there",
    b"tell N hello",
    b"shout hello",
    b"kibitz good",
    b"ptell go",
    b"+channel N",
    b"-channel N",
    b"observe N",
    b"observe H",
    b"unobserve",
    b"simopen",
    b"goboard H",
    b"alias x tell H $1",
    b"x hello",
    b"unalias x",
    b"style 1",
    b"style 12",
    b"+censor H",
    b"-censor H",
    b"set open 0",
    b"set open 1",
    b"register secret",
    b"stored",
    b"resume H",
    b"",
    b"no such command",
    b"z" * 1100,
)


def any_line(chance, names):
    """A line: a third are half-moves, and a tenth challenges."""
    kind = chance.random()
    if kind < 0.33:
        return chance.choice(MOVES)
    if kind < 0.43:
        times = chance.choice((0, 2)), chance.choice((0, 12))
        return b"match %s %d %d" % (chance.choice(names), *times) + chance.choice(TERMS)
    line = chance.choice(LINES).replace(b"H", chance.choice(names))
    return line.replace(b"N", b"%d" % chance.randint(1, 6))
