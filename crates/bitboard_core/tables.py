"""Prints src/tables.rt: for each square the squares that lie one way from it, or one step of a man.

Run it as `python3 tables.py > src/tables.rt`. The crate's proofs compare each table with its definition.
"""


def squares(test):
    """For each square a the set of the squares t for which the test holds, as a number."""
    return [sum(1 << t for t in range(64) if test(a % 8, a // 8, t % 8, t // 8)) for a in range(64)]


def ray(files, ranks):
    """The squares that lie that way: `files` and `ranks` are 1, 0 or -1."""

    def test(f, r, g, s):
        steps = max(abs(f - g), abs(r - s))
        return steps > 0 and g == f + files * steps and s == r + ranks * steps

    return squares(test)


def knight(f, r, g, s):
    return sorted((abs(f - g), abs(r - s))) == [1, 2]


def king(f, r, g, s):
    return max(abs(f - g), abs(r - s)) == 1


def strikes(forward):
    return lambda f, r, g, s: abs(f - g) == 1 and s == r + forward


def ahead(forward, second):
    return lambda f, r, g, s: f == g and (s == r + forward or s == r + 2 * forward and r == second)


TABLES = [
    ("NORTH", "The squares straight ahead of White.", ray(0, 1)),
    ("EAST", "The squares toward file h.", ray(1, 0)),
    ("SOUTH", "The squares straight ahead of Black.", ray(0, -1)),
    ("WEST", "The squares toward file a.", ray(-1, 0)),
    ("NORTH_EAST", "The diagonal toward file h and rank 8.", ray(1, 1)),
    ("NORTH_WEST", "The diagonal toward file a and rank 8.", ray(-1, 1)),
    ("SOUTH_EAST", "The diagonal toward file h and rank 1.", ray(1, -1)),
    ("SOUTH_WEST", "The diagonal toward file a and rank 1.", ray(-1, -1)),
    ("KNIGHT", "A knight's steps.", squares(knight)),
    ("KING", "A king's steps.", squares(king)),
    ("WHITE_STRIKES", "The squares that a white pawn strikes.", squares(strikes(1))),
    ("BLACK_STRIKES", "The squares that a black pawn strikes.", squares(strikes(-1))),
    ("WHITE_AHEAD", "The squares to which a white pawn may push on an empty board.", squares(ahead(1, 1))),
    ("BLACK_AHEAD", "The squares to which a black pawn may push on an empty board.", squares(ahead(-1, 6))),
]


def hexadecimal(number):
    digits = f"{number:016x}"
    return "0x" + "_".join(digits[i : i + 4] for i in range(0, 16, 4))


def main():
    print("// Printed by tables.py, which the crate keeps beside this folder.")
    for name, meaning, sets in TABLES:
        print(f"\n/// {meaning}")
        print("#[rattlefmt::skip]")
        print(f"pub(crate) static {name}: [u64; 64] = [")
        for i in range(0, 64, 4):
            print("    " + ", ".join(hexadecimal(n) for n in sets[i : i + 4]) + ",")
        print("];")


main()
