#!/usr/bin/env python3
"""Prints src/home_files.rt: the files on which the king and the rooks begin, for each array of Fischer random."""

PAIRS = [(0, 1), (0, 2), (0, 3), (0, 4), (1, 2), (1, 3), (1, 4), (2, 3), (2, 4), (3, 4)]


def rank(n):
    files = [None] * 8
    free = lambda: [file for file in range(8) if files[file] is None]
    files[2 * (n % 4) + 1] = "B"
    files[2 * (n // 4 % 4)] = "B"
    files[free()[n // 16 % 6]] = "Q"
    for file in [free()[index] for index in PAIRS[n // 96]]:
        files[file] = "N"
    for file, kind in zip(free(), "RKR"):
        files[file] = kind
    return "".join(files)


def table(name, about, file_of):
    print(f"\n/// {about}")
    print(f"#[rattlefmt::skip]\npub(crate) static {name}: [u8; 960] = [")
    numbers = [str(file_of(rank(n))) for n in range(960)]
    for at in range(0, 960, 32):
        print("    " + ", ".join(numbers[at:at + 32]) + ",")
    print("];")


print("// Printed by tables.py, which the crate keeps beside this folder.")
table("KING_FILES", "The file of the king, by the array's number.", lambda kinds: kinds.index("K"))
table("LONG_ROOK_FILES", "The file of the rook for long castling, by the array's number.", lambda kinds: kinds.index("R"))
table("SHORT_ROOK_FILES", "The file of the rook for short castling, by the array's number.", lambda kinds: kinds.rindex("R"))
