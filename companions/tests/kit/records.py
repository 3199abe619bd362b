"""Records of accounts and games, spelled byte by byte, and a store of many of them.

A record of an account: the bytes 01 and 41, the handle behind its length, and the SHA-256 digest of the password. One
of a game of chess: the bytes 01, 47 and 00, minutes and increment in seconds by two bytes each, the names of White and
Black behind their lengths, the number of half-moves by two bytes, and each half-move: two bytes for the move, from x
512 + to x 8 with the squares counted from a1 = 0 to h8 = 63, and 00 where it is its colour's first, else 01 and the two
moments of its thinking by eight bytes each, or 02, these, and the two stamps of its client by four bytes each. One of a
pair begins with 02, 47 and 02, has four names, and before each half-move the number of its board. Numbers have the high
byte first.

`python3 -m tests.kit.records FILE` makes a store of many accounts and games between them, of chess or, with --pairs, of
bughouse, whose knights go out and back on each board, stamped by their clients.
"""

import argparse
import hashlib
import itertools
import sqlite3
from collections.abc import Iterable, Sequence
from pathlib import Path

Row = tuple[bytes, bytes]  # a key and its record

TABLE = "CREATE TABLE records (key BLOB PRIMARY KEY NOT NULL, record BLOB NOT NULL) STRICT"
# Anderssen against Kieseritzky, London 1851, up to the move before mate
MOVES = """
    e2e4 e7e5 f2f4 e5f4 f1c4 d8h4 e1f1 b7b5 c4b5 g8f6 g1f3 h4h6 d2d3 f6h5 f3h4 h6g5 h4f5 c7c6 g2g4 h5f6 h1g1 c6b5 h2h4
    g5g6 h4h5 g6g5 d1f3 f6g8 c1f4 g5f6 b1c3 f8c5 c3d5 f6b2 f4d6 c5g1 e4e5 b2a1 f1e2 b8a6 f5g7 e8d8 f3f6 g8f6
""".split()
# four half-moves that lead back to where they began
AROUND = ("g1f3", "g8f6", "f3g1", "f6g8")
PASSWORD = "secret"


def handle_of(n: int) -> str:
    """The n-th handle: a capital and small letters."""
    letters = ""
    for _ in range(5):
        n, letter = divmod(n, 26)
        letters = "abcdefghijklmnopqrstuvwxyz"[letter] + letters
    return letters.capitalize()


def name_text(name: str) -> bytes:
    return bytes([len(name)]) + name.encode()


def account(name: str, password: str) -> Row:
    """The key and the record of an account."""
    record = b"\x01A" + name_text(name) + hashlib.sha256(password.encode()).digest()
    return b"a" + name.lower().encode(), record


def square(word: str) -> int:
    return "abcdefgh".index(word[0]) + 8 * (int(word[1]) - 1)


def half_move(place: int, word: str) -> bytes:
    """The half-move at this place of the list: each but the first of its colour was thought over for two seconds."""
    code = square(word[:2]) * 512 + square(word[2:]) * 8
    charge = b"\x00"
    if place >= 2:
        charge = b"\x01" + (2000 * place).to_bytes(8, "big") + (2000 * place + 2000).to_bytes(8, "big")
    return code.to_bytes(2, "big") + charge


def game_key(number: int) -> bytes:
    return b"g" + number.to_bytes(8, "big")


def game(number: int, white: str, black: str, words: Sequence[str]) -> Row:
    """The key and the record of a game of chess, 2 12."""
    record = b"\x01G\x00" + (2).to_bytes(2, "big") + (12).to_bytes(2, "big") + name_text(white) + name_text(black)
    record += len(words).to_bytes(2, "big") + b"".join(half_move(*it) for it in enumerate(words))
    return game_key(number), record


def stamped(place: int, word: str) -> bytes:
    """The half-move at this place of its board, with the stamps of its client where it has a charge."""
    text = half_move(place, word)
    if place < 2:
        return text
    return text[:2] + b"\x02" + text[3:] + (2000 * place).to_bytes(4, "big") + (2000 * place + 1900).to_bytes(4, "big")


def around(boards: int, length: int) -> bytes:
    """How many half-moves there are, and all of them: so many on each board, on which the knights go out and back."""
    text = b""
    for place in range(length):
        half = stamped(place, AROUND[place % 4])
        text += half if boards == 1 else b"\x01" + half + b"\x02" + half
    return (boards * length).to_bytes(2, "big") + text


def make_store(path: Path | str, rows: Iterable[Row]) -> None:
    """Makes a store of these rows by SQLite, in the form that the server has."""
    table = sqlite3.connect(path)
    table.execute(TABLE)
    table.executemany("INSERT INTO records VALUES (?, ?)", rows)
    table.commit()
    table.close()


def make_full_store(path: Path | str, accounts: int, games: int) -> None:
    """Makes a store of so many accounts and games between them."""
    names = [handle_of(n) for n in range(accounts)]
    rows = [account(name, PASSWORD) for name in names]
    for n in range(games):
        white, black = names[n % accounts], names[(7 * n + 1) % accounts]
        if white == black:
            black = names[(n + 1) % accounts]
        rows.append(game(n + 1, white, black, MOVES))
    make_store(path, rows)


def make_store_of_length(path: Path | str, accounts: int, games: int, boards: int, length: int) -> None:
    """Makes a store of so many accounts, and games between them on so many boards and of so many half-moves on each."""
    names = [handle_of(n) for n in range(accounts)]
    head = (b"\x02G\x02" if boards == 2 else b"\x01G\x00") + (2).to_bytes(2, "big") + (12).to_bytes(2, "big")
    halves = around(boards, length)
    rows = (account(name, PASSWORD) for name in names)
    players = ([names[(n + k) % accounts] for k in range(2 * boards)] for n in range(games))
    records = (head + b"".join(map(name_text, seats)) + halves for seats in players)
    make_store(path, itertools.chain(rows, ((game_key(n), record) for n, record in enumerate(records, 1))))


def main() -> None:
    words = argparse.ArgumentParser(prog="records", description=__doc__.rpartition("\n\n")[2])
    words.add_argument("file", metavar="FILE")
    words.add_argument("--accounts", type=int, default=4096, metavar="N", help="%(default)s without it")
    words.add_argument("--games", type=int, default=10_000, metavar="N", help="%(default)s without it")
    words.add_argument("--pairs", action="store_true", help="games of bughouse")
    words.add_argument("--half-moves", type=int, default=80, metavar="N", help="on each board, %(default)s without it")
    it = words.parse_args()
    make_store_of_length(it.file, it.accounts, it.games, 2 if it.pairs else 1, it.half_moves)


if __name__ == "__main__":
    main()
