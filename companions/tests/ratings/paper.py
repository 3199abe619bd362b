"""Ratings of an archive's files by the formulas of Glickman's paper, written down one after another. It shares no line
with the program: it reads the files by themselves, keeps everything in dictionaries, and counts each day out of the one
before it, whether somebody played then or not."""

import math
import re
from datetime import date, timedelta
from pathlib import Path

TAU, EPSILON = 0.5, 0.000001
Player = list[float]  # r, RD, sigma


def read_games(folder: Path) -> list[dict[str, str]]:
    games = []
    for file in sorted(folder.glob("[0-9][0-9][0-9][0-9]/*.pgn")):
        text, tags, moves = file.read_text(encoding="utf-8"), {}, ""
        for line in text.split("\n"):
            if line.startswith("["):
                if moves:
                    games.append({**tags, "moves": moves})
                    tags, moves = {}, ""
                name, _, value = line[1:-1].partition(" ")
                tags[name] = value.strip('"')
            else:
                moves += line + " "
        if moves.strip():
            games.append({**tags, "moves": moves})
    return games


def half_moves(game: dict[str, str]) -> int:
    words = re.sub(r"\{[^}]*\}", "", game["moves"]).split()
    made = len([it for it in words if not re.match(r"\d+\.|1-0|0-1|1/2-1/2|\*", it)])
    if "FEN" in game:
        fen = game["FEN"].split()
        made += (int(fen[5]) - 1) * 2 + (1 if fen[1] == "b" else 0)
    return made


def pool(game: dict[str, str]) -> str:
    variants = {"Crazyhouse": "crazyhouse", "Bughouse": "bughouse", "Chess960": "fischer"}
    if "Variant" in game:
        return variants[game["Variant"]]
    if game["TimeControl"] == "-":
        return "classical"
    start, _, increment = game["TimeControl"].partition("+")
    seconds = int(start) + 40 * int(increment or 0)
    if seconds < 3 * 60:
        return "bullet"
    if seconds < 8 * 60:
        return "blitz"
    return "rapid" if seconds < 25 * 60 else "classical"


def counts(game: dict[str, str]) -> bool:
    accounts = game.get("WhiteAccount") == "yes" and game.get("BlackAccount") == "yes"
    return accounts and game["Result"] != "*" and "House" not in (game["White"], game["Black"])


def g(phi: float) -> float:
    return 1 / math.sqrt(1 + 3 * phi * phi / (math.pi * math.pi))


def E(mu: float, mu_j: float, phi_j: float) -> float:
    return 1 / (1 + math.exp(-g(phi_j) * (mu - mu_j)))


def glicko2(player: Player, opponents: list[tuple[float, float, float]]) -> Player:
    """Steps 2 to 8; an opponent is mu, phi and the score."""
    r, rd, sigma = player
    mu, phi = (r - 1500) / 173.7178, rd / 173.7178
    if not opponents:
        return [r, min(350, 173.7178 * math.sqrt(phi**2 + sigma**2)), sigma]
    v = 1 / sum(g(p) ** 2 * E(mu, m, p) * (1 - E(mu, m, p)) for m, p, s in opponents)
    delta = v * sum(g(p) * (s - E(mu, m, p)) for m, p, s in opponents)
    a = math.log(sigma**2)

    def f(x: float) -> float:
        top = math.exp(x) * (delta**2 - phi**2 - v - math.exp(x))
        return top / (2 * (phi**2 + v + math.exp(x)) ** 2) - (x - a) / TAU**2

    A = a
    if delta**2 > phi**2 + v:
        B = math.log(delta**2 - phi**2 - v)
    else:
        k = 1
        while f(a - k * TAU) < 0:
            k = k + 1
        B = a - k * TAU
    fA, fB = f(A), f(B)
    while abs(B - A) > EPSILON:
        C = A + (A - B) * fA / (fB - fA)
        fC = f(C)
        if fC * fB <= 0:
            A, fA = B, fB
        else:
            fA = fA / 2
        B, fB = C, fC
    sigma = math.exp(A / 2)
    phi_star = math.sqrt(phi**2 + sigma**2)
    phi = 1 / math.sqrt(1 / phi_star**2 + 1 / v)
    mu = mu + phi**2 * sum(g(p) * (s - E(mu, m, p)) for m, p, s in opponents)
    return [173.7178 * mu + 1500, min(350, 173.7178 * phi), sigma]


def rate(folder: Path) -> dict[tuple[str, str], Player]:
    """The ratings behind the last day with a game, by pool and name."""
    games = read_games(folder)
    days = sorted({it["Link"].split("/")[0] for it in games})
    ratings: dict[tuple[str, str], Player] = {}
    day = date.fromisoformat(days[0])
    while day <= date.fromisoformat(days[-1]):
        todays = [it for it in games if it["Link"].startswith(f"{day}/")]
        met: dict[tuple[str, str], list[tuple[float, float, float]]] = {}

        def at(name: str, its_pool: str) -> tuple[float, float]:
            r, rd, _ = ratings.get((its_pool, name), [1500, 350, 0.06])
            return (r - 1500) / 173.7178, rd / 173.7178

        for game in todays:
            if not counts(game):
                continue
            its, score = pool(game), {"1-0": 1.0, "0-1": 0.0, "1/2-1/2": 0.5}[game["Result"]]
            white, black = game["White"], game["Black"]
            if its != "bughouse":
                if half_moves(game) < 3:
                    continue
                met.setdefault((its, white), []).append((*at(black, its), score))
                met.setdefault((its, black), []).append((*at(white, its), 1 - score))
                continue
            other = [it for it in todays if it["Link"] == game["Partner"]][0]
            if not counts(other) or max(half_moves(game), half_moves(other)) < 3:
                continue
            # each board is read once, and gives its own two players their game
            mine, theirs = [white, other["Black"]], [black, other["White"]]
            for me, own, others, points in ((white, mine, theirs, score), (black, theirs, mine, 1 - score)):
                gap = sum(at(it, its)[0] for it in others) / 2 - sum(at(it, its)[0] for it in own) / 2
                phi = math.sqrt(sum(at(it, its)[1] ** 2 for it in others) / 2)
                met.setdefault((its, me), []).append((at(me, its)[0] + gap, phi, points))
        for key in set(ratings) | set(met):
            ratings_before = ratings.get(key, [1500.0, 350.0, 0.06])
            met.setdefault(key, [])
            ratings[key] = ratings_before
        ratings = {key: glicko2(ratings[key], met[key]) for key in ratings}
        day += timedelta(days=1)
    return ratings
