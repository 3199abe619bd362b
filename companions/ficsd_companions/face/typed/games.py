"""Games that run, or were adjourned: which there are, looking on, and their moves."""

from ficslink.lines import Stored, listed
from ficslink.terms import Terms

from .. import texts
from ..boards import Game, Role, fields_of, rows
from ..request import Lines, Observation
from ..told import is_board
from .line import Line
from .settings import now

BOARD_LINES = ("<12>", "<b1>")
ALL_MEN = 39  # the worth of a colour's men at the start
NOT_OBSERVING = "You are not observing any games."


def games(line: Line) -> None:
    session, rest = line.session, line.rest

    def done(lines: Lines) -> Lines:
        session.learn_games(lines)
        chosen = [
            (n, *it)
            for n, it in session.listed.items()
            if not rest or rest.startswith("/") or rest == str(n) or rest.lower() in (it[0].lower(), it[1].lower())
        ]
        return [game_row(line, *it) for it in chosen] + texts.GAMES.format(n=len(chosen)).split("\n")

    line.hand_on("games", "games", done)


def game_row(line: Line, number: int, white: str, black: str, terms: Terms) -> str:
    """A row of the list of games: with its clocks and men, where a link of this go-between was told of them."""
    game = line.session.shared.games.get(number)
    fields: dict[str, object] = {"game": number, "white": white, "black": black, **fields_of(terms)}
    left = f"{terms.minutes}:00"
    fields.update(white_left=left, black_left=left, white_men=ALL_MEN, black_men=ALL_MEN, side="W", move=1)
    if game and (game.white, game.black) == (white, black):
        board = game.boards[-1]
        fields["white_left"], fields["black_left"] = board.clocks()
        fields.update(
            white_men=board.white_material, black_men=board.black_material, side=board.side, move=board.number
        )
    return texts.GAME.format(**fields)


def observed(game: Game) -> Lines:
    return texts.DONE["observe"].format(**game.fields()).split("\n")


def observe(line: Line) -> None:
    session, rest = line.session, line.rest
    known = session.games.get(int(rest)) if rest.isdigit() else None
    if known and known.role is not Role.MINE and known.boards:
        return line.local("\n".join([*observed(known), known.boards[-1].shown(session.is_set("ms"))]))

    def render(answers: list[Lines]) -> Lines:
        lines = line.refusal(answers[1]) or []
        for it in filter(is_board, answers[1]):
            game = session.game_of(session.shared.board(it))
            shown = session.told.one(it)
            game.begin_with(session.shared.games.get(game.number))
            lines += observed(game) + shown + ([game.hands] if game.hands else [])
        return lines or answers[1]

    asks = ["games", f"observe {rest}".strip()]
    return session.ask(Observation(line.tag, line.code, asks, render, session))


def unobserve(line: Line) -> None:
    """`unobserve`: at one game, or at all."""
    session = line.session
    watched = [str(n) for n, it in session.games.items() if it.role is Role.WATCHED]
    numbers = [line.rest] if line.rest else watched
    if not numbers:
        return line.local(NOT_OBSERVING)

    def render(answers: list[Lines]) -> Lines:
        lines: Lines = []
        for number, answer in zip(numbers, answers):
            refused = line.refusal(answer)
            lines += refused or [texts.DONE["unobserve"].format(number)]
            if refused is None and number.isdigit():
                session.games.pop(int(number), None)
        return lines

    return line.ask([f"unobserve {it}" for it in numbers], render)


def moves(line: Line) -> None:
    session, rest = line.session, line.rest

    def render(answers: list[Lines]) -> Lines:
        game = session.present()
        if rest:
            game = session.games.get(int(rest)) if rest.isdigit() else session.game_with(rest)
        if game and game.boards:
            return move_list(game, session.is_set("ms"))
        return [texts.NOT_WATCHED.format(rest) if rest else texts.NO_GAME]

    line.ask([], render)


def move_list(game: Game, in_milliseconds: bool) -> Lines:
    start, words = game.moves(in_milliseconds)
    head = texts.MOVES_HEAD.format(date=now(), **game.fields()).split("\n")
    columns = texts.MOVES_COLUMNS.format(**game.fields()).split("\n")
    return [*head, *start, *columns, *rows(words), texts.MOVES_END]


def refresh(line: Line) -> None:
    def done(lines: Lines) -> Lines:
        return [it for told in lines for it in line.session.told.one(told)]

    line.ask(["refresh"], line.answer("refresh", done), BOARD_LINES)


def stored(line: Line) -> None:
    me = line.session.name

    def shown(n: int, row: Stored) -> str:
        side, who = ("W", row.black) if row.white == me else ("B", row.white)
        return texts.STORED.format(n=n, side=side, who=who, **fields_of(row.terms))

    def render(answers: list[Lines]) -> Lines:
        found = [row for it in answers[0] if isinstance(row := listed(it, "stored"), Stored)]
        if not found:
            return [texts.NO_STORED.format(me=me)]
        return texts.STORED_HEAD.format(me=me).split("\n") + [shown(*it) for it in enumerate(found, 1)]

    line.ask(["stored"], render)
