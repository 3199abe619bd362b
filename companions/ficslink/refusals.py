"""The refusals by name, as docs/CLIENTS.md has them."""

from enum import IntEnum


class Refusal(IntEnum):
    """A refusal: its number, and its cause in words."""

    cause: str

    def __new__(cls, number: int, cause: str) -> "Refusal":
        it = int.__new__(cls, number)
        it._value_ = number
        it.cause = cause
        return it

    @property
    def word(self) -> str:
        """The name that the server writes, as HallFull."""
        return self.name.title().replace("_", "")

    AMBIGUOUS = 1, "two or more allowed moves match the word"
    LEAVES_KING = 2, "the own king would be attacked after it"
    CASTLE_FORBIDDEN = 3, "that castling isn't allowed now"
    NO_DROPS = 4, "a drop in chess or Fischer random"
    NOT_IN_HAND = 5, "the hand has no such man"
    OCCUPIED = 6, "a drop on a square that isn't empty"
    END_RANK = 7, "a drop of a pawn on the first or eighth rank"
    NO_PIECE = 8, "no own man of that kind stands on that square, file or rank"
    CANNOT_REACH = 9, "none of the men that the word may mean reaches the square"
    GAME_OVER = 10, "the game has ended"
    NOT_YOUR_TURN = 11, "the other colour is to move"
    TOO_MANY_MOVES = 12, "1,200 half-moves were played on the board"
    NOTHING_TO_CLAIM = 13, "no draw may be claimed; of no command: `draw` offers one then"
    NOT_FALLEN = 14, "`flag`: the opponent has time left"
    TOO_FEW_MOVES = 15, "`takeback`: there aren't that many half-moves"
    NO_SUCH_OFFER = 16, "no offer stands at the desk; of no command: a session asks the lobby then, see 34"
    ALREADY_OFFERED = 17, "one's own very offer stands already"
    NOT_WATCHING = 18, "`unobserve`: one doesn't look on there"
    FEED_FULL = 19, "a seat has made 256 offers and declines in this game, or all together 1,024 remarks"
    NOT_PLAYING = 20, "one has no game, or none against that player; `observe H`: H plays none"
    NOT_IN_VARIANT = 21, "`takeback` in bughouse; `seek` of bughouse; bughouse with a giver of a simul"
    BAD_HANDLE = 22, "at the login: no handle"
    WRONG_PASSWORD = 23, "at the login"
    HANDLE_TAKEN = 24, "at the login: somebody here has the handle"
    HALL_FULL = 25, "at the login: 256 are in"
    UNKNOWN = 26, "the first word begins no command"
    AMBIGUOUS_WORD = 27, "the first word begins several commands"
    BAD_ARGUMENTS = 28, "what stands behind the command isn't what it takes"
    TOO_LONG = 29, "a line of more than 1,023 bytes, perhaps once its alias is replaced"
    NO_SUCH_SEEK = 30, "`play`, `unseek`: no such seek"
    SEEK_FULL = 31, "one has three seeks"
    NO_SUCH_PLAYER = 32, "nobody here has the handle, or that player is leaving"
    PLAYING = 33, (
        "one of those who would play is in a game and gives no simul (`resume` of a pair: or gives one); "
        "`seek` of who plays or gives a simul; `simopen` with a game, or its end with two"
    )
    NO_CHALLENGE = 34, "no such challenge; `accept` and `decline` where there is no offer either"
    NO_DESK = 35, "all 128 desks are in use, or 2^62 games were started"
    REFUSES = 36, "the other has `open` off, or has one on a list of names"
    NO_PARTNER = 37, "one has no partner; for bughouse also the other"
    HAS_PARTNER = 38, "one of the two has a partner"
    NOT_IN_CHANNEL = 39, "one isn't in the channel"
    LIST_FULL = 40, "20 channels, 100 names, 32 aliases, 32 games at which one looks on"
    BAD_CHANNEL = 41, "a channel above 255"
    NOT_GIVING = 42, "one gives no simul, or has no game"
    SIMUL_FULL = 43, "one of those who would play has 32 games"
    NO_STORED = 44, "`resume`: one has no adjourned game with that player"
    SHELF_FULL = 45, "adjourned games and desks in use are 10,000 together"
    NO_SUCH_GAME = 46, "no game has the number"
    ACCOUNTS_FULL = 47, "4,096 accounts"
    ALREADY_REGISTERED = 48, "the handle has an account"
    QUEUE_FULL = 49, "512 lines wait for the other"
    BAD_OPPONENT = 50, "oneself; in bughouse one's partner"
    ON_LIST = 51, "the name is on the list, or one is in the channel"
    NOT_ON_LIST = 52, "the name isn't on the list; `unalias` of what is no alias"
    NOT_REGISTERED = 53, "`adjourn`: a player of the game had no account as it began"
    NOT_IN = 54, "the session isn't in"
    ALREADY_WATCHING = 55, "`observe`: one plays or looks on there"
    BAD_BYTE = 56, "the line has a byte below 0x20 or above 0x7E"


# refusals of a login that pass by waiting
WAITABLE = frozenset({Refusal.HANDLE_TAKEN, Refusal.HALL_FULL})
