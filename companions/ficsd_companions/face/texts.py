"""The go-between's table of texts: what is said in FICS's words.

Nothing here acts. A row's places in braces are filled by `session`, `typed` and `told`; a row is one line or several.
"""

from ficslink.refusals import Refusal

BANNER = """
           Welcome to ficsd, a server of the Free Internet Chess Server profile

     This is its go-between for graphical clients: it speaks in FICS's own forms.

If you are not a registered player, enter guest or a name of your own.
"""

# ---- the login, by what the server answers ----
IS_REGISTERED = """
"{name}" is a registered name.  If it is yours, type the password.
If not, type anything else: it is refused, and then you can try another name.
"""
PASSWORD_BLANKS = "A password has no blanks at its beginning and its end: type it without them."
AS_GUEST = """
Logging you in as "{name}"; you may use this name to play unrated games.
(After logging in, do "register PASSWORD" to keep it.)

Press return to enter the server as "{name}":"""
AS_NEW = """
"{name}" is not a registered name.  You may use this name to play unrated games.
(After logging in, do "register PASSWORD" to keep it.)

Press return to enter the server as "{name}":"""
STARTING = """
**** Starting FICS session as {name}{title} ****
"""
# PyChess waits for the first two words wherever a name isn't taken, and reads the reason behind them
LOGIN_REFUSALS = {
    Refusal.BAD_HANDLE: "Sorry, names consist of 3 to 17 lower and upper case letters.  Try again.\n",
    Refusal.WRONG_PASSWORD: "**** Invalid password! ****\n",
    Refusal.HANDLE_TAKEN: 'Press return to try another name.\n"{name}" is already logged in.\n',
    Refusal.HALL_FULL: "Press return to try again.\nThe hall is full: 256 players are in.\n",
}
NOT_TAKEN = "What you sent behind it isn't taken for a name: it might be a password.\n"
NO_SERVER = "The server isn't there.\n"
FULL = "The club is full: come back later.\n"
MANY_LINKS = "There are too many links from your address.\n"
TOO_OFTEN = "Too many links came from your address in a short time: come back in a minute.\n"
NO_LOGIN = "\n**** Nobody logged in within two minutes. ****\n"
CUT = "\n**** You are cut off: {}. ****\n"
NOT_SET = "{} isn't kept: at most {most} names of up to {name} letters have values of up to {value} characters here."

# ---- the server's refusals in FICS's words: {line} what was typed, {word} its first word, {name} its second ----
REFUSALS = {
    Refusal.AMBIGUOUS: "Ambiguous move ({line}).",
    Refusal.LEAVES_KING: "Illegal move ({line}).",
    Refusal.CASTLE_FORBIDDEN: "Illegal move ({line}).",
    Refusal.NO_DROPS: "Illegal move ({line}).",
    Refusal.NOT_IN_HAND: "Illegal move ({line}).",
    Refusal.OCCUPIED: "Illegal move ({line}).",
    Refusal.END_RANK: "Illegal move ({line}).",
    Refusal.NO_PIECE: "Illegal move ({line}).",
    Refusal.CANNOT_REACH: "Illegal move ({line}).",
    Refusal.GAME_OVER: "You are not playing a game.",
    Refusal.NOT_YOUR_TURN: "It is not your move.",
    Refusal.TOO_MANY_MOVES: "Illegal move ({line}). 1200 half-moves were played.",
    Refusal.NOT_FALLEN: "Opponent is not out of time.",
    Refusal.TOO_FEW_MOVES: "There are only {half_moves} half moves in your game.",
    Refusal.ALREADY_OFFERED: "You are already offering that.",
    Refusal.NOT_WATCHING: "You are not observing game {name}.",
    Refusal.FEED_FULL: "Too many remarks or offers were made in this game.",
    Refusal.NOT_PLAYING: "You are not playing a game.",
    Refusal.NOT_IN_VARIANT: "That can't be done in this variant.",
    Refusal.UNKNOWN: "{word}: Command not found.",
    Refusal.AMBIGUOUS_WORD: 'Ambiguous command "{word}".',
    Refusal.BAD_ARGUMENTS: "Command failed: {word} doesn't take that.",
    Refusal.TOO_LONG: "Command failed: the line is too long.",
    Refusal.NO_SUCH_SEEK: "That seek is not available.",
    Refusal.SEEK_FULL: "You can only have 3 active seeks.",
    Refusal.NO_SUCH_PLAYER: "There is no player matching the name {name}.",
    Refusal.PLAYING: "You or {name} is playing a game.",
    Refusal.NO_CHALLENGE: "There are no offers to {word}.",
    Refusal.NO_DESK: "All boards are in use.",
    Refusal.REFUSES: "{name} is not open to match requests, or is censoring you.",
    Refusal.NO_PARTNER: "You do not have a bughouse partner.",
    Refusal.HAS_PARTNER: "You or {name} has a partner already.",
    Refusal.NOT_IN_CHANNEL: "You are not in that channel.",
    Refusal.LIST_FULL: "Your list is full.",
    Refusal.BAD_CHANNEL: "The range of channels is 0 to 255.",
    Refusal.NOT_GIVING: "You are not giving a simul.",
    Refusal.SIMUL_FULL: "You or {name} has 32 games already.",
    Refusal.NO_STORED: "There is no such stored game.",
    Refusal.SHELF_FULL: "No more games can be stored.",
    Refusal.NO_SUCH_GAME: "There is no such game.",
    Refusal.ACCOUNTS_FULL: "There are no more accounts.",
    Refusal.ALREADY_REGISTERED: "{me} is registered already.",
    Refusal.QUEUE_FULL: "{name} has too many lines waiting.",
    Refusal.BAD_OPPONENT: "You can't do that with {name}.",
    Refusal.ON_LIST: "{name} is already on your list.",
    Refusal.NOT_ON_LIST: "{name} is not on your list.",
    Refusal.NOT_REGISTERED: "A game can be stored only where all its players are registered.",
    Refusal.NOT_IN: "You are not logged in.",
    Refusal.ALREADY_WATCHING: "You are already observing game {name}.",
    Refusal.BAD_BYTE: "Command failed: only letters, digits and signs of plain ASCII can be sent.",
}

# ---- what a command is answered that was done, by its word; {0} is the first word behind it, {n} a number told ----
DONE = {
    "seek": "Your seek has been posted with index {n}.",
    "unseek": "Your seeks have been removed.",
    "unseek one": "Your seek {0} has been removed.",
    "match": "Issuing: {offer}.",
    "withdraw": "You withdraw the match offer to {who}.",
    "decline match": "You decline the match offer from {who}.",
    "decline": "You decline the {kind} request from {who}.",
    "decline later": "The {kind} request from {who} came first: accept or decline that one before.",
    "partner": "Making a partnership offer to {0}.",
    "tell": "(told {0})",
    "tell channel": "(told {n} players in channel {0})",
    "kibitz": "(kibitzed to {n} players)",
    "shout": "(shouted to {n} players)",
    "ptell": "(told your partner)",
    "observe": "You are now observing game {game}.\n"
    "Game {game}: {white} (++++) {black} (++++) unrated {kind} {minutes} {increment}\n",
    "unobserve": "Removing game {0} from observation list.",
    "+channel": "[{0}] added to your channel list.",
    "-channel": "[{0}] removed from your channel list.",
    "+": "[{0}] added to your {list} list.",
    "-": "[{0}] removed from your {list} list.",
    "register": "{me} is registered now.",
    "alias": "Alias set.",
    "unalias": "Alias {0} removed.",
    "style": "Style 12 set.",
    "other style": "Boards come in style 12 only here.",
    "set": "{0} set to {1}.",
    "iset on": "{0} set.",
    "iset off": "{0} unset.",
}

# ---- the server's news in FICS's words: the name of the pattern in told.py ----
TOLD = {
    "challenge": 'Challenge: {offer}.\nYou can "accept" or "decline", or propose different parameters.',
    "declined": "{who} declines the match offer.",
    "seek": '{who} (++++) seeking {minutes} {increment} unrated {kind}{colour} ("play {n}" to respond)',
    "resumes": '{who} would like to go on with your stored game; type "resume {who}" to accept.',
    "creating": "Creating: {white} (++++) {black} (++++) unrated {kind} {minutes} {increment}\n"
    "{{Game {game} ({white} vs. {black}) {how} unrated {kind} match.}}\n",
    "partner plays": "Your partner is playing game {game} ({white} vs. {black}).",
    "draw": "{who} offers you a draw.",
    "abort": '{who} would like to abort the game; type "abort" to accept.',
    "adjourn": '{who} would like to adjourn the game; type "adjourn" to accept.',
    "takeback": "{who} would like to take back {n} half move(s).",
    "own draw": "Draw request sent.",
    "own abort": "Abort request sent.",
    "own adjourn": "Adjourn request sent.",
    "own takeback": "Takeback request sent.",
    "offer elsewhere": "Game {game}: {line}",
    "declines": "{who} declines the {kind} request.",
    "taken_back": "Game {game}: {n} half move(s) taken back.",
    "kibitz": "{who}(++++)[{game}] kibitzes: {text}",
    "asks partner": '{who} offers to be your bughouse partner; type "partner {who}" to accept.',
    "partners": "{who} agrees to be your partner.",
    "parted": "{who} is no longer your partner.",
    "goodbye": "Logging you out.\nThank you for playing.",
}
# the reason of an end: the server's, FICS's
ENDS = {
    "aborted": "Game aborted by mutual agreement",
    "adjourned": "Game adjourned",
    "drawn by stalemate": "Game drawn by stalemate",
    "drawn by agreement": "Game drawn by mutual agreement",
    "drawn by the 50 move rule": "Game drawn by the 50 move rule",
    "drawn by repetition": "Game drawn by repetition",
    "drawn by time": "Game drawn because both players ran out of time",
    "partner's game ended": "Partners' game ended",
}

# ---- lists ----
ADS = "{n} ads displayed."
AD = "{n:>3} ++++ {who:<17} {minutes:>3} {increment:>3} unrated {kind:<12}{colour:>9} 0-9999"
GAME = (
    "{game:>3} ++++ {white:<10} ++++ {black:<10} [ {letter}u{minutes:>3} {increment:>3}] "
    "{white_left:>6} -{black_left:>6} ({white_men:>2}-{black_men:>2}) {side}:{move:>3}"
)
GAMES = "\n  {n} games displayed."
WHO = "++++ {who}"
WHO_END = "\n {n} players displayed (of {n}). (*) indicates system administrator."
FINGER = "Finger of {who}:\n\nOn for: some time   Idle: 0 secs\n\n{who} has not played any rated games.\n"
FINGER_ABSENT = "Finger of {who}:\n\n{who} isn't here.\n"
CHANNEL = "Channel {0}: {names}\n{n} players are in channel {0}."
CHANNEL_EMPTY = "Channel {0} is empty."
CHANNELS_OF = "{who} is in the following channels:\n{names}"
LISTS = "Lists:\n\ncensor               is PERSONAL\nchannel              is PERSONAL\nnoplay               is PERSONAL"
LIST = "-- {0} list: {n} names --\n{names}"
NO_STORED = "{me} has no adjourned games."
STORED_HEAD = "Stored games for {me}:\n    C Opponent       On Type          Str  M    ECO Date"
# strengths, the number of the move and the date aren't told by the server
STORED = "{n:>2}: {side} {who:<14} N [ {letter}u{minutes:>3} {increment:>3}] 39-39 W1   --- Thu Jan  1, 00:00 ??? 1970"
PENDING_FROM = "{n:>3}: {who} is offering a challenge: {offer}."
PENDING_TO = "{n:>3}: You are offering {who} a challenge: {offer}."
NO_PENDING = "There are no offers pending to or from other players."
DATE = "Local time     - {local}\nServer time    - {local}\nGMT            - {local}"
MOVES_HEAD = """Movelist for game {game}:

{white} (UNR) vs. {black} (UNR) --- {date}
Unrated {kind} match, initial time: {minutes} minutes, increment: {increment} seconds.
"""
MOVES_COLUMNS = "Move  {white:<23} {black}\n----  ---------------------   ---------------------"
MOVES_END = "      {Still in progress} *"
NOT_WATCHED = "You are neither playing nor observing game {0}."
NO_GAME = "You are neither playing nor observing a game."
NO_MESSAGES = "You have no messages."
MESSAGE_LOST = (
    "There are no messages here, and {who} wasn't told: {text}\n" 'Do "tell {who} {text}" while {who} is here.'
)
ALIAS = "{0} -> {1}"
NO_ALIASES = "You have set no aliases."
OTHERS_VARIABLES = "What {0} has set isn't told here."
