"""What passes between a tab and the server, without their sockets: whose line each answer belongs to, and what of it
the tab is told."""

from collections import deque
from collections.abc import Iterable
from enum import Enum
from typing import NamedTuple

from ficsd_companions.limits.hearing import Hearing
from ficsd_companions.limits.saying import Saying
from ficslink import stamps
from ficslink.lines import Entered, Goodbye, Refused, parse
from ficslink.refusals import Refusal
from ficslink.texts import NEWS_BEGIN, PASSWORD, PROMPTS, READY, Message, Messages, spelled

from . import lines
from .closes import NO_STAMPS, closed
from .own_games import OwnGames
from .questions import List, News


GOODBYE = Goodbye.FORM  # behind which the server closes, as its player wished


class Asker(Enum):
    """Who asked for a part, where it is no question of our own."""

    THE_TAB = "the tab"
    NOBODY = "nobody"


class Hushed(NamedTuple):
    """A line of the tab that isn't passed on, which the go-between answers itself in its turn."""

    why: str


Question = News | List


class Talk:
    """One link. The answers come strictly in the order of the lines, so who asked stands in a queue.

    What comes of a question of our own is told as news, as the server tells them unasked: an empty message, the lines,
    the prompt. A prompt alone isn't told. So a tab never takes it for an answer to a line of its own.
    """

    def __init__(self, refuses_stamps: bool = False, saying: Saying | None = None) -> None:
        self.messages, self.games = Messages(), OwnGames()
        self.refuses_stamps = refuses_stamps
        self.saying, self.hearing = saying or Saying(), Hearing()
        # the opening of the link, which answers no line, is told like an answer
        self.owed: deque[Asker | Question | Hushed] = deque([Asker.THE_TAB])
        self.asked_by: Asker | Question = Asker.THE_TAB  # who asked for the part that is being told
        self.begin: list[str] = []  # of news, where nothing of them was told as yet
        self.has_left_out = False  # of these
        self.begins_part = True
        self.ours: list[str] = []  # the lines so far of an answer to a question of our own
        self.has_sent = self.is_stamped = self.has_left = False
        self.taken = 0  # lines of the tab, as it counts them
        self.name: str | None = None
        self.login_refusal: Refusal | None = None  # the last one before the login is done
        self.prompt: str | None = None

    # ---- from the tab ----

    def from_tab(self, text: str) -> bytes:
        """The bytes of a tab's message for the server, none where it isn't to have it; `NoLine` where it is no
        line."""
        line = lines.line_of(text)
        stamped = stamps.text_of(line)
        if stamped is not None and self.refuses_stamps:
            raise closed(NO_STAMPS)
        is_answered = stamps.is_answered(line, is_first=not self.has_sent)
        why = self.refusal(line if stamped is None else stamped) if is_answered else None
        if is_answered:
            self.owed.append(Hushed(why) if why else Asker.THE_TAB)
        elif not self.has_sent:
            self.is_stamped = True
        self.has_sent = True
        self.taken += 1
        return b"" if why else spelled(line)

    def refusal(self, line: bytes) -> str | None:
        """Why a line isn't passed on, where that is so."""
        return self.saying.refusal(line.decode("latin-1")) if self.name else None

    def own_answers(self) -> list[str]:
        """What the tab is told of lines that weren't passed on, as far as it is their turn."""
        texts: list[str] = []
        while self.begins_part and self.owed and isinstance(hushed := self.owed[0], Hushed):
            self.owed.popleft()
            texts += [hushed.why, READY]
        return texts

    @property
    def is_settled(self) -> bool:
        """Whether nothing is owed to the tab."""
        return Asker.THE_TAB not in self.owed

    @property
    def awaits_password(self) -> bool:
        return self.prompt == PASSWORD and not self.owed

    # ---- questions of our own ----

    def ask(self, question: List) -> bytes:
        """The bytes of a question of our own."""
        self.owed.append(question)
        return spelled(question.line)

    def begin_anew(self, missed: Iterable[str]) -> list[str]:
        """Another page has come, which knows nothing of what came before: what it is told of the messages that weren't
        told. All that is owed is told as news."""
        owed = (it for it in self.owed if not isinstance(it, Hushed))
        self.owed = deque(News() if it is Asker.THE_TAB else it for it in owed)
        self.taken = 0
        is_within = not self.begins_part and isinstance(self.asked_by, Asker) and not self.begin
        return as_news(missed, is_within)

    # ---- from the server ----

    def from_server(self, piece: bytes, is_behind: bool = False) -> list[str]:
        """What the tab is told of a piece: the texts of messages. `is_behind` says that it hasn't taken what it was
        told."""
        return self.told(self.messages.of(piece), is_behind)

    def left(self) -> list[str]:
        """What the tab is told at the end of the link."""
        texts = self.told(self.messages.left())
        return texts + (self.news() if self.ours else [])

    def told(self, messages: Iterable[Message], is_behind: bool = False) -> list[str]:
        texts: list[str] = []
        for message in messages:
            if self.begins_part:
                self.begins_part = False
                self.asked_by = self.whose(message)
                if self.asked_by is Asker.NOBODY:
                    self.begin, self.has_left_out = [message.text], False
                    continue
            if message.is_prompt:
                texts += self.end_part(message.text)
            elif self.hearing.hears(message.text, is_behind):
                texts += self.line(message.text)
            else:
                self.has_left_out = True
        return texts

    def line(self, text: str) -> list[str]:
        """What the tab is told of a line that is no talk which is left out."""
        self.hear(text)
        if not isinstance(self.asked_by, Asker):
            self.ours.append(text)
            return []
        begin, self.begin = self.begin, []
        return [*begin, text]

    def end_part(self, prompt: str) -> list[str]:
        """What the tab is told at the end of a part. News that were talk alone, of which all was left out, are none."""
        self.prompt, self.begins_part = prompt, True
        begin, self.begin = self.begin, []
        if not isinstance(self.asked_by, Asker):
            texts = self.news(prompt)
        else:
            texts = [] if begin and self.has_left_out else [*begin, prompt]
        return texts + self.own_answers()

    def whose(self, message: Message) -> Asker | Question:
        """Who asked for the part that begins with a message."""
        if message.text == NEWS_BEGIN:
            return Asker.NOBODY
        asker = self.owed.popleft() if self.owed else Asker.THE_TAB
        assert not isinstance(asker, Hushed)  # which are answered before another part begins
        return asker

    def left_out(self) -> list[str]:
        """What the tab is told of talk that it wasn't told; nothing within a part."""
        lines = self.hearing.left_out() if self.begins_part else []
        return [NEWS_BEGIN, *lines, READY] if lines else []

    def news(self, *prompt: str) -> list[str]:
        """What the tab is told of an answer to a question of our own."""
        assert not isinstance(self.asked_by, Asker)
        rest, self.ours = self.asked_by.rest_of(self.ours), []
        return [NEWS_BEGIN, *rest, *prompt] if rest else []

    def hear(self, line: str) -> None:
        """Learns from a line how the tab's player stands."""
        self.games.hear(line)
        self.has_left = line == GOODBYE
        if self.name is None and self.asked_by is Asker.THE_TAB:
            read = parse(line)
            self.name = read.who if isinstance(read, Entered) else None
            self.login_refusal = read.refusal.refusal if isinstance(read, Refused) else None


def as_news(messages: Iterable[str], is_within: bool) -> list[str]:
    """Messages as parts that answer nothing. `is_within` says that a part has begun that isn't whole yet."""
    told: list[str] = []
    part: list[str] = []
    for it in messages:
        if it in PROMPTS:
            told += [*begun(part), it] if part else []
            part = []
        else:
            part.append(it)
    return told + (begun(part) if part or is_within else [])


def begun(part: list[str]) -> list[str]:
    """A part's lines, with the beginning of news before them."""
    return part if part[:1] == [NEWS_BEGIN] else [NEWS_BEGIN, *part]
