"""The places of a line of antt at which it may be broken, and how far outside each lies."""
from dataclasses import dataclass, field

OPEN, CLOSED = "([{", ")]}"
# what is written between two operands, from what binds most loosely on
SIGNS = [("→",), ("↔",), ("⊎",), ("×",), ("≡", "≢", "<", "≤", ">", "≥", "<ℤ", "≤ℤ"), ("∙",), ("||",), ("&&",), ("==",),
         ("∷", "++"), ("+", "-", "+ℤ", "-ℤ"), ("*", "/", "%"), ("^",)]
SEQUENCE, DEFINED, IN, CHOICE, FIRST_SIGN, BLOCK, ARGUMENT, TYPE = 0, 1, 2, 3, 10, 80, 90, 95
RANKS = {sign: FIRST_SIGN + at for at, signs in enumerate(SIGNS) for sign in signs}
# behind these, and before those, a line isn't broken
TAKES_NEXT = {"let", "record", "elim", "pub", "abbrev", "data", "unfoldable", "opaque", "as", "if", "then", "else", "¬",
              "|", "(←", "unfolding", "module", "Type", *RANKS}
TAKES_LAST = {"in", "=", ":", "↦", "where", "λ"}


@dataclass(frozen=True)
class Place:
    """A place between two words: the less its key, the further outside it lies. Those of a block that begins and ends
    on the line, of fields or of cases, are broken together; `block` is its number, and 0 elsewhere."""

    key: tuple[int, int]
    block: int = 0
    ends_block: bool = False


@dataclass
class Frame:
    """What stands between two brackets, or the line: how deep its words lie at first, and now; where it is a block its
    number, and how far outside the places lie that are broken together."""

    base: int
    block: int = 0
    key: tuple[int, int] = (0, BLOCK)
    level: int = 0
    lets: list[int] = field(default_factory=list)
    is_bound: bool = False  # whether the words are the binders of a λ

    def __post_init__(self):
        self.level = self.base

    def restart(self):
        """A λ or a `let` reaches as far as a comma, a semicolon or a bar."""
        self.level, self.lets, self.is_bound = self.base, [], False


def ends_of_blocks(words):
    """Of each word that is a bracket alone the brackets that close it and what is around it at once, if any do."""
    opened, ends = [], {}
    for at, word in enumerate(words):
        for sign in [] if word.startswith('"') else word:
            if sign in OPEN:
                opened.append(at)
            elif sign in CLOSED and opened:
                begun = opened.pop()
                ends[begun] = len(word) - len(word.lstrip(CLOSED))
    return ends


class Line:
    """Goes over the words of a line, and tells of the places between them."""

    def __init__(self, words):
        self.words = words
        self.ends = ends_of_blocks(words)
        self.frames = [Frame(0)]
        self.blocks = 0
        self.behind_binders = False  # whether the last word ended the binders of a λ
        self.is_defined = False  # and whether that stood behind `=` or `↦`

    def places(self):
        """The place before each word, and None where there is none."""
        found = [None]
        self.read("", self.words[0], 0)
        for place, (last, word) in enumerate(zip(self.words, self.words[1:]), 1):
            found.append(self.between(last, word))
            self.read(last, word, place)
        if self.words[-1] in RANKS or self.words[-1] in ("[", "{", "("):
            found[-1] = None
        return found

    def between(self, last, word):
        frame = self.frames[-1]
        if word[0] in CLOSED:
            return Place(frame.key, frame.block, ends_block=True) if frame.block else None
        if frame.block and (last[-1] in "[{;" or word == "|"):
            return Place(frame.key, frame.block)
        if word == "|" or last[-1] in ";,":
            return Place((frame.base, SEQUENCE))
        if self.behind_binders:
            return Place((frame.level - 1, DEFINED if self.is_defined else ARGUMENT))
        if last == "in":
            return Place((frame.level, IN))
        if frame.is_bound or word in TAKES_LAST or last in TAKES_NEXT:
            return Place((frame.level, TYPE)) if word == "λ" and last in ("=", "↦") else None
        return Place((frame.level, self.rank(last, word)))

    @staticmethod
    def rank(last, word):
        if last in ("=", "↦"):
            return DEFINED
        if word in ("then", "else"):
            return CHOICE
        return TYPE if last == ":" else RANKS.get(word, ARGUMENT)

    def read(self, last, word, place):
        """Goes over a word."""
        self.behind_binders = False
        frame = self.frames[-1]
        if word.startswith('"'):
            return
        if word == "|" or last.endswith((";", ",")):
            frame.restart()
        if word == "let":
            frame.lets.append(frame.level)
            frame.level += 1
        elif word == "in" and frame.lets:
            frame.level = frame.lets.pop()
        for at, sign in enumerate(word):
            if sign in OPEN:
                self.open(sign, last, place)
            elif sign in CLOSED:
                self.close()
            elif sign == "λ" and (at == 0 or word[at - 1] in OPEN):
                self.frames[-1].is_bound = True
                self.is_defined = at == 0 and last in ("=", "↦")
            elif sign == "." and at == len(word) - 1 and self.frames[-1].is_bound:
                self.frames[-1].is_bound = False
                self.frames[-1].level += 1
                self.behind_binders = True

    def open(self, sign, last, at):
        is_block = len(self.words[at]) == 1 and (sign == "[" or sign == "{" and last.lstrip(OPEN) == "record")
        self.blocks += is_block
        level = self.frames[-1].level + 1
        key = (self.outside(self.ends.get(at, 0) - 1), BLOCK)
        self.frames.append(Frame(level, self.blocks if is_block else 0, key))

    def outside(self, closed):
        """How deep a block lies that ends together with so many brackets around it, in which only words stand before
        it."""
        at = len(self.frames) - 1
        while closed > 0 and at and not self.frames[at].block and self.frames[at].level == self.frames[at].base:
            at, closed = at - 1, closed - 1
        return self.frames[at].level

    def close(self):
        closed = self.frames.pop()
        if not self.frames:  # it was opened on a line above
            self.frames.append(Frame(closed.base - 1))
