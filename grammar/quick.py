"""Reads texts as read.py does, some twenty times as fast: only whether a text is read, and what it holds.

Tokens are cut by one pattern; the class of a token's text is asked of read.py once, and so are texts with a token that the
pattern does not know. What a rule becomes at a class is looked up: the symbols that are left once a token of it is taken.
"""
import itertools
import re

import read

PIECES = re.compile(rb'''
    [ \t\r\n]+ | ;[^\r\n]*
  | [A-Za-z0-9$._-]+:
  | c"[^"]*"
  | (?!c")[A-Za-z_][A-Za-z0-9_.]*
  | \.\.\. | [=,()\[\]{}<>|]
  | [%@](?:[0-9]+|[A-Za-z$._-][A-Za-z0-9$._-]*|"[^"]*")
  | 0x[0-9A-Za-z]* | -?[0-9]+\.[0-9]*(?:[eE][+-]?[0-9]+)? | -?[0-9]+
  | ![0-9]+ | !"[^"]*" | ![A-Za-z$._-][A-Za-z0-9$._-]*+(?!\\) | !(?![A-Za-z0-9$._"\\-])
  | \#[0-9]+ | \#dbg_[A-Za-z_]+ | \$[A-Za-z0-9$._-]*
  | "[^"]*"(?!:)
  | .
''', re.X | re.S)
BLANK, STRANGE = -1, -2


class Classes(dict):
    """The classes of texts of tokens; BLANK, or STRANGE where read.py has to cut the whole text."""

    def __init__(self, slow):
        super().__init__()
        self.slow = slow

    def __missing__(self, text):
        if text[0] in b' \t\r\n;':
            found = BLANK
        else:
            try:
                _, cls, end = self.slow.token(text, 0)
                found = self.slow.number[cls] if end == len(text) else STRANGE
            except read.BadToken:
                found = STRANGE
        if len(self) > 2_000_000:
            self.clear()
        self[text] = found
        return found


class Cut:
    """The tokens of a text: classes, and where each begins and ends."""

    def __init__(self, b, classes, places, ends):
        self.b, self.classes, self.places, self.ends = b, classes, places, ends

    def word(self, i):
        return self.b[self.places[i]:self.ends[i]].decode('utf-8', 'replace')


class Quick:
    """A reader of whole texts or of texts of one rule."""

    def __init__(self, g):
        self.g = g
        self.slow, self.reader = read.Tokenizer(g), read.Reader(g)
        self.class_of = Classes(self.slow)
        self.refused = {g.class_number['REFUSED'], g.class_number['FLOAT']}
        self.becomes = [{} for _ in g.rules]

    def cut(self, b):
        """The tokens of a text; a BadToken where there is none."""
        pieces = PIECES.findall(b)
        classes = list(map(self.class_of.__getitem__, pieces))
        if STRANGE in classes:
            tokens = self.slow.tokens(b)
            return Cut(b, [t.cls for t in tokens], [t.at for t in tokens], [t.end for t in tokens])
        ends = list(itertools.accumulate(map(len, pieces)))
        kept = [c >= 0 for c in classes]
        classes, places, ends = (list(itertools.compress(xs, kept)) for xs in (classes, [0] + ends, ends))
        return Cut(b, classes, places, ends)

    def left(self, rule, cls):
        """What the rule becomes where a token of the class stands: whether the token is taken, None where it is refused, and
        the symbols left behind it, the last first: a rule by its number, a class by -1 less its number."""
        stack = [('Rule', rule, 0)]
        while stack:
            s, n, _ = stack.pop()
            if s != 'Rule':
                return (True, [n2 if s2 == 'Rule' else -1 - n2 for s2, n2, _ in stack]) if n == cls else (None, [])
            chosen = self.reader.choose[n].get(cls, self.g.nothing[n])
            if not chosen:
                return None, []
            stack.extend(self.reader.symbols[chosen])
        return False, []

    def reads(self, rule, classes):
        """None where the classes are read by the rule, else the place of the first that is not taken."""
        stack, becomes = [self.g.rule_number[rule]], self.becomes
        for i, cls in enumerate(classes):
            while True:
                if not stack:
                    return i
                top = stack.pop()
                if top < 0:
                    if -1 - top != cls:
                        return i
                    break
                step = becomes[top].get(cls)
                if step is None:
                    step = becomes[top][cls] = self.left(top, cls)
                if step[0]:
                    stack += step[1]
                    break
                if step[0] is None:
                    return i
        return None if all(top >= 0 and self.g.nothing[top] for top in stack) else len(classes)

    def refused_places(self, classes):
        """The places of the tokens that are refused everywhere and stand in no node and no record."""
        refused = self.refused
        if not any(c in refused for c in classes):
            return []
        inside = read.in_nodes(self.g, [read.Token(c, 0, 0, '') for c in classes])
        return [i for i, c in enumerate(classes) if c in refused and not inside[i]]
