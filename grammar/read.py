#!/usr/bin/env python3
"""Reads LLVM text by the tables of ll.grammar.

    read.py FILE..              for each file: read, or where it is refused, what stood next and what would be taken
    read.py --skipped FILE..    the same, with the skipped tokens of each file that is read, counted
    read.py --tokens FILE..     the tokens of each file
    read.py --examples [FILE]   the texts of examples.txt
    read.py --merged ..         the same by the merged grammar of tables.py
"""
import collections
import os
import re
import sys

import tables

LETTERS = frozenset(b'ABCDEFGHIJKLMNOPQRSTUVWXYZabcdefghijklmnopqrstuvwxyz')
DIGITS = frozenset(b'0123456789')
HEX = frozenset(b'0123456789abcdefABCDEF')
NAME = LETTERS | DIGITS | frozenset(b'$._-')
WORD = LETTERS | DIGITS | frozenset(b'_.')
MARKS = frozenset(b'=,()[]{}<>!|')


class BadToken(Exception):
    def __init__(self, at):
        super().__init__(at)
        self.at = at


class Token:
    __slots__ = ('cls', 'at', 'end', 'kind')

    def __init__(self, cls, at, end, kind):
        self.cls, self.at, self.end, self.kind = cls, at, end, kind


def run(b, i, among):
    while i < len(b) and b[i] in among:
        i += 1
    return i


def unescaped(raw):
    """`\\\\` is a backslash, `\\XX` that byte, any other backslash itself."""
    out, i = bytearray(), 0
    while i < len(raw):
        if raw[i] == 92 and raw[i + 1:i + 2] == b'\\':
            out.append(92)
            i += 2
        elif raw[i] == 92 and len(raw) > i + 2 and raw[i + 1] in HEX and raw[i + 2] in HEX:
            out.append(int(raw[i + 1:i + 3], 16))
            i += 3
        else:
            out.append(raw[i])
            i += 1
    return bytes(out)


def is_utf8(s):
    try:
        s.decode('utf-8')
        return True
    except UnicodeDecodeError:
        return False


def string_end(b, i, start):
    """Behind the string whose first mark stands at i."""
    end = b.find(b'"', i + 1)
    if end < 0:
        raise BadToken(start)
    return end + 1


def text_string(b, i, start, is_name):
    end = string_end(b, i, start)
    value = unescaped(b[i + 1:end - 1])
    if not is_utf8(value) or is_name and (not value or 0 in value):
        raise BadToken(start)
    return end


def metadata_name_end(b, i):
    while i < len(b):
        if b[i] in NAME:
            i += 1
        elif b[i] == 92 and len(b) > i + 2 and b[i + 1] in HEX and b[i + 2] in HEX:
            i += 3
        else:
            break
    return i


FLOAT = re.compile(rb'0x[0-9A-Za-z]+|-?[0-9]+\.[0-9]*(?:[eE][+-]?[0-9]+)?')
INT = re.compile(rb'-?[0-9]+')


class Tokenizer:
    def __init__(self, g):
        self.g = g
        self.number = g.class_number

    def word_class(self, text):
        if text in self.g.refused_everywhere:
            return 'REFUSED'
        if text in self.g.class_of_word:
            return self.g.class_of_word[text]
        if re.match(r'i[0-9]+\Z', text):
            return 'INTTYPE'
        return 'WORD'

    def tokens(self, b):
        found, i = [], 0
        while i < len(b):
            c = b[i]
            if c in b' \t\r\n':
                i += 1
            elif c == 59:
                while i < len(b) and b[i] not in b'\r\n':
                    i += 1
            else:
                kind, cls, end = self.token(b, i)
                found.append(Token(self.number[cls], i, end, kind))
                i = end
        return found

    def token(self, b, i):
        """Its kind, its class and its end. Each token is as long as it can be."""
        c = b[i]
        behind = b[i + 1] if i + 1 < len(b) else -1
        if c in NAME:
            end = run(b, i, NAME)
            if b[end:end + 1] == b':':
                return 'LABEL', 'LABEL', end + 1
        if c == 34:
            end = string_end(b, i, i)
            if b[end:end + 1] == b':':
                text_string(b, i, i, True)
                return 'LABEL', 'LABEL', end + 1
            text_string(b, i, i, False)
            return 'STR', 'STR', end
        if c in b'@%':
            kind = 'GLOBAL' if c == 64 else 'LOCAL'
            if behind in DIGITS:
                return kind, kind, run(b, i + 1, DIGITS)
            if behind in NAME:
                return kind, kind, run(b, i + 1, NAME)
            if behind == 34:
                return kind, kind, text_string(b, i + 1, i, True)
            raise BadToken(i)
        if c == 99 and behind == 34:
            return 'CSTR', 'CSTR', string_end(b, i + 1, i)
        if c == 35:
            if behind in DIGITS:
                return 'GROUP', 'GROUP', run(b, i + 1, DIGITS)
            end = run(b, i + 5, LETTERS | {95})
            if b[i:i + 5] == b'#dbg_' and end > i + 5:
                return 'RECORD', 'RECORD', end
            raise BadToken(i)
        if c == 33:
            if behind == 34:
                return 'MDSTR', 'MDSTR', string_end(b, i + 1, i)
            if behind in DIGITS:
                return 'MDNUM', 'MDNUM', run(b, i + 1, DIGITS)
            end = metadata_name_end(b, i + 1)
            if end > i + 1:
                name = unescaped(b[i + 1:end])
                if not is_utf8(name):
                    raise BadToken(i)
                text = '!' + name.decode('utf-8')
                return 'MDNAME', text if text in self.g.nodes else 'MDNAME', end
            return '!', '!', i + 1
        if c == 36:
            return 'WORD', 'REFUSED', run(b, i + 1, NAME)
        if c in DIGITS or c == 45 and behind in DIGITS:
            m = FLOAT.match(b, i)
            if m:
                return 'FLOAT', 'FLOAT', m.end()
            if b[i:i + 2] == b'0x':
                raise BadToken(i)
            return 'INT', 'INT', INT.match(b, i).end()
        if b[i:i + 3] == b'...':
            return '...', '...', i + 3
        if c in LETTERS or c == 95:
            end = run(b, i, WORD)
            return 'WORD', self.word_class(b[i:end].decode()), end
        if c in MARKS:
            return chr(c), chr(c), i + 1
        raise BadToken(i)


def in_nodes(g, tokens):
    """For each token whether it stands in a node or a record. A named list is no node."""
    names = {g.class_number[n] for n in g.nodes} | {g.class_number['MDNAME']}
    opens = names | {g.class_number['RECORD']}
    open_, close, brace, unbrace = (g.class_number[m] for m in '(){}')
    bang, equals = g.class_number['!'], g.class_number['=']
    inside, i = [False] * len(tokens), 0
    while i < len(tokens):
        t = tokens[i].cls
        n = tokens[i + 1].cls if i + 1 < len(tokens) else -1
        is_list = i > 1 and tokens[i - 1].cls == equals and tokens[i - 2].cls in names
        if t in opens and n == open_ or t == bang and n == brace and not is_list:
            up, down = (open_, close) if n == open_ else (brace, unbrace)
            depth, i = 1, i + 2
            while i < len(tokens) and depth:
                inside[i] = True
                depth += (tokens[i].cls == up) - (tokens[i].cls == down)
                i += 1
        else:
            i += 1
    return inside


def refused_everywhere(g, tokens, inside):
    """The first token that is refused everywhere and stands in no node and no record."""
    refused = {g.class_number['REFUSED'], g.class_number['FLOAT']}
    for i, t in enumerate(tokens):
        if t.cls in refused and not inside[i]:
            return i
    return None


# rules whose texts stand in nodes and records alone, where no word is refused
IN_NODES = ('node_parens', 'node_inside', 'node_word', 'mdops', 'more_mdops', 'mdop', 'fields', 'more_fields', 'field', 'field_value',
            'more_words')


class Refusal:
    def __init__(self, kind, at, rule, alternative, takes, trail):
        self.kind, self.at, self.rule, self.alternative, self.takes, self.trail = kind, at, rule, alternative, takes, trail


class Reader:
    def __init__(self, g):
        self.g = g
        self.choose = []
        for rule, (start, end) in enumerate(g.spans):
            self.choose.append({c: i + 1 for i in range(start, end) for c in g.firsts[i]})
        # of each alternative its symbols, the last first, each with the alternative that it stands in
        self.symbols = [[]] + [[(s, n, i + 1) for s, n in reversed(a)] for i, (_, a, _) in enumerate(g.alternatives)]
        self.lost = self.lost_symbols()

    def lost_symbols(self):
        """Alternatives whose first symbol is a skipped token."""
        lost, i = set(), 0
        for name, alternatives in self.g.written:
            for symbols, at in alternatives:
                for expanded in self.g.expand(symbols, at):
                    i += 1
                    if expanded and expanded[0].startswith('~'):
                        lost.add(i)
        return lost

    def read(self, rule, tokens, events=None):
        """None where the tokens are read as the rule, else where and how they are refused; and the skipped tokens."""
        g = self.g
        stack = [('Rule', rule, 0)]
        skipped = []
        for i, t in enumerate(tokens):
            trail, took = [], 0
            while True:
                if not stack:
                    return Refusal('Syntax', i, None, None, self.takes(trail, None), trail), skipped
                s, n, a = stack.pop()
                if s != 'Rule':
                    if n != t.cls:
                        return Refusal('Syntax', i, g.alternatives[a - 1][0], a, self.takes(trail, n), trail), skipped
                    if took in self.lost and s == 'Leaf':
                        skipped.append(t)
                    if events is not None and s == 'Leaf':
                        events.append(t)
                    break
                chosen = self.choose[n].get(t.cls, g.nothing[n])
                trail.append(n)
                if not chosen:
                    return Refusal('Syntax', i, n, a or None, self.takes(trail, None), trail), skipped
                if events is not None:
                    events.append(chosen)
                took = chosen
                stack.extend(self.symbols[chosen])
        trail = []
        while stack:
            s, n, a = stack.pop()
            if s != 'Rule':
                return Refusal('Syntax', len(tokens), g.alternatives[a - 1][0], a, self.takes(trail, n), trail), skipped
            trail.append(n)
            if not g.nothing[n]:
                return Refusal('Syntax', len(tokens), n, a or None, self.takes(trail, None), trail), skipped
            if events is not None:
                events.append(g.nothing[n])
            stack.extend(self.symbols[g.nothing[n]])
        return None, skipped

    def takes(self, trail, cls):
        found = set() if cls is None else {cls}
        for r in trail:
            found |= self.g.first[r]
        return found


class Text:
    """A text, read by the grammar from a rule on."""

    def __init__(self, g, tokenizer, reader, b, rule='file'):
        self.b = b
        self.kind = self.at = self.refusal = None
        self.tokens, self.skipped = [], []
        try:
            self.tokens = tokenizer.tokens(b)
        except BadToken as e:
            self.kind, self.at = 'BadToken', e.at
            return
        inside = [True] * len(self.tokens) if rule in IN_NODES else in_nodes(g, self.tokens)
        i = refused_everywhere(g, self.tokens, inside)
        if i is not None:
            self.kind, self.at = 'RefusedWord', self.tokens[i].at
            return
        refusal, self.skipped = reader.read(g.rule_number[rule], self.tokens)
        if refusal:
            self.refusal = refusal
            is_inside = refusal.at < len(inside) and inside[refusal.at]
            self.kind = 'RefusedWord' if self.is_refused_word(g, refusal, is_inside) else 'Syntax'
            self.at = self.tokens[refusal.at].at if refusal.at < len(self.tokens) else len(b)

    def word(self, i):
        return self.b[self.tokens[i].at:self.tokens[i].end].decode('utf-8', 'replace') if i < len(self.tokens) else ''

    def is_refused_word(self, g, refusal, is_inside):
        """Is the word on the list of those that are refused in one place?"""
        word, behind = self.word(refusal.at), self.word(refusal.at + 1)

        def may_begin(rules):
            return any(g.first[g.rule_number[r]] <= refusal.takes for r in rules)
        return (not is_inside and any(word in words and may_begin(rules) for rules, words, _ in g.refused_where)
                or any(word in words and any(g.rule_number[r] in refusal.trail for r in rules) for rules, words, _ in g.refused_in)
                or any(word in words and behind == mark and may_begin(rules) for mark, rules, words, _ in g.refused_before))

    def place(self):
        before = self.b[:self.at]
        return '%d:%d' % (before.count(b'\n') + 1, self.at - (before.rfind(b'\n') + 1) + 1)


def few(xs, n=12):
    xs = list(xs)
    return ' '.join(xs[:n]) + (' .. (%d)' % len(xs) if len(xs) > n else '')


def report(g, path, text):
    if not text.kind:
        return '%s: read, %d tokens, %d skipped' % (path, len(text.tokens), len(text.skipped))
    m = re.match(rb'"[^"]*"|[^\s,()]+|.', text.b[text.at:])
    word = m.group(0).decode('utf-8', 'replace') if m else 'the end'
    out = '%s: %s at %s: %s' % (path, text.kind, text.place(), word)
    r = text.refusal
    if r:
        out += '\n  next: ' + (g.rules[r.rule] if r.rule is not None else 'the end')
        if r.alternative:
            out += ', in ' + g.alternative_text(r.alternative)
        out += '\n  asked: ' + (' '.join(g.rules[x] for x in r.trail) or 'none')
        out += '\n  would take: ' + (few(g.classes[c] for c in sorted(r.takes)) or 'the end')
    return out


def examples(g, tokenizer, reader, path):
    """Lines of examples.txt, see there."""
    taken = set()
    rule, wrong, seen, read_of, refused_of = None, [], collections.Counter(), collections.Counter(), collections.Counter()
    for at, line in enumerate(open(path, encoding='utf-8'), 1):
        line = line.rstrip('\n')
        if not line or line.startswith('#'):
            continue
        if line.startswith('== '):
            rule = line[3:].strip()
            if rule != 'tokens' and rule not in g.rule_number:
                wrong.append('line %d: no rule %s' % (at, rule))
            continue
        mark, _, text = line.partition(' ')
        if mark == '=':
            text, _, expected = text.rpartition('=>')
            seen['tokens'] += 1
            b = text.strip().replace('¶', '\n').encode('utf-8')
            try:
                kinds = ' '.join(g.classes[t.cls] for t in tokenizer.tokens(b))
            except BadToken as e:
                kinds = 'BadToken %d' % e.at
            if kinds != ' '.join(expected.split()):
                wrong.append('line %d: %s\n  is %s' % (at, line, kinds))
            continue
        if mark not in ('+', '-S', '-B', '-R'):
            wrong.append('line %d: not an example: %s' % (at, line))
            continue
        raw = text.replace('¶', '\n').encode('utf-8')
        here = '▶'.encode()
        expected_at = raw.find(here)
        b = raw.replace(here, b'', 1)
        kind = {'+': None, '-S': 'Syntax', '-B': 'BadToken', '-R': 'RefusedWord'}[mark]
        seen['read' if kind is None else 'refused'] += 1
        (read_of if kind is None else refused_of)[rule] += 1
        if kind and expected_at < 0:
            wrong.append('line %d: where is it refused?' % at)
            continue
        found = Text(g, tokenizer, reader, b, rule)
        if not kind and not found.kind:
            events = []
            reader.read(g.rule_number[rule], found.tokens, events)
            taken.update(e for e in events if isinstance(e, int))
        if found.kind != kind or kind and found.at != expected_at:
            wrong.append('line %d: %s %s\n  %s' % (at, rule, line, report(g, 'is', found)))
    for r in g.rules:
        if not read_of[r] or not refused_of[r]:
            wrong.append('%s: %d texts that are read, %d that are refused' % (r, read_of[r], refused_of[r]))
    for w in wrong:
        print(w)
    untaken = [i + 1 for i, (r, _, _) in enumerate(g.alternatives) if i + 1 not in taken and g.rules[r] != 'most_words']
    for i in untaken:
        print('taken by no text: ' + g.alternative_text(i))
    print('%d texts: %d read, %d refused, %d cut into tokens; %d wrong'
          % (sum(seen.values()), seen['read'], seen['refused'], seen['tokens'], len(wrong)))
    return not wrong


def main():
    words = sys.argv[1:]
    if not words:
        sys.exit(__doc__)
    merged = words[0] == '--merged'
    g = tables.Grammar(merged=merged)
    words = words[merged:]
    tokenizer, reader = Tokenizer(g), Reader(g)
    if words[0] == '--examples':
        sys.exit(0 if examples(g, tokenizer, reader, words[1] if len(words) > 1 else os.path.join(tables.HERE, 'examples', 'examples.txt')) else 1)
    option = words.pop(0) if words[0].startswith('--') else None
    good = True
    for path in words:
        with open(path, 'rb') as f:
            b = f.read()
        text = Text(g, tokenizer, reader, b)
        good = good and not text.kind
        print(report(g, path, text))
        if option == '--tokens':
            for t in text.tokens:
                print('  %d %s %s' % (t.at, g.classes[t.cls], b[t.at:t.end].decode('utf-8', 'replace')))
        if option == '--skipped' and text.skipped:
            n = collections.Counter(b[t.at:t.end].decode('utf-8', 'replace') if g.classes[t.cls] not in ('STR', 'GROUP')
                                    else g.classes[t.cls] for t in text.skipped)
            print('  skipped: ' + ', '.join('%s %d' % x for x in n.most_common()))
    sys.exit(0 if good else 1)


if __name__ == '__main__':
    main()
