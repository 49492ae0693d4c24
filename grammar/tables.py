#!/usr/bin/env python3
"""Reads ll.grammar, makes the tables of it, and checks them as the engine does.

    tables.py              check, with counts
    tables.py classes      the classes by number
    tables.py rules        the rules, by number, with their alternatives, first classes, more and height
    tables.py rust         the tables as arrays
    tables.py numbers      the classes of kinds of tokens, as constants
    tables.py words        the words with their classes, as arrays
    tables.py merged ..    the same of a grammar in which words that stand for each other have one class: the words that stand in
                           the same alternatives but for themselves, as the attributes that are one word. They are held then.
"""
import itertools
import os
import re
import sys

HERE = os.path.dirname(os.path.abspath(__file__))
WORD_TEXT = re.compile(r'[A-Za-z_][A-Za-z0-9_.]*\Z')
PIECE = re.compile(r"\s*(?:(?P<quoted>[@~]?'[^']+')|(?P<name>~?[A-Za-z_][A-Za-z0-9_]*)|(?P<bar>\|)|(?P<minus>-))")


# Rules that most lines of a text go through. In the merged grammar their alternatives stand where the rule would be an
# alternative, and the tokens of rules that are tokens alone wherever the rule would stand, so that a reader goes there in
# one step. The rules stay, and may be used by no other.
IN_PLACE = ('line', 'solid', 'flat', 'const')
TOKENS_IN_PLACE = ('sum', 'quotient', 'bits', 'predicate', 'cast')


class GrammarError(Exception):
    pass


class Grammar:
    """The grammar as it is written, and the tables made of it.

    classes        the texts or kinds, by number
    class_number   number by text or kind
    rules          names, by number; rule_number the other way
    alternatives   (rule, symbols in order of text, line) by number less one; a symbol is (sort, number)
    spans          for each rule its first alternative and the place behind its last
    firsts         by alternative, a sorted list; mores by rule; nothing by rule, heights by rule
    skipped, refused_everywhere, refused_where, refused_in, refused_before
    """

    def __init__(self, path=os.path.join(HERE, 'll.grammar'), merged=False):
        self.read(path)
        self.class_of_word = {}           # words that have the class of a kind
        self.merged = merged
        if merged:
            self.merge()
            self.put_in_place()
        self.number()
        self.solve()

    # ---- reading

    def read(self, path):
        self.kinds, self.marks = [], []
        written = []                      # (rule name, [(symbols, line)])
        section = None
        self.skipped = []                 # (words, what)
        self.refused_everywhere = {}      # word: what
        self.refused_where = []           # (rules, words, what): the place would take all that begins one of the rules
        self.refused_in = []              # (rules, words, what): one of the rules was asked
        self.refused_before = []          # (mark, rules, words, what): as where, and the mark stands next
        listed = ''
        self.comments = 0
        for at, line in enumerate(open(path, encoding='utf-8'), 1):
            line = line.rstrip('\n')
            if line.lstrip().startswith('#'):
                self.comments += 1
                continue
            bare = re.sub(r"\s#.*$", '', line) if section is None else line
            if not bare.strip():
                continue
            if bare.startswith('kinds:'):
                self.kinds = bare.split()[1:]
            elif bare.startswith('marks:'):
                self.marks = [m.strip("'") for m in bare.split()[1:]]
            elif bare.rstrip() in ('skipped:', 'refused:'):
                section = bare.rstrip()[:-1]
                listed = ''
            elif section:
                listed += ' ' + bare.strip()
                if self.entry(section, listed.strip(), at):
                    listed = ''
            elif re.match(r'[a-z]', bare):
                name, right = bare.split('=', 1)
                written.append((name.strip(), []))
                self.alternatives_of(written[-1][1], right, at, True)
            else:
                if not written:
                    raise GrammarError('line %d: no rule is begun' % at)
                self.alternatives_of(written[-1][1], bare, at, False)
        if listed:
            raise GrammarError('a list does not end: ' + listed)
        self.written = written

    def entry(self, section, text, at):
        parts = [p.strip() for p in text.split(' : ')]
        if section == 'skipped':
            if len(parts) < 2:
                return False
            self.skipped.append((parts[0].split(), parts[1]))
            return True
        if len(parts) < 3:
            return False
        where, words, what = parts[0], parts[1].split(), parts[2]
        if where == 'everywhere':
            for w in words:
                if w in self.refused_everywhere:
                    raise GrammarError('line %d: %s is refused twice' % (at, w))
                self.refused_everywhere[w] = what
        elif where.startswith('where '):
            self.refused_where.append((where.split()[1:2], words, what))
        elif where.startswith('in '):
            self.refused_in.append((where.split()[1:], words, what))
        elif where.startswith('before '):
            pieces = where.split()
            self.refused_before.append((pieces[1], pieces[3:4], words, what))
        else:
            raise GrammarError('line %d: where is this refused?' % at)
        return True

    def alternatives_of(self, found, text, at, begins):
        place = 0
        if begins:
            found.append(([], at))
        text = text.rstrip()
        while place < len(text):
            m = PIECE.match(text, place)
            if not m or m.end() == place:
                raise GrammarError('line %d: cannot read %r' % (at, text[place:]))
            place = m.end()
            if m.group('bar'):
                found.append(([], at))
            else:
                found[-1][0].append(m.group('quoted') or m.group('name') or '-')

    def merge(self):
        """Gives one kind to words that stand for each other."""
        places = {}
        for name, alternatives in self.written:
            for k, (symbols, _) in enumerate(alternatives):
                for i, s in enumerate(symbols):
                    bare = s.lstrip('@~').strip("'")
                    if "'" in s and WORD_TEXT.match(bare):
                        of_words = k if symbols[0] == 'WORDS' else None
                        places.setdefault(bare, set()).add((name, of_words, tuple(symbols[:i]), s[0] == '~', tuple(symbols[i + 1:])))
        groups = {}
        for word, found in places.items():
            groups.setdefault(frozenset(found), []).append(word)
        for found, words in groups.items():
            if len(words) < 2:
                continue
            kind = '_'.join(sorted({name for name, _, _, _, _ in found})).upper()
            while kind in self.kinds:
                kind += '_TOO'
            self.kinds.append(kind)
            for w in words:
                self.class_of_word[w] = kind
        for _, alternatives in self.written:
            seen, kept = set(), []
            for symbols, at in alternatives:
                new = []
                for s in symbols:
                    kind = self.class_of_word.get(s.lstrip('@~').strip("'")) if "'" in s else None
                    new.append(s if not kind else '~' + kind if s[0] == '~' else kind)
                if tuple(new) not in seen:
                    seen.add(tuple(new))
                    kept.append((new, at))
            alternatives[:] = kept

    def put_in_place(self):
        """Writes the alternatives of such rules where the rule is an alternative, and tokens where it is tokens alone."""
        alternatives_of = dict(self.written)

        def tokens_of(s):
            return [inner[0] for inner, _ in alternatives_of[s]] if s in TOKENS_IN_PLACE else [s]

        def put(symbols, at):
            if len(symbols) == 1 and symbols[0] in IN_PLACE:
                return [found for inner, _ in alternatives_of[symbols[0]] for found in put(inner, at)]
            return [(list(found), at) for found in itertools.product(*map(tokens_of, symbols))]

        for _, alternatives in self.written:
            alternatives[:] = [found for symbols, at in alternatives for found in put(symbols, at)]

    # ---- numbers

    def number(self):
        self.rules = [n for n, _ in self.written]
        self.rule_number = {n: i for i, n in enumerate(self.rules)}
        if len(self.rule_number) != len(self.rules):
            raise GrammarError('rules named twice: %s' % sorted({n for n in self.rules if self.rules.count(n) > 1}))
        quoted = set()
        for _, alternatives in self.written:
            for symbols, _ in alternatives:
                quoted |= {s.lstrip('@~').strip("'") for s in symbols if "'" in s}
        words = sorted(q for q in quoted if WORD_TEXT.match(q))
        nodes = sorted(q for q in quoted if q.startswith('!') and len(q) > 1)
        others = quoted - set(words) - set(nodes) - set(self.marks)
        if others:
            raise GrammarError('neither words nor marks: %s' % sorted(others))
        unused = set(self.marks) - quoted
        if unused:
            raise GrammarError('marks in no rule: %s' % sorted(unused))
        self.words, self.nodes = words, nodes
        for w in words:
            self.class_of_word[w] = w
        self.classes = self.kinds + self.marks + nodes + words
        self.class_number = {c: i for i, c in enumerate(self.classes)}
        both = set(self.refused_everywhere) & set(words)
        if both:
            raise GrammarError('refused everywhere, but in a rule: %s' % sorted(both))
        self.marked = {}                  # word or kind: the rules that skip it
        self.alternatives, self.spans = [], []
        for rule, (name, alternatives) in enumerate(self.written):
            start = len(self.alternatives)
            for symbols, at in alternatives:
                for expanded in self.expand(symbols, at):
                    self.alternatives.append((rule, [self.symbol(s, name, at) for s in expanded], at))
            self.spans.append((start, len(self.alternatives)))
        used = {n for _, symbols, _ in self.alternatives for s, n in symbols if s == 'Rule'}
        lost = [n for i, n in enumerate(self.rules) if i not in used and i != 0 and not (self.merged and n in IN_PLACE + TOKENS_IN_PLACE)]
        if lost:
            raise GrammarError('rules that no rule uses: %s' % lost)
        self.check_lists()

    def words_of(self, kind):
        return sorted(w for w, k in self.class_of_word.items() if k == kind and w != k)

    def expand(self, symbols, at):
        if symbols == ['nothing']:
            return [[]]
        if symbols and symbols[0] == 'WORDS':
            but = [s.strip("'") for s in symbols[2:]]
            if symbols[1:2] not in ([], ['-']):
                raise GrammarError('line %d: WORDS stands alone' % at)
            return [['@' + "'" + w + "'"] for w in self.words if w not in but] + [['INTTYPE'], ['WORD']] + [[k] for k in self.kinds if k in self.class_of_word.values()]
        if not symbols or 'nothing' in symbols or '-' in symbols:
            raise GrammarError('line %d: an alternative without symbols is written as nothing' % at)
        return [symbols]

    def symbol(self, s, rule, at):
        bare = s.lstrip('@~')
        if s.startswith('~'):
            self.marked.setdefault(bare.strip("'"), set()).add(rule)
        if bare.startswith("'"):
            return ('Leaf' if s[0] in '@~' else 'Word', self.class_number[bare.strip("'")])
        if bare.isupper():
            if bare not in self.kinds:
                raise GrammarError('line %d: no kind %s' % (at, bare))
            return ('Leaf', self.class_number[bare])
        if bare not in self.rule_number:
            raise GrammarError('line %d: no rule %s' % (at, bare))
        return ('Rule', self.rule_number[bare])

    def check_lists(self):
        """Words that are skipped in a rule stand in the list, and the lists name what there is."""
        listed = {self.class_of_word.get(w, w) for words, _ in self.skipped for w in words}
        lacks = set(self.marked) - listed
        if lacks:
            raise GrammarError('skipped, but not in the list: %s' % sorted(lacks))
        held = {self.classes[n] for _, symbols, _ in self.alternatives for s, n in symbols if s == 'Leaf'}
        strange = listed - held
        if strange:
            raise GrammarError('listed as skipped, but held nowhere: %s' % sorted(strange))
        for rules, _, _ in self.refused_where + self.refused_in + [x[1:] for x in self.refused_before]:
            for r in rules:
                if r not in self.rule_number:
                    raise GrammarError('a list names no rule: %s' % r)

    # ---- what follows of rules: the least that the check takes

    def solve(self):
        n = len(self.rules)
        self.first = [set() for _ in range(n)]
        self.null = [False] * n
        self.more = [set() for _ in range(n)]
        self.heights = [0] * n
        changed = True
        while changed:
            changed = False
            for rule, symbols, _ in self.alternatives:
                first = self.begins(symbols)
                more = self.extends(symbols)
                if not first <= self.first[rule]:
                    self.first[rule] |= first
                    changed = True
                if self.empties(symbols) and not self.null[rule]:
                    self.null[rule] = True
                    changed = True
                if self.null[rule]:
                    more = more | self.first[rule]
                if not more <= self.more[rule]:
                    self.more[rule] |= more
                    changed = True
                height = 1 + self.lead(symbols)
                if height > self.heights[rule]:
                    self.heights[rule] = height
                    changed = True
                    if height > 10000:
                        raise GrammarError('a rule stands at its own front: ' + self.rules[rule])
        self.firsts = [sorted(self.begins(symbols)) for _, symbols, _ in self.alternatives]
        self.mores = [sorted(m) for m in self.more]
        self.nothing = [0] * n
        for i, (rule, symbols, _) in enumerate(self.alternatives):
            if self.empties(symbols):
                self.nothing[rule] = i + 1

    def empties(self, symbols):
        return all(s == 'Rule' and self.null[n] for s, n in symbols)

    def begins(self, symbols):
        found = set()
        for s, n in symbols:
            if s != 'Rule':
                found.add(n)
                break
            found |= self.first[n]
            if not self.null[n]:
                break
        return found

    def extends(self, symbols):
        found = set()
        for i, (s, n) in enumerate(symbols):
            if s == 'Rule' and self.empties(symbols[i + 1:]):
                found |= self.more[n]
        return found

    def lead(self, symbols):
        total = 0
        for s, n in symbols:
            if s != 'Rule':
                break
            total += self.heights[n]
            if not self.null[n]:
                break
        return total

    # ---- the flat tables

    def flat(self):
        """SYMBOLS, ALTERNATIVES, ROWS, FIRSTS, MORES, as the engine keeps them."""
        symbols, alternatives, rows, firsts, mores = [], [], [], [], []
        for i, (rule, a, _) in enumerate(self.alternatives):
            alternatives.append((len(symbols), len(symbols) + len(a), len(firsts), len(firsts) + len(self.firsts[i])))
            symbols += reversed(a)
            firsts += self.firsts[i]
        for rule, (start, end) in enumerate(self.spans):
            m = self.mores[rule]
            rows.append((start, end, len(mores), len(mores) + len(m), self.nothing[rule], self.heights[rule]))
            mores += m
        return symbols, alternatives, rows, firsts, mores

    # ---- the check, over the flat tables alone, as it is written for the prover

    def check(self):
        """What fails, each as a text; and how many comparisons of numbers the check makes."""
        symbols, alternatives, rows, firsts, mores = self.flat()
        counted = [0]

        def has(xs, c):
            for i, x in enumerate(xs):
                if x == c:
                    counted[0] += i + 1
                    return True
            counted[0] += len(xs)
            return False

        unflat = []
        for start, end, more, more_end, nothing, height in rows:
            own = []
            for place in range(start, end):
                a = alternatives[place]
                own.append((place + 1, list(reversed(symbols[a[0]:a[1]])), firsts[a[2]:a[3]]))
            unflat.append((own, nothing, mores[more:more_end], height))
        all_firsts = [[c for _, _, f in own for c in f] for own, _, _, _ in unflat]
        nulls = [nothing != 0 for _, nothing, _, _ in unflat]
        all_mores = [more for _, _, more, _ in unflat]
        heights = [height for _, _, _, height in unflat]

        def is_null(st):
            return all(s == 'Rule' and nulls[n] for s, n in st)

        def begins_with(st):
            found = []
            for s, n in st:
                if s != 'Rule':
                    return found + [n]
                found = found + all_firsts[n]
                if not nulls[n]:
                    return found
            return found

        def lead_of(st):
            total = 0
            for s, n in st:
                if s != 'Rule':
                    break
                total += heights[n]
                if not nulls[n]:
                    break
            return total

        bad = []

        def name(cs):
            return ' '.join(self.classes[c] for c in cs)

        for rule, (own, nothing, more, height) in enumerate(unflat):
            where = self.rules[rule]
            for number, st, first in own:
                missing = [c for c in begins_with(st) if not has(first, c)]
                if missing:
                    bad.append('%s, alternative %d: begins with %s, which is not in its first' % (where, number, name(missing)))
                for i, (s, n) in enumerate(st):
                    if s != 'Rule':
                        continue
                    rest = st[i + 1:]
                    behind = begins_with(rest)
                    both = [c for c in all_mores[n] if has(behind, c)]
                    if both:
                        bad.append('%s, alternative %d: %s might go on with %s, and begins what stands behind it'
                                   % (where, number, name(both), self.rules[n]))
                    if is_null(rest):
                        missing = [c for c in all_mores[n] if not has(more, c)]
                        if missing:
                            bad.append('%s, alternative %d: %s might go on with %s, and is not in more of the rule'
                                       % (where, number, name(missing), self.rules[n]))
                if not lead_of(st) < height:
                    bad.append('%s, alternative %d: height' % (where, number))
                if is_null(st) and nothing != number:
                    bad.append('%s: alternatives %d and %d may both be nothing' % (where, nothing, number))
            for i, (number, _, first) in enumerate(own):
                for other, _, second in own[i + 1:]:
                    both = [c for c in first if has(second, c)]
                    if both:
                        bad.append('%s, alternatives %d and %d: both begin with %s' % (where, number, other, name(both)))
            if nothing:
                if nothing not in [number for number, _, _ in own]:
                    bad.append('%s may be nothing by alternative %d, which is none of its own' % (where, nothing))
                missing = [c for c in all_firsts[rule] if not has(more, c)]
                if missing:
                    bad.append('%s may be nothing, and %s is not in its more' % (where, name(missing)))
        return bad, counted[0]

    # ---- texts

    def symbol_text(self, symbol):
        s, n = symbol
        if s == 'Rule':
            return self.rules[n]
        c = self.classes[n]
        if c in self.kinds:
            return c if s == 'Leaf' else '-' + c
        return ('@' if s == 'Leaf' else '') + "'" + c + "'"

    def alternative_text(self, number):
        rule, symbols, _ = self.alternatives[number - 1]
        return '%s = %s' % (self.rules[rule], ' '.join(map(self.symbol_text, symbols)) or 'nothing')

    def counts(self):
        symbols, alternatives, rows, firsts, mores = self.flat()
        return {'rules': len(rows), 'alternatives': len(alternatives), 'symbols': len(symbols),
                'classes': len(self.classes), 'firsts': len(firsts), 'mores': len(mores), 'height': max(self.heights)}


def rust(g):
    symbols, alternatives, rows, firsts, mores = g.flat()
    out = []
    out.append('//! The grammar of LLVM text in tables, which `grammar/tables.py merged rust` makes of `grammar/ll.grammar`.\n')
    out.append('ghost use Rattle.std.specs.Prelude.{◌≡◌};')
    out.append('ghost use Rattle.grammars.specs.FlatGrammar.{grammar_of};')
    out.append('ghost use Rattle.ll_rules.specs.Llvm.{llvm};\n')
    out.append('use grammars::grammar::Grammar;')
    out.append('use grammars::rows::{Alternative, Row};')
    out.append('use grammars::symbols::Symbol;\n')
    out.append('/// The symbols of all alternatives, those of each with the last first.')
    out.append('pub static SYMBOLS: [Symbol; %d] = [' % len(symbols))
    for i, (start, end, _, _) in enumerate(alternatives):
        out.append('    // %d: %s' % (i + 1, g.alternative_text(i + 1)))
        for s, n in symbols[start:end]:
            out.append('    Symbol::%s(%d),' % (s, n))
    out.append('];\n')
    out.append('/// The alternatives of all rules.')
    out.append('pub static ALTERNATIVES: [Alternative; %d] = [' % len(alternatives))
    for rule, (start, end) in enumerate(g.spans):
        out.append('    // %s' % g.rules[rule])
        for a in alternatives[start:end]:
            out.append('    Alternative {\n        start: %d,\n        end: %d,\n        first: %d,\n        first_end: %d,\n    },' % a)
    out.append('];\n')
    out.append('/// The rules.')
    out.append('pub static ROWS: [Row; %d] = [' % len(rows))
    for rule, r in enumerate(rows):
        out.append('    // %d: %s' % (rule, g.rules[rule]))
        out.append('    Row {\n        start: %d,\n        end: %d,\n        more: %d,\n        more_end: %d,\n        nothing: %d,\n        height: %d,\n    },' % r)
    out.append('];\n')

    def numbers(name, what, xs, parts):
        out.append('/// %s' % what)
        out.append('pub static %s: [u16; %d] = [' % (name, len(xs)))
        for title, start, end in parts:
            if start == end:
                continue
            out.append('    // %s' % title)
            for i in range(start, end, 20):
                out.append('    ' + ', '.join(map(str, xs[i:min(i + 20, end)])) + ',')
        out.append('];\n')
    numbers('FIRSTS', 'The classes that may begin alternatives.', firsts,
            [(g.rules[rule], alternatives[start][2], alternatives[end - 1][3]) for rule, (start, end) in enumerate(g.spans)])
    numbers('MORES', 'The classes that might go on with rules.', mores,
            [(g.rules[rule], r[2], r[3]) for rule, r in enumerate(rows)])
    out.append('''/// The grammar.
pub fn llvm() -> Grammar<'static>
    ensures { grammar_of result ≡ llvm }
{
    Grammar {
        symbols: &SYMBOLS,
        alternatives: &ALTERNATIVES,
        rows: &ROWS,
        firsts: &FIRSTS,
        mores: &MORES,
    }
}
''')
    return '\n'.join(out)


MARK_NAMES = {'=': 'EQUALS', ',': 'COMMA', '(': 'OPEN_PAREN', ')': 'CLOSE_PAREN', '[': 'OPEN_BRACKET', ']': 'CLOSE_BRACKET', '{': 'OPEN_BRACE',
              '}': 'CLOSE_BRACE', '<': 'LESS', '>': 'GREATER', '!': 'BANG', '|': 'BAR', '...': 'DOTS'}
BUCKETS = 256


def bucket_of(text):
    """The number of the bucket that a text stands in, as `bucket_of` of `ll_classes` says."""
    b = text.encode()
    return (len(b) + 12 * b[0] + 150 * b[len(b) // 2] + 129 * b[-1]) % BUCKETS


def numbers_rust(g):
    out = ['//! The numbers of the classes that kinds of tokens have, which `grammar/tables.py merged numbers` makes of', '//! `grammar/ll.grammar`.\n']
    out.append('/// How many classes there are.')
    out.append('pub const CLASSES: u16 = %d;\n' % len(g.classes))
    shared = set(g.class_of_word.values())
    for c in g.kinds + g.marks:
        if c not in shared:
            out.append('/// %s' % ('`%s`' % c if c in MARK_NAMES else c))
            out.append('pub const %s: u16 = %d;' % (MARK_NAMES.get(c, c), g.class_number[c]))
    return '\n'.join(out) + '\n'


def words_rust(g):
    """The words in buckets, and the names of metadata behind them."""
    classes = {w: g.class_number[c] for w, c in g.class_of_word.items()}
    classes.update((w, g.class_number['REFUSED']) for w in g.refused_everywhere)
    classes.update((n, g.class_number[n]) for n in g.nodes)
    buckets = [[] for _ in range(BUCKETS)]
    for w in sorted(set(classes) - set(g.nodes)):
        buckets[bucket_of(w)].append(w)
    words = [w for bucket in buckets for w in bucket]
    order = words + g.nodes
    out = ['//! The words of LLVM text with their classes, which `grammar/tables.py merged words` makes of `grammar/ll.grammar`.\n']
    out.append('ghost use Rattle.std.specs.Prelude.{◌≡◌};')
    out.append('ghost use Rattle.ll_classes.specs.Classes.{names, words};')
    out.append('ghost use Rattle.ll_classes.specs.Llvm.{llvm_names, llvm_rows};\n')
    out.append('use crate::words::{Bucket, Word, Words};\n')
    out.append('/// The texts of all words, one behind another.')
    out.append('pub static TEXTS: [u8; %d] = *b"\\' % sum(map(len, order)))
    for i in range(0, len(order), 8):
        out.append(''.join(order[i:i + 8]) + ('\\' if i + 8 < len(order) else '";\n'))
    out.append('/// The words that the grammar names and those that are refused everywhere, in the order of their buckets, and behind')
    out.append('/// them the names of metadata that have a class of their own.')
    out.append('pub static WORDS: [Word; %d] = [' % len(order))
    start = 0
    for w in order:
        out.append('    // %s: %s' % (w, g.classes[classes[w]]))
        out.append('    Word {\n        start: %d,\n        end: %d,\n        class: %d,\n    },' % (start, start + len(w), classes[w]))
        start += len(w)
    out.append('];\n')
    out.append('/// The words of each bucket.')
    out.append('pub static BUCKETS: [Bucket; %d] = [' % BUCKETS)
    start = 0
    for bucket in buckets:
        out.append('    Bucket {\n        start: %d,\n        end: %d,\n    },' % (start, start + len(bucket)))
        start += len(bucket)
    out.append('];\n')
    out.append('''/// The names of metadata.
pub const NAMES: Bucket = Bucket {
    start: %d,
    end: %d,
};

/// The words of LLVM text.
#[tactic(auto, unfolding(crate::specs::Buckets::bucket_of))]
pub fn llvm_words() -> Words<'static>
    ensures rows { words result ≡ llvm_rows }
    ensures names { names result ≡ llvm_names }
{
    Words {
        texts: &TEXTS,
        words: &WORDS,
        buckets: &BUCKETS,
        names: NAMES,
    }
}
''' % (len(words), len(order)))
    return '\n'.join(out)


def main():
    words = sys.argv[1:]
    merged = words[:1] == ['merged']
    g = Grammar(merged=merged)
    what = (words[1:] if merged else words)[:1] or ['check']
    what = what[0]
    if what == 'rust':
        print(rust(g), end='')
    elif what == 'numbers':
        print(numbers_rust(g), end='')
    elif what == 'words':
        print(words_rust(g), end='')
    elif what == 'classes':
        for i, c in enumerate(g.classes):
            sort = 'kind' if c in g.kinds else 'mark' if c in g.marks else 'node' if c in g.nodes else 'word'
            print(i, sort, c + (': ' + ' '.join(g.words_of(c)) if g.words_of(c) else ''))
        print('# REFUSED is the class of these words: ' + ' '.join(sorted(g.refused_everywhere)))
    elif what == 'rules':
        for rule, (start, end) in enumerate(g.spans):
            print('%d %s: height %d, nothing %d, more {%s}' % (rule, g.rules[rule], g.heights[rule], g.nothing[rule],
                  ' '.join(g.classes[c] for c in g.mores[rule])))
            for i in range(start, end):
                print('  %d: %s    {%s}' % (i + 1, ' '.join(map(g.symbol_text, g.alternatives[i][1])) or 'nothing',
                                             ' '.join(g.classes[c] for c in g.firsts[i])))
    elif what == 'check':
        bad, compared = g.check()
        for b in bad:
            print(b)
        long = [g.alternative_text(i + 1) for i, (_, symbols, _) in enumerate(g.alternatives)
                if sum(1 for s, _ in symbols if s != 'Word') > 5]
        for text in long:
            print('more than five parts: ' + text)
        print(', '.join('%s %d' % x for x in g.counts().items()))
        print('conflicts %d, alternatives of more than five parts %d, comparisons of the check %d' % (len(bad), len(long), compared))
        sys.exit(1 if bad else 0)
    else:
        sys.exit(__doc__)


if __name__ == '__main__':
    main()
