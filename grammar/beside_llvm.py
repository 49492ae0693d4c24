#!/usr/bin/env python3
"""Reads texts by ll.grammar and by an installed LLVM 19, and tells where the two differ.

    beside_llvm.py texts FOLDER..                texts of a compiler: each is read, or holds a word that the grammar refuses
    beside_llvm.py parsed FOLDER..               the same of texts that llvm-as parses, such as LLVM's own tests: what is
                                                 refused, by what was asked
    beside_llvm.py examples                      examples.txt, wrapped into whole texts, beside llvm-as
    beside_llvm.py mutants FOLDER [SEED [COUNT]] mutants of the small texts in a folder, beside llvm-as

LLVM_AS names the assembler, llvm-as-19 where it is not set. A difference is listed where it is one of syntax: where
llvm-as says of what is read that something else was expected, or takes what is refused for another reason than a refused word.
"""
import bisect
import collections
import concurrent.futures
import os
import random
import re
import subprocess
import sys

import quick
import read
import tables
import wraps

LARGEST = 2_000_000                       # bytes of a text that is read here
BY_HAND = 200_000                         # bytes of a text beside llvm-as, as tests are
SMALL = 12_000                            # bytes of a text of which mutants are made
ASSEMBLER = os.environ.get('LLVM_AS', 'llvm-as-19')
# what llvm-as says where it is the syntax that it refuses
SYNTAX = re.compile(r"[Ee]xpected (?!to be)|un(terminated|expected|known)|invalid use of|end of file|found end|"
                    r"function body requires|argument (name|attributes) invalid|constant vector must not be empty|"
                    r"cannot have an attribute group|constexprs are no longer|this attribute does not apply")


# ---- the two readers

class Ours:
    """Texts by the grammar."""

    def __init__(self):
        self.g = tables.Grammar()
        self.quick = quick.Quick(self.g)

    def says(self, b, rule='file'):
        """None where the text is read, else its refusal: a pair of its kind and what stood there."""
        try:
            cut = self.quick.cut(b)
            if not self.quick.refused_places(cut.classes) and self.quick.reads(rule, cut.classes) is None:
                return None
        except read.BadToken:
            pass
        return self.refusal(b, rule)

    def refusal(self, b, rule):
        text = read.Text(self.g, self.quick.slow, self.quick.reader, b, rule)
        if not text.kind:
            return None
        return text.kind, re.match(rb'"[^"]*"|[^\s,()]+|.?', b[text.at:], re.S).group().decode('utf-8', 'replace')


def llvm_says(b):
    """None where llvm-as parses the text, else what it says and the line and column where it does."""
    done = subprocess.run([ASSEMBLER, '-o', os.devnull, '-'], input=b, capture_output=True)
    said = done.stderr.decode('utf-8', 'replace')
    m = re.search(r'<stdin>:(\d+):(\d+): error: (.*)', said)
    if m:
        return m[3], (int(m[1]), int(m[2]))
    if done.returncode == 0 or 'does not verify' in said or 'parsed, but' in said:
        return None
    return 'no message: ' + said[:200], (0, 0)


def is_syntax(said):
    return said is not None and bool(SYNTAX.match(said[0]))


def line_at(text, at):
    return text[text.rfind(b'\n', 0, at) + 1:].split(b'\n', 1)[0].decode('utf-8', 'replace')


def below(folders):
    for folder in folders:
        for path, _, names in sorted(os.walk(folder)):
            for name in sorted(names):
                if name.endswith('.ll'):
                    yield os.path.join(path, name)


# ---- texts of a compiler

def items_of(b):
    """Where the items of a text begin, as LLVM prints them: at the start of a line, and a body ends at a brace there."""
    begins = [m.start() for m in re.finditer(rb'(?m)^(?=[a-z@%!$])', b)]
    bodies = [(m.start(), m.end()) for m in re.finditer(rb'(?ms)^define .*?^\}', b)]
    starts = [start for start, _ in bodies]

    def is_in_body(at):
        i = bisect.bisect_left(starts, at) - 1
        return i >= 0 and at < bodies[i][1]
    return [at for at in begins if not is_in_body(at)]


class TextCounts:
    def __init__(self, ours):
        self.ours, self.quick = ours, ours.quick
        lists = [x[1] for x in ours.g.refused_where + ours.g.refused_in] + [x[2] for x in ours.g.refused_before]
        self.in_places = {word for words in lists for word in words}
        self.counts, self.words, self.texts_of = collections.Counter(), collections.Counter(), collections.Counter()
        self.findings = collections.defaultdict(list)

    def text(self, path):
        with open(path, 'rb') as f:
            b = f.read()
        if len(b) > LARGEST:
            self.counts['too large'] += 1
            return
        try:
            cut = self.quick.cut(b)
        except read.BadToken as e:
            self.counts['refused otherwise'] += 1
            self.findings['BadToken', line_at(b, e.at)[:60]].append(path)
            return
        refused = self.quick.refused_places(cut.classes)
        begins = sorted({0, *(bisect.bisect_left(cut.places, at) for at in items_of(b))})
        whole = self.quick.reads('file', cut.classes)
        self.counts['tokens'] += len(cut.classes)
        if not refused and whole is None:
            self.counts['read'] += 1
            self.counts['items read'] += len(begins)
            return
        words = [self.shown(cut, i) for i in refused]
        found = self.items(path, cut, begins, refused)
        words += [w for kind, w in found if kind == 'RefusedWord']
        self.counts['refused otherwise' if any(kind != 'RefusedWord' for kind, _ in found) else 'refused for a word'] += 1
        self.words.update(words)
        self.texts_of.update(set(words))

    def shown(self, cut, i):
        if cut.classes[i] == self.ours.g.class_number['FLOAT']:
            return 'a float literal'
        return 'a name of a comdat' if cut.word(i).startswith('$') else cut.word(i)

    def items(self, path, cut, begins, refused):
        """Items of a text that is refused are read alone, so that a word does not hide what stands behind it; the refusals
        of those that hold no word that is refused everywhere."""
        found, refused = [], set(refused)
        for start, end in zip(begins, begins[1:] + [len(cut.classes)]):
            classes = cut.classes[start:end]
            is_refused = not refused.isdisjoint(range(start, end))
            if not is_refused and self.quick.reads('item', classes) is None:
                self.counts['items read'] += 1
                continue
            if not is_refused:
                found.append(self.ours.refusal(cut.b[cut.places[start]:cut.ends[end - 1]], 'item'))
                if found[-1][0] != 'RefusedWord':
                    self.counts['items refused otherwise'] += 1
                    self.findings[found[-1]].append(path)
                    continue
            self.counts['items refused for a word'] += 1
            self.without(path, [cut.word(i) for i in range(start, end)], classes)
        return found

    def without(self, path, words, classes):
        """An item of refused words, read with others in their place."""
        if words[0].startswith('$'):
            return
        other = wraps.without_refused(self.ours.g, words, classes)
        at = self.quick.reads('item', other)
        name = None if at is None else 'the end' if at == len(other) else self.ours.g.classes[other[at]]
        if name is None:
            self.counts['of them read with others in the place of the refused words'] += 1
        elif name not in self.in_places | {'REFUSED', 'FLOAT', 'WORD'}:
            self.findings['behind a refused word', name].append(path)


def texts(folders):
    seen = TextCounts(Ours())
    for path in below(folders):
        seen.text(path)
    for name, n in seen.counts.most_common():
        print('%s: %d' % (name, n))
    print('refused words, with the texts that hold them:')
    for word, n in seen.texts_of.most_common():
        print('  %-20s %6d texts %8d times' % (word, n, seen.words[word]))
    for said, paths in sorted(seen.findings.items(), key=lambda x: -len(x[1])):
        print('FOUND %s: %d, in %s' % (' '.join(said), len(paths), ' '.join(paths[:3])))
    return not seen.findings


# ---- texts that llvm-as parses

def asked(ours, path):
    """None where a text is read or llvm-as does not parse it, else how it is refused and the line."""
    with open(path, 'rb') as f:
        b = f.read()
    if len(b) > BY_HAND:
        return None
    said = ours.says(b)
    if said is None:
        return ('read',), ''
    them = llvm_says(b)
    if them is not None:
        return ('not parsed by llvm-as',), ''
    text = read.Text(ours.g, ours.quick.slow, ours.quick.reader, b)
    if text.kind == 'RefusedWord':
        return ('refused for a word',), ''
    rule = ours.g.rules[text.refusal.trail[-1]] if text.refusal and text.refusal.trail else ''
    start = b.rfind(b'\n', 0, text.at) + 1
    line = b[start:b.find(b'\n', text.at)].decode('utf-8', 'replace')
    return (text.kind, rule, said[1]), '%s: %s' % (os.path.basename(path), line.strip()[:160])


def parsed(folders):
    ours, found = Ours(), collections.defaultdict(list)
    with concurrent.futures.ThreadPoolExecutor(2) as pool:
        for answer in pool.map(lambda path: asked(ours, path), below(folders)):
            if answer:
                found[answer[0]].append(answer[1])
    for key, lines in sorted(found.items(), key=lambda x: -len(x[1])):
        print('%s: %d' % (' '.join(key), len(lines)))
        for line in lines[:3] if len(key) > 1 else []:
            print('    ' + line)


# ---- examples

def wrapped_examples():
    """Rule, mark and text of each example that is or can be wrapped into a whole text."""
    rule = None
    for line in open(os.path.join(tables.HERE, 'examples', 'examples.txt'), encoding='utf-8'):
        line = line.rstrip('\n')
        mark, _, text = line.partition(' ')
        if mark == '==':
            rule = text.strip()
        elif mark in ('+', '-S', '-B', '-R') and rule in wraps.WRAPS:
            text = text.replace('▶', '').replace('¶', '\n')
            yield rule, line, wraps.WRAPS[rule].replace('·', text).encode('utf-8')


def examples():
    ours = Ours()
    found, counts = list(wrapped_examples()), collections.Counter()
    with concurrent.futures.ThreadPoolExecutor(2) as pool:
        theirs = list(pool.map(lambda x: llvm_says(x[2]), found))
    differ = collections.defaultdict(list)
    for (rule, line, b), them in zip(found, theirs):
        us = ours.says(b)
        kind = (us[0] if us else 'read', 'syntax' if is_syntax(them) else 'values' if them else 'parsed')
        counts[kind] += 1
        if kind == ('read', 'syntax'):
            differ[(rule, them[0])].append(b.decode())
        elif kind[0] in ('Syntax', 'BadToken') and kind[1] != 'syntax':
            differ[(rule, 'refused here, ' + (them[0] if them else 'parsed'))].append(b.decode())
    for kind, n in sorted(counts.items()):
        print('%s here, %s there: %d' % (kind + (n,)))
    for (rule, said), them in differ.items():
        print('%s: %s' % (rule, said))
        for text in them:
            print('    ' + text.replace('\n', '¶'))
    print('%d examples of %d rules' % (len(found), len({rule for rule, _, _ in found})))


# ---- mutants

TOKEN = re.compile(rb'\s+|;[^\n]*|c?"[^"]*"|[@%!#]?[A-Za-z0-9$._-]+:?|\.\.\.|.', re.S)


def mutant(rng, tokens, others):
    """A text with one token left out, doubled, replaced, or exchanged with one near it; mostly before the nodes."""
    places = [i for i, t in enumerate(tokens) if t.strip() and not t.startswith(b';')]
    nodes = [i for i in places if tokens[i].startswith(b'!') and tokens[i - 1].endswith(b'\n')]
    before = [i for i in places if not nodes or i < nodes[0]]
    at, new = rng.choice(before if before and rng.random() < 0.85 else places), list(tokens)
    near = places[max(0, min(len(places) - 1, places.index(at) + rng.choice((-3, -2, -1, 1, 2, 3))))]
    kind = rng.choice(('left out', 'doubled', 'exchanged', 'replaced', 'replaced'))
    if kind == 'left out':
        new[at] = b' '
    elif kind == 'doubled':
        new[at] = new[at] + b' ' + new[at]
    elif kind == 'exchanged':
        new[at], new[near] = b' ' + new[near] + b' ', b' ' + new[at] + b' '
    else:
        new[at] = rng.choice(others)
    return b''.join(new)


def is_past(them, text, at):
    """Whether llvm-as took what stands at a byte: all of a body or a text, before it said what is not defined there."""
    before = text[:at]
    here = before.count(b'\n') + 1, at - before.rfind(b'\n')
    return them is None or not is_syntax(them) and (them[0].startswith('use of undefined') or them[1] > here)


def mutants(folder, seed, count):
    ours, rng = Ours(), random.Random(seed)
    bases = [open(p, 'rb').read() for p in below([folder]) if os.path.getsize(p) <= SMALL]
    bases = [TOKEN.findall(b) for b in bases if ours.says(b) is None]
    if not bases:
        sys.exit('no small text that is read')
    others = sorted({t for b in bases for t in b if t.strip() and len(t) < 30} | {w.encode() for w in ours.g.words})
    made = [mutant(rng, rng.choice(bases), others) for _ in range(count)]
    with concurrent.futures.ThreadPoolExecutor(2) as pool:
        theirs = list(pool.map(llvm_says, made))
    counts, taken, lacks = collections.Counter(), collections.defaultdict(list), collections.defaultdict(list)
    for text, them in zip(made, theirs):
        us = ours.says(text)
        counts[(us[0] if us else 'read', 'syntax' if is_syntax(them) else 'values' if them else 'parsed')] += 1
        if us is None and is_syntax(them):
            line = text.split(b'\n')[them[1][0] - 1].decode('utf-8', 'replace')
            taken[re.sub(r"'[^']*'|%\S+|@\S+", '..', them[0])].append(line)
        elif us and us[0] != 'RefusedWord':
            at = read.Text(ours.g, ours.quick.slow, ours.quick.reader, text).at
            if is_past(them, text, at):
                lacks[us].append(line_at(text, at))
    for kind, n in sorted(counts.items()):
        print('%s here, %s there: %d' % (kind + (n,)))
    for title, table in (('TAKEN here, but llvm-as', taken), ('REFUSED here, and llvm-as parses it', lacks)):
        for said, lines in sorted(table.items(), key=lambda x: -len(x[1])):
            print('%s: %s: %d' % (title, said if isinstance(said, str) else ' '.join(said), len(lines)))
            for line in lines[:6]:
                print('    ' + line.strip()[:200])
    print('seed %d: %d mutants of %d texts' % (seed, count, len(bases)))
    return not lacks


def main():
    words = sys.argv[1:]
    if words[:1] == ['texts'] and words[1:]:
        sys.exit(0 if texts(words[1:]) else 1)
    if words[:1] == ['parsed'] and words[1:]:
        parsed(words[1:])
    elif words == ['examples']:
        examples()
    elif words[:1] == ['mutants'] and words[1:]:
        numbers = [int(w) for w in words[2:4]]
        sys.exit(0 if mutants(words[1], *(numbers + [1, 5000][len(numbers):])) else 1)
    else:
        sys.exit(__doc__)


if __name__ == '__main__':
    main()
