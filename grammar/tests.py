#!/usr/bin/env python3
"""Tests of the tables, of their check and of the reader.    tests.py [SEED] [merged]

1. Random texts of classes, made from each rule, are read back as the events that they were made of; and with a token
   changed they are never read as the same events.
2. The least tables are least: with a class less in one first or one more, a height one lower, or no nothing, the check fails.
3. Grammars that are not of this kind are found out.
4. The arrays that `tables.py rust` prints are the tables.
5. Refusals tell the right place: whatever the reader says that a place would take can be put there, and nothing else.
6. The tables of the engine's own example come out as they stand in its tests.
7. The quick reader cuts the examples as read.py does, and reads them likewise.
"""
import os
import random
import re
import sys
import tempfile

import quick
import read
import tables


def least_costs(g):
    """For each rule the least number of tokens, for each alternative too."""
    big = 10 ** 6
    rule = [big] * len(g.rules)
    alternative = [big] * len(g.alternatives)
    changed = True
    while changed:
        changed = False
        for i, (r, symbols, _) in enumerate(g.alternatives):
            cost = min(big, sum(rule[n] if s == 'Rule' else 1 for s, n in symbols))
            if cost < alternative[i]:
                alternative[i] = cost
                changed = True
            if cost < rule[r]:
                rule[r] = cost
                changed = True
    return alternative


def random_text(g, costs, rule, rng, size):
    events, tokens, stack = [], [], [('Rule', rule)]
    while stack:
        s, n = stack.pop()
        if s != 'Rule':
            tokens.append(n)
            if s == 'Leaf':
                events.append(('held', n))
            continue
        start, end = g.spans[n]
        if len(tokens) + len(stack) > size:
            i = min(range(start, end), key=lambda a: costs[a])
        else:
            i = rng.randrange(start, end)
        events.append(('took', i + 1))
        stack.extend(reversed(g.alternatives[i][1]))
    return events, tokens


def as_tokens(classes):
    return [read.Token(c, i, i + 1, '') for i, c in enumerate(classes)]


def shown(events):
    return [('took', e) if isinstance(e, int) else ('held', e.cls) for e in events]


def test_readings(g, reader, rng):
    costs = least_costs(g)
    made = changed = taken = 0
    for rule in range(len(g.rules)):
        for _ in range(60):
            events, classes = random_text(g, costs, rule, rng, rng.choice((3, 10, 40)))
            found = []
            refusal, _ = reader.read(rule, as_tokens(classes), found)
            assert refusal is None, (g.rules[rule], [g.classes[c] for c in classes])
            assert shown(found) == events
            made += 1
            if not classes:
                continue
            other = list(classes)
            place = rng.randrange(len(other))
            other[place] = rng.randrange(len(g.classes))
            again = []
            refusal, _ = reader.read(rule, as_tokens(other), again)
            if other != classes and refusal is None:
                assert shown(again) != events
                changed += 1
            if refusal is not None:
                # what would be taken there is taken
                for c in sorted(refusal.takes)[:3]:
                    third = other[:refusal.at] + [c]
                    better, _ = reader.read(rule, as_tokens(third))
                    assert better is None or better.at >= len(third), (g.rules[rule], g.classes[c])
                    taken += 1
                # and nothing else is
                for c in rng.sample(range(len(g.classes)), 3):
                    if c not in refusal.takes:
                        worse, _ = reader.read(rule, as_tokens(other[:refusal.at] + [c]))
                        assert worse is not None and worse.at == refusal.at
    print('%d random texts are read as they were made; %d with a token changed are read otherwise; %d places take what they say'
          % (made, changed, taken))


def test_least(g, rng):
    cases = 0
    for r in rng.sample([r for r in range(len(g.rules)) if g.mores[r]], 12):
        c = g.mores[r].pop(rng.randrange(len(g.mores[r])))
        assert g.check()[0], ('more', g.rules[r], g.classes[c])
        g.mores[r] = sorted(g.mores[r] + [c])
        cases += 1
    for i in rng.sample([i for i in range(len(g.alternatives)) if g.firsts[i]], 12):
        c = g.firsts[i].pop(rng.randrange(len(g.firsts[i])))
        assert g.check()[0], ('first', i)
        g.firsts[i] = sorted(g.firsts[i] + [c])
        cases += 1
    for r in rng.sample(range(len(g.rules)), 12):
        g.heights[r] -= 1
        assert g.check()[0], ('height', g.rules[r])
        g.heights[r] += 1
        cases += 1
    for r in rng.sample([r for r in range(len(g.rules)) if g.nothing[r]], 6):
        keep, g.nothing[r] = g.nothing[r], 0
        assert g.check()[0], ('nothing', g.rules[r])
        g.nothing[r] = keep
        cases += 1
    assert not g.check()[0]
    print('%d tables with a little less are refused' % cases)


BAD = [
    ("two alternatives begin with one class", "file = 'a' | b\nb = 'a'\n"),
    ("what stands behind goes on", "file = b 'a'\nb = 'a' b | nothing\n"),
    ("two alternatives may be nothing", "file = b | nothing\nb = 'a' | nothing\n"),
    ("what stands behind goes on, through a rule", "file = c ',' 'a'\nc = 'a' b\nb = ',' 'a' b | nothing\n"),
    ("at its own front", "file = file 'a' | 'b'\n"),
]


def test_bad(rng):
    for what, text in BAD:
        with tempfile.NamedTemporaryFile('w', suffix='.grammar', delete=False) as f:
            f.write("kinds: REFUSED INTTYPE WORD\nmarks: ','\n" + text + ('' if "','" in text else "" ))
        body = open(f.name).read()
        if "','" not in text:
            open(f.name, 'w').write(body.replace("marks: ','\n", "marks:\n"))
        try:
            bad = tables.Grammar(f.name).check()[0]
        except tables.GrammarError as e:
            bad = [str(e)]
        os.unlink(f.name)
        assert bad, what
        print('  %s: %s' % (what, bad[0]))
    print('%d grammars that are not of this kind are found out' % len(BAD))


def test_rust(g):
    text = re.sub(r'//.*', '', tables.rust(g))

    def part(name):
        return re.search(r'static %s: [^=]*= \[(.*?)\];' % name, text, re.S).group(1)
    symbols, alternatives, rows, firsts, mores = g.flat()
    assert [(s, int(n)) for s, n in re.findall(r'Symbol::(\w+)\((\d+)\)', part('SYMBOLS'))] == symbols
    for name, fields, found in (('ALTERNATIVES', 4, alternatives), ('ROWS', 6, rows)):
        numbers = list(map(int, re.findall(r': (\d+),', part(name))))
        assert [tuple(numbers[i:i + fields]) for i in range(0, len(numbers), fields)] == found
    assert list(map(int, re.findall(r'\d+', part('FIRSTS')))) == firsts
    assert list(map(int, re.findall(r'\d+', part('MORES')))) == mores
    for name, count in re.findall(r'static (\w+): \[\w+; (\d+)\]', text):
        assert int(count) == len(dict(SYMBOLS=symbols, ALTERNATIVES=alternatives, ROWS=rows, FIRSTS=firsts, MORES=mores)[name])
    assert max(len(symbols), len(alternatives), len(firsts), len(mores)) < 65536
    print('the arrays are the tables')


# the tables of the engine's own example, of its classes ( ) NAME ,
LISTS = '''kinds: NAME
marks: '(' ')' ','
list = '(' items ')'
items = nothing | item more
item = NAME | list
more = nothing | ',' item more
'''
LISTS_SYMBOLS = [('Word', 1), ('Rule', 1), ('Word', 0), ('Rule', 3), ('Rule', 2), ('Leaf', 2), ('Rule', 0), ('Rule', 3), ('Rule', 2), ('Word', 3)]
LISTS_ROWS = [(0, 1, [], 0, 1), (1, 3, [0, 2, 3], 2, 3), (3, 5, [], 0, 2), (5, 7, [3], 6, 1)]
LISTS_FIRSTS = [[0], [], [0, 2], [2], [0], [], [3]]


def test_lists():
    with tempfile.NamedTemporaryFile('w', suffix='.grammar', delete=False) as f:
        f.write(LISTS)
    g = tables.Grammar(f.name)
    os.unlink(f.name)
    number = {'(': 0, ')': 1, 'NAME': 2, ',': 3}
    theirs = [number[c] for c in g.classes]
    symbols, alternatives, rows, firsts, mores = g.flat()
    assert [(s, n if s == 'Rule' else theirs[n]) for s, n in symbols] == LISTS_SYMBOLS
    # more of items is all that begins it, since it may be nothing, and what goes on with its last rule
    assert [(a, b, sorted(theirs[c] for c in mores[m:e]), n, h) for a, b, m, e, n, h in rows] == LISTS_ROWS
    assert [sorted(theirs[c] for c in firsts[a[2]:a[3]]) for a in alternatives] == LISTS_FIRSTS
    assert not g.check()[0]
    print('the tables of the engine\'s own example are made as they stand there')


def test_quick(g, reader):
    fast, slow = quick.Quick(g), read.Tokenizer(g)
    rule, cut = None, 0
    for line in open(os.path.join(tables.HERE, 'examples', 'examples.txt'), encoding='utf-8'):
        mark, _, text = line.rstrip('\n').partition(' ')
        if mark == '==':
            rule = text.strip()
        if mark not in ('+', '-S', '-R', '-B', '='):
            continue
        b = text.replace('▶', '').replace('¶', '\n').encode('utf-8')
        try:
            tokens = slow.tokens(b)
        except read.BadToken as e:
            tokens = e.at
        try:
            found = fast.cut(b)
        except read.BadToken as e:
            assert e.at == tokens, line
            continue
        assert list(zip(found.classes, found.places, found.ends)) == [(t.cls, t.at, t.end) for t in tokens], line
        cut += 1
        if rule != 'tokens':
            refusal, _ = reader.read(g.rule_number[rule], tokens)
            assert fast.reads(rule, found.classes) == (refusal and refusal.at), line
    print('%d examples are cut and read by the quick reader as by the other' % cut)


def main():
    rng = random.Random(int(sys.argv[1]) if len(sys.argv) > 1 else 1)
    g = tables.Grammar(merged='merged' in sys.argv)
    reader = read.Reader(g)
    test_readings(g, reader, rng)
    test_least(g, rng)
    test_bad(rng)
    test_rust(g)
    test_lists()
    test_quick(g, reader)


if __name__ == '__main__':
    main()
