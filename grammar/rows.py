#!/usr/bin/env python3
"""Prints the examples as rows for `rule_tests`: a line for each text.

    rows.py > crates/rule_tests/data/texts.rows
    rows.py tokens > crates/rule_tests/data/tokens.rows

A line of texts has the number of the rule that the text is read by, the byte where it is refused or `-`, and behind a bar the
text, with `¶` for the ends of its lines. The byte is that of the example, which was worked out by hand. Left out are texts that
are refused by more than the grammar: for a word that is refused everywhere but in nodes, where the rule of the example takes it.

A line of tokens has the numbers of the classes that a text is cut into, or `bad` and the byte where no token begins. Left out are
texts with a token that says what it may not: a name without bytes or with a zero byte, and bytes that are no UTF-8.
"""
import os
import sys

import read
import tables


def refusal_of(g, tokenizer, reader, rule, b):
    """The byte where the grammar alone refuses a text, or None."""
    try:
        tokens = tokenizer.tokens(b)
    except read.BadToken as e:
        return e.at
    refusal, _ = reader.read(g.rule_number[rule], tokens)
    if refusal is None:
        return None
    return tokens[refusal.at].at if refusal.at < len(tokens) else len(b)


def text_line(g, tokenizer, reader, rule, mark, text):
    """The line of an example, or None."""
    raw = text.replace('¶', '\n').encode('utf-8')
    place = None if mark == '+' else raw.find('▶'.encode())
    b = raw.replace('▶'.encode(), b'', 1)
    if mark == '-R' and refusal_of(g, tokenizer, reader, rule, b) != place:
        return None
    return '%d %s | %s' % (g.rule_number[rule], '-' if place is None else place, text.replace('▶', ''))


def says_more(b):
    """Is it one token that breaks its rule, but is cut?"""
    return b.rstrip(b':').endswith((b'""', b'"a\\00b"', b'"\\ff"')) and b[:1] in b'@%"' or b == b'!\\ff'


def token_line(g, text):
    """The line of an example of tokens, or None."""
    text, _, expected = text.rpartition('=>')
    text, expected = text.strip(), expected.split()
    if expected[0] != 'BadToken':
        expected = [str(g.class_number[g.class_of_word.get(c, c)]) for c in expected]
    elif says_more(text.encode('utf-8')):
        return None
    else:
        expected[0] = 'bad'
    return ' '.join(expected) + ' | ' + text


def main():
    of_tokens = sys.argv[1:] == ['tokens']
    g = tables.Grammar(merged=True)
    tokenizer, reader = read.Tokenizer(g), read.Reader(g)
    rule = None
    for line in open(os.path.join(tables.HERE, 'examples', 'examples.txt'), encoding='utf-8'):
        line = line.rstrip('\n')
        mark, _, text = line.partition(' ')
        found = None
        if mark == '==':
            rule = text.strip()
        elif mark == '=' and of_tokens:
            found = token_line(g, text)
        elif mark in ('+', '-S', '-R', '-B') and not of_tokens:
            found = text_line(g, tokenizer, reader, rule, mark, text)
        if found:
            print(found)


if __name__ == '__main__':
    main()
