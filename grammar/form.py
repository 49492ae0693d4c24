#!/usr/bin/env python3
"""Checks form.txt against the grammar, and writes what it says as code: src/form.rt and specs/Parts.antt of the crate ll_values,
and specs/Rules.antt, proofs/WordClasses.antt and proofs/Productions.antt of ll_written.

    form.py          checks that the files are those of the form
    form.py write    writes them
"""
import os
import sys

import productions
from tables import HERE, Grammar, GrammarError

CRATES = os.path.join(HERE, '..', 'crates')


def read(g, path=os.path.join(HERE, 'form.txt')):
    """The kinds in order, with how many parts each has; and the kind of each alternative, by number."""
    numbers = {}
    for number in range(1, len(g.alternatives) + 1):
        numbers[g.alternative_text(number)] = number
    parts, kinds = {}, {}
    for at, line in enumerate(open(path, encoding='utf-8'), 1):
        line = line.strip()
        if not line or line.startswith('#'):
            continue
        text, _, kind = line.rpartition(' : ')
        number = numbers.get(text)
        if number is None:
            raise GrammarError('form.txt, line %d: no alternative is %s' % (at, text))
        if number in kinds:
            raise GrammarError('form.txt, line %d: stands twice' % at)
        count = sum(1 for sort, _ in g.alternatives[number - 1][1] if sort != 'Word')
        if parts.setdefault(kind, count) != count:
            raise GrammarError('form.txt, line %d: %s has %d parts elsewhere' % (at, kind, parts[kind]))
        kinds[number] = kind
    return parts, kinds


GROUPS = {
    'Detail': 'Parts of functions and of instructions.',
    'List': 'Lists, and what holds them.',
    'Row': 'Instructions that are no phi.',
    'Typed': 'What adds types or constants.',
}


def grouped(parts):
    """The kinds without a group, and those of each group, each with how many parts it has."""
    alone = {k: n for k, n in parts.items() if '.' not in k}
    return alone, {g: {k.split('.')[1]: n for k, n in parts.items() if k.startswith(g + '.')} for g in GROUPS}


def path(kind):
    if '.' not in kind:
        return 'Kind::' + kind
    group, name = kind.split('.')
    return 'Kind::%s(%sKind::%s)' % (group, group, name)


def rust(g, parts, kinds):
    alone, groups = grouped(parts)
    out = ['''//! What the alternatives of the form say, which `grammar/form.py write` makes of `grammar/form.txt`.

ghost use Rattle.std.specs.Prelude.{◌≡◌};
ghost use Rattle.ll_values.specs.Parts.{%spart_count};
''' % ''.join('%s_count, ' % group.lower() for group in groups)]
    for group, members in groups.items():
        out.append('/// %s\n#[derive(Clone, Copy, Drop)]\npub enum %sKind {' % (GROUPS[group], group))
        out += ['    %s,' % kind for kind in members]
        out.append('}\n')
    out.append('''/// What an alternative says.
#[derive(Clone, Copy, Drop)]
pub enum Kind {
    /// It is outside of the form.
    Outside,''')
    out += ['    %s,' % kind for kind in alone]
    out += ['    %s(%sKind),' % (group, group) for group in groups]
    out.append('}\n')
    for group, members in groups.items():
        out.append('''impl %sKind {
    /// How many parts it has: held tokens, and what rules say.
    pub fn part_count(self) -> usize
        ensures { result ≡ %s_count self }
    {
        match self {''' % (group, group.lower()))
        out += ['            %sKind::%s => %d,' % (group, kind, n) for kind, n in members.items()]
        out.append('        }\n    }\n}\n')
    out.append('''impl Kind {
    /// How many parts it has: held tokens, and what rules say.
    pub fn part_count(self) -> usize
        ensures { result ≡ part_count self }
    {
        match self {
            Kind::Outside => 0,''')
    out += ['            Kind::%s => %d,' % pair for pair in alone.items()]
    out += ['            Kind::%s(kind) => kind.part_count(),' % group for group in groups]
    out.append('''        }
    }
}

/// The kinds of all alternatives, by their numbers; no alternative has the number 0.
pub static KINDS: [Kind; %d] = [
    Kind::Outside,''' % (len(g.alternatives) + 1))
    for number in range(1, len(g.alternatives) + 1):
        kind = kinds.get(number)
        if kind:
            out.append('    // %d: %s' % (number, g.alternative_text(number)))
        out.append('    %s,' % path(kind or 'Outside'))
    out.append('];\n')
    return '\n'.join(out)


def antt(parts):
    alone, groups = grouped(parts)
    out = ['''-- How many parts the alternatives of each kind have: held tokens and rules. `grammar/form.py write` makes this of the grammar.
use Rattle.std.specs.Prelude.{ℕ}
use Rattle.ll_values.specs.declared.form.Kind.{Kind}
use Rattle.ll_values.specs.declared.form.Kind.TheVariants as K''']
    for group in groups:
        out.append('use Rattle.ll_values.specs.declared.form.%sKind.{%sKind}' % (group, group))
        out.append('use Rattle.ll_values.specs.declared.form.%sKind.TheVariants as %s' % (group, group[0]))
    for group, members in groups.items():
        out.append('\nabbrev pub %s_count : %sKind → ℕ' % (group.lower(), group))
        out += ['%s_count %s.%s = %d' % (group.lower(), group[0], kind, n) for kind, n in members.items()]
    out.append('\nabbrev pub part_count : Kind → ℕ\npart_count K.Outside = 0')
    out += ['part_count K.%s = %d' % pair for pair in alone.items()]
    out += ['part_count (K.%s k) = %s_count k' % (group, group.lower()) for group in groups]
    return '\n'.join(out) + '\n'


def main():
    g = Grammar(merged=True)
    parts, kinds = read(g)
    files = {
        'll_values/src/form.rt': rust(g, parts, kinds),
        'll_values/specs/Parts.antt': antt(parts),
        'll_written/specs/Rules.antt': productions.rules_antt(g, kinds),
        'll_written/proofs/WordClasses.antt': productions.classes_antt(g, kinds),
        'll_written/proofs/Productions.antt': productions.antt(g, kinds),
    }
    if sys.argv[1:] == ['write']:
        for name, text in files.items():
            open(os.path.join(CRATES, name), 'w', encoding='utf-8').write(text)
    for name, text in files.items():
        if open(os.path.join(CRATES, name), encoding='utf-8').read() != text:
            sys.exit('%s is not that of the form' % name)
    print('alternatives of the form %d of %d, kinds %d' % (len(kinds), len(g.alternatives), len(parts)))


if __name__ == '__main__':
    try:
        main()
    except GrammarError as error:
        sys.exit(str(error))
