"""What each alternative of the form says, as laws: specs/Rules.antt, proofs/WordClasses.antt and proofs/Productions.antt of the crate
ll_written. `form.py write` writes them."""

MARKS = {
    '=': 'Equals', ',': 'Comma', '(': 'OpenParen', ')': 'CloseParen', '[': 'OpenBracket', ']': 'CloseBracket', '{': 'OpenBrace', '}': 'CloseBrace',
    '<': 'Less', '>': 'Greater', '!': 'Bang', '|': 'Bar', '...': 'Dots',
}
# classes of kinds of tokens, whatever their text
KINDS = {'GLOBAL': 'Global', 'LOCAL': 'Local', 'LABEL': 'Label', 'INT': 'Int', 'STR': 'Str', 'CSTR': 'CStr'}
# merged classes whose laws hold of any word of the class: a proof knows the class of a word from a table, not from a law for each word
WHOLE = {'FLAT'}

CLASSES_HEAD = '''-- The classes of the words, signs and kinds of tokens of the form. `grammar/form.py write` makes this of the grammar.
use Rattle.std.proofs.Common.{◌≡◌, ℕ, Some, Option, codes, refl, ap}
use Rattle.std.specs.Prelude.{unwrap_or}
use Rattle.ll_classes.specs.Classes.{other_word}
use Rattle.ll_classes.specs.Llvm.{llvm_class, llvm_rows}
use Rattle.ll_classes.specs.Words.{class_among}
use Rattle.ll_tokens.specs.declared.kinds.Kind.TheVariants.{Word, Global, Local, Label, Int, Str, CStr%s}
use Rattle.ll_lines.specs.Lines.{Text}
'''

HEAD = '''-- What the alternatives of the form say, by what their parts say. `grammar/form.py write` makes this of the grammar.
use Rattle.std.proofs.Common.{◌≡◌, ℕ, true, false, List, [], ◌∷◌, ◌++◌, Some, codes, refl}
use Rattle.ll_classes.specs.Llvm.{llvm_class}
use Rattle.ll_rules.specs.Llvm.{llvm}
use Rattle.ll_spacing.specs.Spacing.{Spaced}
use Rattle.ll_tokens.specs.declared.kinds.Kind.TheVariants.{Word, Global, Local, Label, Int, Str, CStr%s}
use Rattle.ll_values.specs.declared.form.Kind.TheVariants as K
use Rattle.ll_values.specs.declared.form.DetailKind.TheVariants as D
use Rattle.ll_values.specs.declared.form.ListKind.TheVariants as L
use Rattle.ll_values.specs.declared.form.RowKind.TheVariants as R
use Rattle.ll_values.specs.declared.form.TypedKind.TheVariants as T
use Rattle.ll_values.specs.declared.form.TheConstants.{KINDS}
use Rattle.ll_values.specs.Values.{Value, NoneV, FlagV, TextV, value_by}
use Rattle.ll_lines.specs.Lines.{Text}
use Rattle.ll_written.specs.Rules as N
use Rattle.ll_written.specs.Written.{token}
use Rattle.ll_written.proofs.TellLaws.{Gives, nothing, word, leaf, rule, last, made}
use Rattle.ll_written.proofs.WordClasses as C
'''


def kind_term(kind):
    if '.' not in kind:
        return 'K.' + kind
    group, name = kind.split('.')
    return '(K.%s %s.%s)' % (group, group[0], name)


def name_of(g, number, kind):
    rule, symbols, _ = g.alternatives[number - 1]
    base = g.rules[rule]
    if kind == 'Nothing':
        return base + '_none'
    if kind == 'Same':
        return base + '_' + part_name(g, [s for s in symbols if s[0] != 'Word'][0])
    own = kind.split('.')[-1]
    for end in ('More', 'End'):
        if kind.startswith('List.') and own.endswith(end):
            own = end
    return base if own.lower() == base else base + '_' + own.lower()


def part_name(g, symbol):
    sort, n = symbol
    return (g.rules[n] if sort == 'Rule' else g.classes[n]).lower()


def names_of(g, kinds):
    """A name for each alternative: of its rule and its kind, and of its first symbol where two have those."""
    names = {n: name_of(g, n, k) for n, k in kinds.items()}
    plain = list(names.values())
    for n, name in names.items():
        if plain.count(name) > 1:
            names[n] = name + '_' + part_name(g, g.alternatives[n - 1][1][0])
    return names


def is_word(g, n):
    return g.classes[n] in g.words


def words_of(g, n):
    """The words of a merged class that have laws of their own."""
    return [] if g.classes[n] in WHOLE else g.words_of(g.classes[n])


def laws(g, number, kind, name):
    """The laws of an alternative: one for each word, where words that have laws of their own stand for each other in it."""
    merged = [n for sort, n in g.alternatives[number - 1][1] if sort == 'Leaf' and words_of(g, n)]
    if not merged:
        return [law(g, number, kind, name, None)]
    base = g.rules[g.alternatives[number - 1][0]] if kind == 'Same' else name_of(g, number, kind)
    return [law(g, number, kind, '%s_%s' % (base, word), word) for word in words_of(g, merged[0])]


class Part:
    """A symbol of an alternative in a law, by its place. Rules take tokens x, a value v and what is known of them, h; tokens take what stands
    before them, b, and where it is not known their text, t.

    texts      the texts that the law takes
    premise    what it asks, or None
    value      what the symbol says, or None
    written    its tokens, as a list or as one
    step       how it is put before the symbols behind it
    """

    def __init__(self, g, at, symbol, word):
        self.at = at
        self.is_rule = symbol[0] == 'Rule'
        self.texts, self.premise, self.value = [], None, None
        if self.is_rule:
            self.of_rule(g, symbol[1])
        else:
            self.of_token(g, symbol, word)

    def of_rule(self, g, n):
        self.value, self.written = 'v%d' % self.at, 'x%d' % self.at
        self.premise = 'Reads N.%s %s %s' % (g.rules[n], self.value, self.written)
        self.step = 'rule llvm KINDS h%d' % self.at

    def of_token(self, g, symbol, word):
        sort, n = symbol
        name = g.classes[n]
        before, text = 'b%d' % self.at, 't%d' % self.at
        self.texts = [before]
        kind = 'Word'
        if name in KINDS:
            self.texts.append(text)
            kind, is_class = KINDS[name], '(C.kind_%s %s)' % (name.lower(), text)
        elif sort == 'Leaf' and not is_word(g, n) and not words_of(g, n):
            self.texts.append(text)
            self.premise = 'llvm_class Word %s ≡ C.%s' % (text, name.lower())
            is_class = 'h%d' % self.at
        elif name in MARKS:
            text, kind = '(codes "%s")' % name, MARKS[name]
            is_class = 'C.sign_' + kind.lower()
        else:
            known = name if is_word(g, n) else word
            text, is_class = '(codes "%s")' % known, 'C.word_' + known
        if sort == 'Leaf':
            self.value = 'TextV ' + text
        self.written = 'token %s %s %s' % (before, kind, text)
        self.step = '%s llvm KINDS (%s) %s' % (sort.lower(), self.written, is_class)


def said(kind, values):
    """What an alternative of that kind says of its parts; None where the law takes it."""
    if kind == 'Nothing':
        return 'NoneV'
    if kind == 'Same':
        return '(%s)' % values[0] if ' ' in values[0] else values[0]
    if kind in ('Yes', 'No'):
        return '(FlagV %s)' % ('true' if kind == 'Yes' else 'false')
    return None


def law(g, number, kind, name, word):
    """The law of an alternative: from what its parts say, that the rule says its value."""
    rule, symbols, _ = g.alternatives[number - 1]
    parts = [Part(g, at, symbol, word) for at, symbol in enumerate(symbols)]
    values = [p.value for p in parts if p.value]
    made = listed(values)
    result = said(kind, values)
    premises = [p.premise for p in parts if p.premise]
    taken = [p.value for p in parts if p.is_rule]
    texts = [t for p in parts for t in p.texts]
    facts = ['h%d' % p.at for p in parts if p.premise]
    if result is None:
        premises.append('value_by %s %s ≡ Some v' % (kind_term(kind), '(%s)' % made if values else made))
        facts.append('made_by')
    binders = binder('{%s : Value} ', taken if result else ['v'] + taken) + binder('{%s : List Spaced} ', [p.written for p in parts if p.is_rule]) + binder('(%s : Text) ', texts)
    whole = ' → '.join(premises + ['Reads N.%s %s %s' % (g.rules[rule], result or 'v', tokens_term(parts))])
    left = ' '.join([name] + ['{%s}' % v for v in taken] + texts + facts)
    right = 'made llvm KINDS %d %d %s {cs = %s} refl refl refl %s (%s)' % (rule, number, kind_term(kind), made, 'refl' if result else 'made_by', steps_term(parts))
    return '\n'.join([
        '',
        '-- ' + g.alternative_text(number),
        'pub %s : %s%s' % (name, binders + '→ ' if binders else '', whole),
        '%s =%s%s' % (left, '\n    ' if len(left) + len(right) > 200 else ' ', right),
    ])


def binder(form, names):
    return form % ' '.join(names) if names else ''


def listed(values):
    return ' ∷ '.join(values + ['[]'])


def steps_term(parts):
    """The parts put before each other; a rule that stands last needs nothing behind it."""
    if parts and parts[-1].is_rule:
        term, others = 'last llvm KINDS h%d' % parts[-1].at, parts[:-1]
    else:
        term, others = 'nothing llvm KINDS', parts
    for p in reversed(others):
        term = '%s (%s)' % (p.step, term)
    return term


def tokens_term(parts):
    """The tokens of the parts, one behind another."""
    if not parts:
        return '[]'
    last = parts[-1]
    out = last.written if last.is_rule else last.written + ' ∷ []'
    for p in reversed(parts[:-1]):
        if p.is_rule:
            out = '%s ++ %s' % (p.written, '(%s)' % out if ' ' in out else out)
        else:
            out = '%s ∷ %s' % (p.written, '(%s)' % out if '++' in out else out)
    return '(%s)' % out if ' ' in out else out


def used(g, kinds):
    """What stands in the form, by number: rules, words, signs, classes that are kinds of tokens, and other classes."""
    rules, words, marks, by_kind, others = set(), set(), set(), set(), set()
    for number in kinds:
        rule, symbols, _ = g.alternatives[number - 1]
        for sort, n in [('Rule', rule)] + symbols:
            if sort == 'Rule':
                rules.add(n)
            elif g.classes[n] in KINDS:
                by_kind.add(n)
            elif is_word(g, n):
                words.add(n)
            elif g.classes[n] in MARKS:
                marks.add(n)
            else:
                others.add(n)
    return tuple(sorted(found) for found in (rules, words, marks, by_kind, others))


def mark_imports(g, marks):
    return ''.join(', ' + MARKS[g.classes[n]] for n in marks)


def rules_antt(g, kinds):
    """specs/Rules.antt."""
    rules, _, _, _, _ = used(g, kinds)
    out = ['-- The numbers of the rules of the form. `grammar/form.py write` makes this of the grammar.\nuse Rattle.std.specs.Prelude.{ℕ}\n']
    out += ['abbrev pub %s : ℕ\n%s = %d\n' % (g.rules[n], g.rules[n], n) for n in rules]
    return '\n'.join(out)


def classes_antt(g, kinds):
    """proofs/WordClasses.antt."""
    _, words, marks, by_kind, others = used(g, kinds)
    out = [CLASSES_HEAD % mark_imports(g, marks)]
    for n in others:
        if not words_of(g, n):
            name = g.classes[n].lower()
            out.append('abbrev pub %s : ℕ\n%s = %d\n' % (name, name, n))
    for n in by_kind:
        name = g.classes[n].lower()
        out.append('pub kind_%s : (t : Text) → llvm_class %s t ≡ %d\nunfolding llvm_class\nkind_%s t = refl\n' % (name, KINDS[g.classes[n]], n, name))
    for n in marks:
        name = MARKS[g.classes[n]]
        out.append('pub sign_%s : llvm_class %s (codes "%s") ≡ %d\nunfolding llvm_class\nsign_%s = refl\n' % (name.lower(), name, g.classes[n], n, name.lower()))
    out.append('''-- a word has the class that stands beside it among all words
pub word_class : (t : Text) (c : ℕ) → class_among llvm_rows t ≡ Some c → llvm_class Word t ≡ c
unfolding llvm_class
word_class t c found = ap (λ (o : Option ℕ). unwrap_or o (other_word t)) found
''')
    for n in words + others:
        for word in [g.classes[n]] if n in words else words_of(g, n):
            out.append('pub word_%s : llvm_class Word (codes "%s") ≡ %d\nword_%s = word_class (codes "%s") %d refl\n' % (word, word, n, word, word, n))
    return '\n'.join(out).rstrip() + '\n'


def antt(g, kinds):
    """proofs/Productions.antt."""
    names = names_of(g, kinds)
    _, _, marks, _, _ = used(g, kinds)
    out = [HEAD % mark_imports(g, marks)]
    out.append('''-- by that rule of the grammar of LLVM text, tokens say a value
abbrev pub Reads : (rule : ℕ) → Value → List Spaced → Type 0
Reads r v xs = Gives llvm KINDS r v xs''')
    found = [text for number, kind in kinds.items() for text in laws(g, number, kind, names[number])]
    return '\n'.join(out + found) + '\n'
