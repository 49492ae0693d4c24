#!/usr/bin/env python3
"""Mutates the examples byte by byte and token by token, and runs `round_ll round` over each mutant.

    fuzz/mutants.py [SEED [COUNT [FOLDER]]]

In place of the examples it takes the texts of a folder, such as a compiler printed, where one is named.
Fails on any status other than 0, 6 and 7, on a run that takes longer than ten seconds, and on any
output beside status 6 and 7. Where an LLVM of version 19 or later is installed, its `llvm-as` has to take each
text that ends with status 0, and the module back that is printed of it, unless all that it says is that a
definition does not dominate a use, which is not looked at here; earlier ones refuse numbers that leave some out.
A text with a symbol of a number it need not take: LLVM numbers those by a rule of its own.
"""
import collections
import pathlib
import random
import re
import sys

import runs

TOKEN = re.compile(rb"\s+|;[^\n]*|[@%]?[A-Za-z0-9$._-]+:?|[@%]?\"[^\"]*\":?|.", re.S)
NUMBERED = re.compile(rb"@[0-9]")  # a symbol of a number
EXTRA = [b"\n", b"\xff", b'%"x y"', b'@"x y"', b'"x y":'] + (
    b"% @ 0 1 -1 i1 i32 i64 i65 void add ret nuw nsw , ( ) { } = : define %0 %a 7: true br label phi icmp eq udiv "
    b"select freeze load store volatile align 4 va_arg zext nneg trunc ptrtoint inttoptr addrspacecast to slt unreachable [ ] %loop %x %y ptr addrspace addrspace(1) "
    b"addrspace(16777215) addrspace(16777216) half bfloat float double fp128 i8388608 i8388609 1.0 null "
    b'x < > vscale type opaque %S < <4 x i32> [2 x i8] {} <{ }> source_filename @a.b @$ @-_ @7 @"7" @llvm.f %_.1 %"x" %"\\78" "x": "\\78": %"0" "0": %"" %"\\00" %"\xc3" '
    b'"\xc3\xa9\\"'
).split()


def mutate_bytes(rng, text):
    """A byte changed, left out, put in or said twice."""
    at = rng.randrange(len(text) + 1)
    kind = rng.randrange(4)
    if kind == 0:
        return text[:at] + bytes([rng.randrange(256)]) + text[at + 1:]
    if kind == 1:
        return text[:at] + text[at + 1:]
    if kind == 2:
        return text[:at] + bytes([rng.choice(b" %@;:,=(){}\"\\$._-0123456789abixnul\n\0\xc3")]) + text[at:]
    return text[:at] + text[max(at - rng.randrange(1, 9), 0):]


def mutate_tokens(rng, text):
    """A token changed to another one, left out, put in, or two of them exchanged."""
    tokens = TOKEN.findall(text)
    if not tokens:
        return text
    at, other = rng.randrange(len(tokens)), rng.randrange(len(tokens))
    kind = rng.randrange(4)
    if kind == 0:
        tokens[at] = rng.choice([tokens[other], rng.choice(EXTRA)])
    elif kind == 1:
        del tokens[at]
    elif kind == 2:
        tokens.insert(at, rng.choice([tokens[other], rng.choice(EXTRA)]))
    else:
        tokens[at], tokens[other] = tokens[other], tokens[at]
    return b"".join(tokens)


def taken(assembler, text):
    """Whether LLVM's assembler takes a text, dominance aside; yes where none is installed."""
    status, said = runs.assembled(assembler, text)
    return status == 0 or b"does not dominate all uses" in said


def fault_of(program, assembler, text, counts):
    """What is wrong with the answer to a text, none where nothing is."""
    done = runs.round_of(program, text, counts)
    if done is None:
        return "hangs"
    if done.returncode in (6, 7):
        return f"output beside status {done.returncode}" if done.stdout else None
    if done.returncode != 0:
        return f"status {done.returncode}"
    back = done.stdout.split(b"\n;; llvm\n", 1)[1].rsplit(b";; report\n", 1)[0]
    if not NUMBERED.search(text) and not taken(assembler, text):
        return "taken here, refused by llvm-as"
    if not taken(assembler, back):
        return "the module back is refused by llvm-as"
    return None


def main():
    seed, count = runs.arguments(20000)
    program = runs.built()
    assembler = runs.tool_of_19("llvm-as")
    folder = pathlib.Path(sys.argv[3]) if len(sys.argv) > 3 else runs.ROOT / "examples"
    examples = [path.read_bytes() for path in sorted(folder.glob("*.ll"))]
    rng, counts, faults = random.Random(seed), collections.Counter(), 0
    for _ in range(count):
        text = rng.choice(examples)
        for _ in range(rng.choice([1, 1, 1, 2, 4])):
            text = rng.choice([mutate_bytes, mutate_tokens])(rng, text)
        fault = fault_of(program, assembler, text, counts)
        if fault:
            faults += 1
            print(f"{fault}: {text!r}")
    print(f"{runs.summary(seed, count, 'mutants', counts, faults)}; llvm-as: {assembler or 'none'}")
    sys.exit(1 if faults else 0)


if __name__ == "__main__":
    main()
