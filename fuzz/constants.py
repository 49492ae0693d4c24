#!/usr/bin/env python3
"""Makes modules of random constants of random types, and compares what `round_ll round` answers with the rules of `rules.py`.

    fuzz/constants.py [SEED [COUNT [FOLDER]]]

It makes COUNT constants (20,000 where none is named), a few to a module, each said in a way of its own: bytes by quotes or by
numbers, lists folded or not, splats, zero by any of its words. Where an installed `llvm-as` and `opt` take a text (an earlier one than
that of LLVM 19 has no splats, and opaque pointers by a flag), they have to take the module back too, and print both alike. The first
text of each status is left in FOLDER, where one is named.
"""
import collections
import pathlib
import random
import re
import subprocess
import sys

import rules
import runs
from names import bytes_of
from some_names import distinct
from some_types import constant, made_type, some_structs, written_type
from value_types import FLOATING, Array, Floating, Integer, Named, Pointer, Struct, Vector

MOST = 24  # elements that are written one by one
COMMENT = re.compile(r'^((?:[^";]|"[^"]*")*);.*$')  # a line with a comment, which begins outside of quotes
FLAT = [Integer(1), Integer(8), Integer(8), Integer(16), Integer(32), Integer(64), Pointer(0), Pointer(3), *map(Floating, FLOATING)]


class Maker:
    """Writes constants of types that may name some structs."""

    def __init__(self, rng, bodies):
        self.rng, self.bodies = rng, bodies

    def parts(self, type):
        """The types of a type's elements with the brackets around them; none where it has none, or too many to write."""
        if isinstance(type, Named):
            type = self.bodies.get(type.name)
        if isinstance(type, Struct):
            return type.fields, ("<{", "}>") if type.packed else ("{", "}")
        if isinstance(type, (Array, Vector)) and type.count <= MOST and not getattr(type, "scalable", False):
            return (type.element,) * type.count, ("[", "]") if isinstance(type, Array) else ("<", ">")
        return None

    def text(self, type):
        """A constant of a type, behind the type."""
        rng, parts = self.rng, self.parts(type)
        if isinstance(type, Vector) and rng.random() < (0.05 if type.scalable else 0.2):
            element = self.typed(type.element)
            if not (type.scalable and element.endswith(" poison")):  # LLVM 19 takes that splat for undef
                return f"splat ({element})"
        if parts is None or rng.random() < 0.15:
            return constant(rng, type)
        if isinstance(type, Array) and type.element == Integer(8) and rng.random() < 0.5:
            return self.chars(type.count)
        types, (opening, closing) = parts
        if not types and isinstance(type, Array):
            return "zeroinitializer"  # LLVM takes the empty brackets of an array for undef or poison too
        word = rng.choice([None, None, None, "undef", "poison", "zeroinitializer"])
        return opening + ", ".join(f"{written_type(rng, it)} {word or self.text(it)}" for it in types) + closing

    def typed(self, type):
        return f"{written_type(self.rng, type)} {self.text(type)}"

    def chars(self, count):
        """So many bytes between quotes, each plain where it can be, or by its digits."""
        rng, out = self.rng, ""
        for byte in rng.choices([0, 9, 10, 32, 34, 65, 92, 97, 126, 127, 128, 195, 255], k=count):
            digits = f"\\{byte:02x}" if rng.random() < 0.5 else f"\\{byte:02X}"
            out += chr(byte) if 32 <= byte <= 126 and byte not in (34, 92) and rng.random() < 0.8 else digits
        return f'c"{out}"'


def bodies_of(lines):
    """The bodies of the structs that these lines define, by name."""
    return {it.name: it.body for it in rules.Reader("".join(lines)).file().structs}


def text_of(rng, most):
    """A module of a few functions that return constants, and how many these are."""
    structs, lines = some_structs(rng, distinct(rng, 20), []) if rng.random() < 0.4 else ([], [])
    maker, items = Maker(rng, bodies_of(lines)), list(lines)
    for number in range(min(most, rng.choice([1, 1, 2, 3]))):
        type = rng.choice(structs) if structs and rng.random() < 0.5 else made_type(rng, FLAT, 4, structs)
        items.append(f"define {written_type(rng, type)} @f{number}() {{\n  ret {maker.typed(type)}\n}}\n")
    rng.shuffle(items)
    return "".join(items), len(items) - len(lines)


def printed(opt, text):
    """A text as LLVM prints it, without names of files and comments; none where it does not take it."""
    done = subprocess.run([opt, "-S", "-passes=strip", "-o", "-", "-"], input=bytes_of(text), capture_output=True)
    if done.returncode != 0 and b"opaque-pointers" in done.stderr:
        done = subprocess.run([opt, "-opaque-pointers", "-S", "-passes=strip", "-o", "-", "-"], input=bytes_of(text), capture_output=True)
    if done.returncode != 0:
        return None
    lines = [COMMENT.sub(r"\1", line).rstrip() for line in done.stdout.decode(errors="surrogateescape").splitlines()]
    return [line for line in lines if line and not line.startswith(("source_filename", "%", "entry_block0:"))]


def without_names(lines):
    """Lines with every name of a struct left out: these the import may give another identifier."""
    return [re.sub(r'%("[^"]*"|[-$.\w]+)', "%", line) for line in lines]


def fault_of(program, opt, text, counts):
    """What is wrong with the answer to a text, none where nothing is; counts tells of each status, and of what LLVM printed alike."""
    status, out, lines = rules.answer(text)
    if status not in (0, 7):
        return f"status {status} by the rules: {rules.answer.why}"
    done = runs.round_of(program, bytes_of(text), counts)
    if done is None:
        return "hangs"
    if done.returncode != status:
        return f"status {done.returncode} in place of {status}"
    if done.stdout != bytes_of(out):
        return "another output"
    if status == 7:
        return None if done.stderr.decode() in [line + "\n" for line in lines] else f"the line {done.stderr!r}"
    if done.stderr:
        return "a line beside status 0"
    before = printed(opt, text) if opt else None
    if before is None:
        return None
    back = out.split("\n;; llvm\n", 1)[1].rsplit(";; report\n", 1)[0]
    after = printed(opt, back)
    if after is None:
        return "the module back is refused by opt"
    if without_names(before) != without_names(after):
        return "the module back is another one to opt"
    counts["alike"] += 1
    return None


def main():
    seed, count = runs.arguments(20000)
    folder = pathlib.Path(sys.argv[3]) if sys.argv[3:] else None
    program, opt = runs.built(), runs.tool("opt")
    sys.stdout.reconfigure(errors="surrogateescape")
    rng, counts, faults, left = random.Random(seed), collections.Counter(), 0, count
    while left > 0:
        text, constants = text_of(rng, left)
        left -= constants
        fault = fault_of(program, opt, text, counts)
        if fault:
            faults += 1
            print(f"{fault}:\n{text}")
        elif folder and not (folder / f"{len(counts)}.ll").exists():
            (folder / f"{len(counts)}.ll").write_bytes(bytes_of(text))
    alike = counts.pop("alike", 0)
    said = runs.summary(seed, count, "constants", counts, faults)
    print(f"{said}; llvm: {opt or 'none'}, {alike} printed alike" if faults == 0 else said)
    # a long run that meets no text of a status, or compares nothing, shows little
    shown = count < 1000 or (counts[0] and counts[7] and (alike or not opt))
    sys.exit(1 if faults or not shown else 0)


if __name__ == "__main__":
    main()
