#!/usr/bin/env python3
"""Seconds, MB/s and peak memory of `round_ll round` on large texts.

First texts of 1, 4 and 16 MiB of two kinds: functions that each return an integer, and functions of a hundred adds
each. Then control flow, a tenth of each text and the whole: many blocks that all branch to one block with three
phis, a ladder of conditional branches, functions of a hundred blocks, a chain of blocks that stands in the text from
its end, and a web of blocks that branch anywhere; and structs with a name, each held by a parameter. Then names:
functions and results whose names all come to one identifier beside those of plain names, and long names between quotes,
without escapes and with them, beside bare ones.
Beside each stands `opt -S -passes=verify` of an installed LLVM, where there is one.
A last line for each kind says how the time per byte of the largest stands to that of the smallest, or that of other
names to that of plain ones; more than 1.5 is more than wanted.
"""
import os
import pathlib
import random
import resource
import shutil
import subprocess
import sys
import tempfile
import time

import name_texts
from counts import held_struct, named

ROOT = pathlib.Path(__file__).resolve().parent.parent
MIB = 1 << 20
LIMIT = 1 << 24
WANTED = 1.5


def answer(number):
    """A function that returns an integer."""
    return f"define i32 @f{number}() {{\nentry:\n  ret i32 {number % 100000}\n}}\n\n"


def sums(number):
    """A function of a hundred adds, of locals with a name, with a number and of constants."""
    lines = [f"define i32 @f{number}(i32 %a, i32 %b) {{", "entry:", "  %0 = add i32 %a, %b"]
    for k in range(1, 50):
        lines.append(f"  %x{k} = add nsw i32 %{k - 1}, {k % 7}")
        lines.append(f"  %{k} = add i32 %x{k}, %a")
    lines += ["  %last = add i32 %49, %b", "  ret i32 %last", "}", "", ""]
    return "\n".join(lines)


def hundred(number):
    """A function of a hundred blocks: a loop around a row of 32 diamonds, with a phi at each join."""
    lines = [f"define i32 @f{number}(i32 %n, i1 %c) {{", "entry:", "  br label %j0"]
    entries = "[ %n, %entry ], [ %y, %j32 ]"
    for k in range(32):
        lines += [f"j{k}:", f"  %x{k} = phi i32 {entries}", f"  br i1 %c, label %l{k}, label %r{k}",
                  f"l{k}:", f"  br label %j{k + 1}", f"r{k}:", f"  br label %j{k + 1}"]
        entries = f"[ {k}, %l{k} ], [ %x{k}, %r{k} ]"
    lines += ["j32:", f"  %x32 = phi i32 {entries}", f"  %y = add i32 %x32, {number % 1000}",
              "  %more = icmp ult i32 %y, %n", "  br i1 %more, label %j0, label %out",
              "out:", "  br label %exit", "exit:", "  ret i32 %x32", "}", "", ""]
    return "\n".join(lines)


def fan(count):
    """Blocks that all branch to one block with three phis, and are reached from it by a chain of branches."""
    phis = ["  %x = phi i32 [ %n, %entry ]", "  %y = phi i32 [ 0, %entry ]", "  %c = phi i1 [ true, %entry ]"]
    entries = [[], [], []]
    chain, blocks = [], []
    for k in range(count):
        chain.append(f"c{k}:\n  %t{k} = icmp eq i32 %x, {k % 100}\n  br i1 %t{k}, label %b{k}, label %c{k + 1}\n")
        blocks.append(f"b{k}:\n  %s{k} = add i32 %y, {k % 100}\n  br label %head\n")
        entries[0].append(f", [ %s{k}, %b{k} ]")
        entries[1].append(f", [ {k % 1000}, %b{k} ]")
        entries[2].append(f", [ %t{k}, %b{k} ]")
    lines = [phi + "".join(it) + "\n" for phi, it in zip(phis, entries)]
    return ("define i32 @fan(i32 %n) {\nentry:\n  br label %head\nhead:\n" + "".join(lines)
            + "  br i1 %c, label %c0, label %exit\n" + "".join(chain) + f"c{count}:\n  br label %exit\n"
            + "".join(blocks) + "exit:\n  ret i32 %y\n}\n")


def ladder(count):
    """A ladder of conditional branches, each over a block of one rung."""
    steps = ["define i32 @ladder(i32 %x0) {\ns0:\n"]
    for k in range(count):
        steps.append(f"  %t{k} = icmp slt i32 %x{k}, {k % 1000}\n  br i1 %t{k}, label %r{k}, label %s{k + 1}\n"
                     f"r{k}:\n  %y{k} = add nsw i32 %x{k}, 1\n  br label %s{k + 1}\n"
                     f"s{k + 1}:\n  %x{k + 1} = phi i32 [ %x{k}, %s{k} ], [ %y{k}, %r{k} ]\n")
    return "".join(steps) + f"  ret i32 %x{count}\n}}\n"


def hundreds(count):
    """Functions of a hundred blocks, ten thousand or as many as fit: a loop around a row of diamonds each."""
    return text_of(hundred, LIMIT * count // 10000, count)


def chain(count):
    """A chain of blocks, the last one first in the text."""
    blocks = [f"b{k}:\n  br label %b{k + 1}\n" for k in range(count)]
    return "define void @chain() {\n  br label %b0\n" + f"b{count}:\n  ret void\n" + "".join(reversed(blocks)) + "}\n"


def web(count):
    """Blocks that each branch to the next one and anywhere, in any order: as many edges as twice the blocks."""
    rng, blocks = random.Random(1), []
    for k in range(count):
        yes, no = (min(count - 1, k + 1), rng.randrange(1, count))
        blocks.append(f"b{k}:\n  %t{k} = icmp ult i32 %x, {k}\n  br i1 %t{k}, label %b{yes}, label %b{no}\n")
    rest = blocks[1:]
    rng.shuffle(rest)
    return ("define void @web(i32 %n) {\n  %x = add i32 %n, 1\n  br label %b0\n" + "".join(blocks[:1] + rest) + "}\n")


def held(count):
    """Structs with a name, each in later ones and held by the type of a parameter of a function."""
    return "".join(map(held_struct, range(count)))


def text_of(item_of, size, count=None):
    """Functions, at most as many as the count, shorter than the size by one function's bytes at most."""
    lines, length, number = [], 0, 0
    while number != count:
        item = item_of(number)
        if length + len(item) >= size:
            break
        lines.append(item)
        length += len(item)
        number += 1
    return "".join(lines)


def symbols(name):
    """A hundred thousand functions of these names."""
    return text_of(lambda number: name_texts.function(number, name), LIMIT, 100000)


def measure(command, path):
    """The seconds and the peak memory, in MiB, of a command over a file as standard input."""
    with open(path, "rb") as source, open(os.devnull, "wb") as sink:
        start = time.monotonic()
        process = subprocess.Popen(command, stdin=source, stdout=sink)
        _, status, usage = os.wait4(process.pid, 0)
        seconds = time.monotonic() - start
    if os.waitstatus_to_exitcode(status) != 0:
        sys.exit(f"{command[0]} ended with {os.waitstatus_to_exitcode(status)}")
    return seconds, usage.ru_maxrss / 1024


def main():
    program = [str(ROOT / "round_ll"), "round"]
    subprocess.run(program, stdin=subprocess.DEVNULL, stdout=subprocess.DEVNULL, check=True)
    built = [str(ROOT / "crates/program/out/program"), "round"]
    opt = next(filter(None, map(shutil.which, ["opt-19", "opt"])), None)
    for item_of in (answer, sums):
        print(item_of.__doc__)
        compare(built, opt, [(f"{size} MiB", text_of, item_of, size * MIB) for size in (1, 4, 16)])
    for whole_of, count in ((fan, 20000), (ladder, 50000), (hundreds, 10000), (chain, 100000), (web, 150000),
                            (held, 100000)):
        print(whole_of.__doc__)
        compare(built, opt, [("tenth", whole_of, count // 10), ("whole", whole_of, count)])
    print(symbols.__doc__)
    compare(built, opt, [("plain", symbols, name_texts.plain), ("alike", symbols, name_texts.alike)])
    print(named.__doc__)
    compare(built, opt, [("plain", named, name_texts.plain, 4 * MIB), ("alike", named, name_texts.alike, 4 * MIB)])
    for kind in (name_texts.quoted, name_texts.escaped):
        compare(built, opt, [("long", named, name_texts.long, 4 * MIB), (kind.__name__, named, kind, 4 * MIB)])


def write(path, make, *args):
    """Writes a made text to a file, and answers its length; in a process of its own, since the peak memory of a
    command is at least that of the process that starts it."""
    writer = os.fork()
    if writer == 0:
        with open(path, "w") as out:
            out.write(make(*args))
        os._exit(0)
    os.waitpid(writer, 0)
    return os.path.getsize(path)


def compare(built, opt, texts):
    """Prints a line for each of the texts, and how the time per byte grows from the first to the last."""
    per_byte = []
    with tempfile.TemporaryDirectory() as folder:
        path = os.path.join(folder, "text.ll")
        for name, make, *args in texts:
            length = write(path, make, *args)
            seconds, peak = min(measure(built, path) for _ in range(3))
            per_byte.append(seconds / length)
            line = f"{name:>7} {length / MIB:6.2f} MiB  round_ll {seconds:7.3f} s {1e9 * seconds / length:8.1f} ns/byte"
            line += f" {length / MIB / seconds:8.1f} MB/s {peak:8.1f} MiB"
            if opt:
                seconds, peak = min(measure([opt, "-S", "-passes=verify"], path) for _ in range(3))
                line += f"   opt {seconds:7.3f} s {length / MIB / seconds:8.1f} MB/s {peak:8.1f} MiB"
            print(line, flush=True)
    ratio = per_byte[-1] / per_byte[0]
    print(f"time per byte of {texts[-1][0]} / of {texts[0][0]}: {ratio:.2f}{'' if ratio <= WANTED else ', too much'}")


if __name__ == "__main__":
    main()
