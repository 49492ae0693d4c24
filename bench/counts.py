#!/usr/bin/env python3
"""Instructions, peak memory and allocations of `round_ll round` on kinds of text.

Instructions are counted by callgrind, so a busy machine changes nothing; memory is the most that a run without
callgrind held; allocations are counted by memcheck, for each line. Each kind is a text of about a mebibyte, or of so
many bytes as the first word says.

Each text of names of other kinds has one of the same shape with plain names: "plain names" for those that all ask for
one identifier, which are to take at most 1.5 times as many instructions a byte, and "long names" for those between
quotes. Names with escapes take more than that (1.65 times when this was written): each escape is undone by itself.
usage: bench/counts.py [BYTES [PROGRAM]]
"""
import os
import pathlib
import re
import resource
import subprocess
import sys
import tempfile

from name_texts import alike, escaped, function, long, plain, quoted

ROOT = pathlib.Path(__file__).resolve().parent.parent
PROGRAM = ROOT / "crates/program/out/program"


def small(number):
    """A function with a loop."""
    return (
        f"define i32 @f{number}(i32 %n, i32 %step) {{\nentry:\n  br label %loop\n\nloop:\n"
        f"  %i = phi i32 [ 0, %entry ], [ %next, %loop ]\n  %sum = phi i32 [ {number % 1000}, %entry ], [ %more, %loop ]\n"
        "  %more = add nsw i32 %sum, %i\n  %next = add i32 %i, %step\n  %go = icmp ult i32 %next, %n\n"
        "  br i1 %go, label %loop, label %exit\n\nexit:\n  ret i32 %sum\n}\n\n"
    )


def line(number):
    """A function of one line."""
    return f"define i32 @f{number}() {{\n  ret i32 {number % 100000}\n}}\n"


def repeated(part, size):
    """So many parts, each by its number, that the text has that many bytes."""
    text, length, number = [], 0, 0
    while length < size:
        text.append(part(number))
        length += len(text[-1])
        number += 1
    return "".join(text)


def inside(head, part, tail, size):
    """One function, of so many parts that the text has that many bytes."""
    body = repeated(part, size - len(head))
    count = body.count("\n")
    return head + body + tail(count) + "}\n"


def chain(other, size, name=lambda k: f"x{k}", add="add"):
    """One function of adds, each of the one before it and of another operand, which may go by the number of the line."""
    part = lambda k: f"  %{name(k + 1)} = {add} i32 %{name(k)}, {other(k)}\n"
    head = f"define i32 @f(i32 %{name(0)}, i32 %a) {{\nentry:\n"
    return inside(head, part, lambda n: f"  ret i32 %{name(n)}\n", size)


def named(name, size):
    """One function of adds, of results of these names."""
    return chain(lambda k: "%a", size, name=name)


def blocks(size):
    """One function of many blocks, each of which leads to the next or to the exit."""
    part = lambda k: f"  br i1 %c, label %b{k + 1}, label %exit\n\nb{k + 1}:\n"
    head = "define void @f(i1 %c) {\nentry:\n"
    return inside(head, part, lambda n: "  br label %exit\n\nexit:\n  ret void\n", size)


def phis(size):
    """One function with a loop of many phis."""
    part = lambda k: f"  %x{k} = phi i32 [ %a, %entry ], [ %x{k}, %loop ]\n"
    head = "define i32 @f(i32 %a, i1 %c) {\nentry:\n  br label %loop\n\nloop:\n"
    return inside(head, part, lambda n: "  br i1 %c, label %loop, label %exit\n\nexit:\n  ret i32 %x0\n", size)


def fields(size):
    """One function that takes one struct of many fields."""
    body = repeated(lambda k: f"{', ' if k else ''}i{1 + k % 64}", size)
    return f"define void @f({{ {body} }} %s) {{\n  ret void\n}}\n"


def held_struct(number):
    """A struct with a name, which has one that stands before it in it, and a function that takes it."""
    inner = f"[2 x %S{number // 2}], " if number else ""
    return f"%S{number} = type {{ {inner}i32 }}\ndefine void @f{number}({{ i8, %S{number} }} %s) {{\n  ret void\n}}\n"


def taken(name, size):
    """Structs of these names, and a function that takes all of them."""
    structs = repeated(lambda k: f"%{name(k)} = type {{ i32 }}\n", 2 * size // 3)
    count = structs.count("\n")
    return structs + f"define void @f({', '.join(f'%{name(k)}' for k in range(count))}) {{\n  ret void\n}}\n"


def named_fields(size):
    """A struct with a name and many fields, which no value holds."""
    body = repeated(lambda k: f"{', ' if k else ''}i{1 + k % 64}", size)
    return f"%S = type {{ {body} }}\n"


def held_fields(size):
    """A struct with a name and many fields, and a function that takes it."""
    return named_fields(size) + "define void @f(%S %s) {\n  ret void\n}\n"


def named_struct(number):
    """A struct with a name, which has two that stand before it in it, and which no value holds."""
    inner = f"%S{number // 2}, [2 x %S{number // 3}], " if number else ""
    return f"%S{number} = type {{ {inner}i32 }}\n"


def structs(number):
    """A function of one line over types that no other function has."""
    return f"define {{ i32, [{number} x ptr] }} @f{number}({{ i32, [{number} x ptr] }} %s) {{\n  ret {{ i32, [{number} x ptr] }} %s\n}}\n"


def returned(type, value):
    """A function that returns a constant."""
    return f"define {type} @f() {{\n  ret {type} {value}\n}}\n"


def array(element, part, size):
    """One array of that element, each by its number."""
    values = repeated(lambda k: f"{', ' if k else ''}{element} {part(k)}", size)
    return returned(f"[{values.count(element + ' ')} x {element}]", f"[{values}]")


def quoted_bytes(byte, size):
    """One array of bytes between quotes, each written so."""
    count = size // len(byte)
    return returned(f"[{count} x i8]", 'c"' + byte * count + '"')


def levels(number):
    """A function that returns a constant of 998 levels of structs with names, which all such share."""
    depth = 998
    value = "".join(f"%L{level} {{ " for level in reversed(range(depth))) + f"i32 {number + 1}" + " }" * depth
    types = "".join(f"%L{k} = type {{ {f'%L{k - 1}' if k else 'i32'} }}\n" for k in range(depth)) if number == 0 else ""
    return f"{types}define %L{depth - 1} @f{number}() {{\n  ret {value}\n}}\n"


def splat(number):
    """A function of a vector by splat."""
    return f"define <4 x i32> @f{number}() {{\n  ret <4 x i32> splat (i32 {number + 1})\n}}\n"


KINDS = {
    "small functions": lambda size: repeated(small, size),
    "functions of one line": lambda size: repeated(line, size),
    "one function of adds": lambda size: chain(lambda k: "%a", size, add="add nsw"),
    "one of many blocks": blocks,
    "long names": lambda size: named(long, size),
    "long names, quoted": lambda size: named(quoted, size),
    "long names, escaped": lambda size: named(escaped, size),
    "functions, plain names": lambda size: repeated(lambda k: function(k, plain), size),
    "functions, one identifier": lambda size: repeated(lambda k: function(k, alike), size),
    "results, plain names": lambda size: named(plain, size),
    "results, one identifier": lambda size: named(alike, size),
    "many constants": lambda size: chain(lambda k: k + 10, size),
    "many phis": phis,
    "functions of structs": lambda size: repeated(structs, size),
    "a struct of many fields": fields,
    "structs with names": lambda size: repeated(named_struct, size),
    "a named one of many fields": named_fields,
    "held structs": lambda size: repeated(held_struct, size),
    "a held one of many fields": held_fields,
    "taken ones, plain names": lambda size: taken(plain, size),
    "taken ones, one identifier": lambda size: taken(alike, size),
    "constants of 998 levels": lambda size: repeated(levels, size),
    "an array of bytes": lambda size: array("i8", lambda k: 1 + k % 255, size),
    "an array of equal structs": lambda size: array("{ i32, i8 }", lambda k: "{ i32 1, i8 2 }", size),
    "an array of structs": lambda size: array("{ i32, i8 }", lambda k: f"{{ i32 {k}, i8 2 }}", size),
    "a text of bytes": lambda size: quoted_bytes("a", size),
    "a text of codes": lambda size: quoted_bytes("\\FF", size),
    "splats": lambda size: repeated(splat, size),
}


def instructions(program, path, scratch):
    """How many instructions a run takes."""
    words = ["valgrind", "--tool=callgrind", f"--callgrind-out-file={scratch}/out", str(program), "round"]
    with open(path, "rb") as text:
        ran = subprocess.run(words, stdin=text, stdout=subprocess.DEVNULL, stderr=subprocess.PIPE, text=True)
    found = re.search(r"Collected : (\d+)", ran.stderr)
    if ran.returncode or not found:
        sys.exit(f"counts: status {ran.returncode}: {ran.stderr[-400:]}")
    return int(found[1])


def memory(program, path):
    """The most bytes that a run holds: nothing is written before the whole output is there, so it is read off then.

    What `wait4` tells would count this script too, of which the run is a copy at first.
    """
    with open(path, "rb") as text, subprocess.Popen([str(program), "round"], stdin=text, stdout=subprocess.PIPE) as run:
        first = run.stdout.read(1)
        held = re.search(r"VmHWM:\s*(\d+) kB", pathlib.Path(f"/proc/{run.pid}/status").read_text())
        while run.stdout.read(1 << 16):
            pass
    if run.returncode or not first:
        sys.exit(f"counts: a run ended with {run.returncode}")
    return int(held[1]) * 1024


def allocations(program, path):
    """How many times a run asks for memory."""
    words = ["valgrind", "--leak-check=no", str(program), "round"]
    with open(path, "rb") as text:
        ran = subprocess.run(words, stdin=text, stdout=subprocess.DEVNULL, stderr=subprocess.PIPE, text=True)
    found = re.search(r"total heap usage: ([0-9,]+) allocs", ran.stderr)
    if ran.returncode or not found:
        sys.exit(f"counts: status {ran.returncode}: {ran.stderr[-400:]}")
    return int(found[1].replace(",", ""))


def main():
    size = int(sys.argv[1]) if len(sys.argv) > 1 else 1 << 20
    program = pathlib.Path(sys.argv[2]) if len(sys.argv) > 2 else PROGRAM
    print(f"{'':28}{'bytes':>10}{'instructions a byte':>22}{'memory a byte':>16}{'allocations a line':>20}")
    with tempfile.TemporaryDirectory() as scratch:
        path = f"{scratch}/text.ll"
        for name, made in KINDS.items():
            text = made(size)
            pathlib.Path(path).write_text(text)
            count = instructions(program, path, scratch)
            held = memory(program, path)
            asked = allocations(program, path) / text.count("\n")
            print(f"{name:28}{len(text):10}{count / len(text):22.1f}{held / len(text):16.1f}{asked:20.1f}", flush=True)


if __name__ == "__main__":
    resource.setrlimit(resource.RLIMIT_CORE, (0, 0))
    main()
