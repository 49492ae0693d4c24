#!/usr/bin/env python3
"""Lets each allocation of a run fail in turn, and looks at how the run ends; and that a row takes no allocation.

    fuzz/allocations.py [FILE ..]

Over each file (six of the examples, where none is named) it counts the allocations of
`round_ll round`, and then runs it once for each of them with that one failing. A run has to end with status 8,
its line and no output, or just as with ample memory. And for one function of 20,000 instructions it may ask for memory
at most three times as often as for one of 200, where both have as many constants: what grows are vectors, not rows. A constant
may ask once more, since its attribute lies apart from its operation. It needs a C compiler and a loader that knows LD_PRELOAD.
"""
import collections
import os
import pathlib
import subprocess
import sys
import tempfile

ROOT = pathlib.Path(__file__).resolve().parent.parent
PROGRAM = str(ROOT / "crates/program/out/program")


def run(shim, text, **settings):
    """A run over a text with the shim loaded."""
    env = {**os.environ, "LD_PRELOAD": shim, **settings}
    return subprocess.run([PROGRAM, "round"], input=text, capture_output=True, timeout=10, env=env)


def is_well(done, ample):
    """Whether a run with a failing allocation ended as it has to."""
    if done.returncode == 8:
        return not done.stdout and done.stderr == b"out of memory\n"
    return (done.returncode, done.stdout, done.stderr) == (ample.returncode, ample.stdout, ample.stderr)


def counted(shim, folder, text):
    """A run with ample memory, and how often it asks for some."""
    count_file = os.path.join(folder, "count")
    ample = run(shim, text, COUNT_TO=count_file)
    return ample, int(pathlib.Path(count_file).read_text())


def adds(count, constants):
    """A function of so many named additions, each of one of so many constants."""
    lines = "".join(f"  %x{k + 1} = add nsw i32 %x{k}, {k % constants}\n" for k in range(count))
    return f"define i32 @f(i32 %x0) {{\n{lines}  ret i32 %x{count}\n}}\n".encode()


def growth(shim, folder):
    """Prints a line on what instructions ask for, and one on what constants do, and answers how many of them ask too often."""
    runs = [counted(shim, folder, adds(*it)) for it in ((200, 100), (20000, 100), (20000, 20000))]
    few, many, each = (asked for _, asked in runs)
    ended = all(done.returncode == 0 for done, _ in runs)
    faults = int(not ended or many > 3 * few), int(each > many + 20000)
    print(f"200 instructions: {few} allocations; 20,000: {many}; {faults[0]} faults")
    print(f"100 constants: {many} allocations; 20,000: {each}; {faults[1]} faults")
    return sum(faults)


def faults_of(shim, folder, path):
    """Prints a line on a file, and answers how many of its runs ended otherwise."""
    text = path.read_bytes()
    ample, allocations = counted(shim, folder, text)
    statuses, faults = collections.Counter(), 0
    for number in range(1, allocations + 1):
        done = run(shim, text, FAIL_AT=str(number))
        statuses[done.returncode] += 1
        if not is_well(done, ample):
            faults += 1
            print(f"{path.name}: allocation {number}: status {done.returncode}")
    shown = ", ".join(f"status {status}: {n}" for status, n in sorted(statuses.items()))
    print(f"{path.name}: {allocations} allocations; {shown}; {faults} faults")
    return faults


def main():
    paths = [pathlib.Path(it) for it in sys.argv[1:]] or [
        ROOT / "examples" / name for name in ("answer.ll", "sum.ll", "gcd.ll", "names.ll", "structs.ll", "constants.ll")
    ]
    subprocess.run([str(ROOT / "round_ll"), "round"], stdin=subprocess.DEVNULL, stdout=subprocess.DEVNULL, check=True)
    with tempfile.TemporaryDirectory() as folder:
        shim = os.path.join(folder, "failing_malloc.so")
        source = str(ROOT / "fuzz/failing_malloc.c")
        subprocess.run(["cc", "-shared", "-fPIC", "-o", shim, source, "-ldl"], check=True)
        faults = growth(shim, folder) + sum([faults_of(shim, folder, path) for path in paths])
    sys.exit(1 if faults else 0)


if __name__ == "__main__":
    main()
