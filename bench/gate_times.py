#!/usr/bin/env python3
"""What a run of the gate cost, crate by crate, in processor seconds.

    bench/gate_times.py taskset -c 0,1 rt ci

Runs the command at the top of the repository, with nothing else of `rt` beside it, and looks at its provers each second;
so each figure is short of the truth by up to a second. When the command has ended, a table says for each crate what its
proof took, its tests, and its must-fail edits: how many checks they are (the first proves the whole crate, the last is
of the crate without an edit), what the first took and what the others took together. The lines of the command go to
standard error, the table to standard output.

What a processor of a shared machine does changes by the minute, with what other tenants of its host do. So a fixed loop
is timed every ten seconds, in turn on each processor of the command, and the last lines say which part of its best speed
a processor had in the mean, and what the run would have taken of processors that always have it. A prover slows down by
less than the loop does, so that figure is too low where the part is small.
"""
import collections
import os
import pathlib
import subprocess
import sys
import time

ROOT = pathlib.Path(__file__).resolve().parent.parent
TICKS = os.sysconf("SC_CLK_TCK")


# How many steps the loop takes whose time tells how fast a processor is, and how many seconds lie between two tries.
STEPS, BETWEEN = 300_000, 10


def pace(processor):
    """The processor seconds that a fixed loop takes now on a processor."""
    all_of_them = os.sched_getaffinity(0)
    os.sched_setaffinity(0, {processor})
    began, table, number = time.process_time(), {}, 1
    for step in range(STEPS):
        number = (number * 1103515245 + 12345) & 0x7FFFFFFF
        table[number & 0xFFFF] = step
    took = time.process_time() - began
    os.sched_setaffinity(0, all_of_them)
    return took


class Check:
    """A prover, as it was last seen."""

    def __init__(self, words, folder):
        self.crate = words[words.index("--crate-name") + 1] if "--crate-name" in words else "?"
        self.is_edit = pathlib.Path(folder).name.startswith("rt-edit-")
        self.is_test = "--test" in words
        self.seconds = 0.0


def provers():
    """The provers that run now, by process: their words, folder, parent and processor seconds, with what their ended copies took."""
    found = {}
    for entry in pathlib.Path("/proc").iterdir():
        if not entry.name.isdigit():
            continue
        try:
            words = (entry / "cmdline").read_bytes().decode(errors="replace").split("\0")
            if pathlib.Path(words[0]).name != "rattle":
                continue
            fields = (entry / "stat").read_text().rpartition(")")[2].split()
            folder = os.readlink(entry / "cwd")
        except OSError:
            continue
        found[entry.name] = words, folder, fields[1], sum(int(it) for it in fields[11:15]) / TICKS
    return found


def watch(command):
    """Runs a command, and returns its exit status, each prover that was seen, in order, and the times of the loop."""
    running, ended, paces = {}, [], []
    started = subprocess.Popen(command, cwd=ROOT, stdout=sys.stderr)
    tried = time.monotonic()
    while started.poll() is None:
        now = provers()
        if time.monotonic() - tried >= BETWEEN:
            own = sorted(os.sched_getaffinity(started.pid))
            paces.append(pace(own[len(paces) % len(own)]))
            tried = time.monotonic()
        for process, (words, folder, parent, seconds) in now.items():
            # a copy that a prover makes of itself counts with it
            if parent not in now:
                running.setdefault(process, Check(words, folder)).seconds = seconds
        for process in [it for it in running if it not in now]:
            ended.append(running.pop(process))
        time.sleep(1)
    return started.returncode, ended + [*running.values()], paces


def main():
    if len(sys.argv) < 2:
        sys.exit(__doc__)
    began = time.monotonic()
    status, checks, paces = watch(sys.argv[1:])
    wall = time.monotonic() - began
    by_crate = collections.defaultdict(lambda: {"proof": [], "tests": [], "edits": []})
    for it in checks:
        kind = "edits" if it.is_edit else "tests" if it.is_test else "proof"
        by_crate[it.crate][kind].append(it.seconds)
    print(f"{'crate':16}{'proof':>8}{'tests':>8}{'checks':>8}{'first':>8}{'others':>8}")
    for crate, given in by_crate.items():
        edits = given["edits"] or [0.0]
        print(f"{crate:16}{sum(given['proof']):8.0f}{sum(given['tests']):8.0f}{len(given['edits']):8}{edits[0]:8.0f}{sum(edits[1:]):8.0f}")
    total = sum(it.seconds for it in checks)
    print(f"{total / 60:.1f} processor minutes of provers, {wall / 60:.1f} minutes by the clock")
    # (nothing to say of a run that ended within the first ten seconds)
    if not paces:
        sys.exit(status)
    # the mean of the speeds, the best of which is 1
    part = min(paces) * sum(1 / it for it in paces) / len(paces)
    print(f"a processor had {part:.2f} of its best speed in the mean, at which the loop takes {min(paces) * 1000:.0f} ms, so")
    print(f"{total * part / 60:.1f} processor minutes at that speed, {total * part / 120:.1f} minutes on two processors that keep it")
    sys.exit(status)


if __name__ == "__main__":
    main()
