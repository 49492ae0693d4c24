#!/usr/bin/env python3
"""What the proof of a crate cost, by kind of module and by the dearest modules.

    rm -rf crates/NAME/out; cd crates/NAME; rt check --jobs 1; cd -; bench/proof_times.py NAME [COUNT]

A check writes each module into `out/incremental` as it ends with it, so after a check from nothing by one job the
steps between the times of these files are what the modules cost, with what was loaded for each. Over kept work, or
with more jobs than one, they tell nothing. The last word of a module's name is its kind: `Lts` is the borrow checker's
part of a function, `Proof` what is searched for, `Answers` what is written.
"""
import collections
import pathlib
import sys

ROOT = pathlib.Path(__file__).resolve().parent.parent


def costs(folder):
    """The modules below a folder, each with the seconds since the one before it."""
    files = [it for it in folder.rglob("*.oantt") if it.parent.name != "records"]
    ended = sorted((it.stat().st_mtime, it.stem) for it in files)
    return [(after - before, name) for (before, _), (after, name) in zip(ended, ended[1:])]


def main():
    if len(sys.argv) not in (2, 3):
        sys.exit(__doc__)
    folder = ROOT / "crates" / sys.argv[1] / "out" / "incremental"
    count = int(sys.argv[2]) if len(sys.argv) == 3 else 30
    modules = costs(folder)
    kinds = collections.Counter()
    for seconds, name in modules:
        kinds[name.rpartition(".")[2]] += seconds
    print(f"{sum(kinds.values()):8.1f} s in {len(modules)} modules")
    for kind, seconds in kinds.most_common(8):
        print(f"{seconds:8.1f} s {kind}")
    for seconds, name in sorted(modules, reverse=True)[:count]:
        print(f"{seconds:8.2f} s {name}")


if __name__ == "__main__":
    main()
