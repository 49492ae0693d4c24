"""What the fuzz programs share: the built program, and an installed LLVM."""
import pathlib
import re
import shutil
import subprocess
import sys

ROOT = pathlib.Path(__file__).resolve().parent.parent


def arguments(count):
    """The words SEED and COUNT of the command line: 1 and `count` where they are left out."""
    words = [int(word) for word in sys.argv[1:3]]
    return words + [1, count][len(words):]


def built():
    """The path of `round_ll`, built where it is not built yet."""
    subprocess.run([str(ROOT / "round_ll"), "round"], stdin=subprocess.DEVNULL, stdout=subprocess.DEVNULL, check=True)
    return str(ROOT / "crates/program/out/program")


def tool(name):
    """An installed tool of an LLVM of any version, none where there is none."""
    return shutil.which(f"{name}-19") or shutil.which(name)


def tool_of_19(tool):
    """An installed tool of an LLVM of version 19 or later, none where there is none."""
    for path in filter(None, map(shutil.which, [f"{tool}-19", tool])):
        said = subprocess.run([path, "--version"], capture_output=True, text=True).stdout
        version = re.search(r"version (\d+)", said)
        if version and int(version[1]) >= 19:
            return path
    return None


def assembled(assembler, text):
    """How LLVM's assembler ends on the bytes of a text, and what it says; as if it took them where none is installed."""
    if assembler is None:
        return 0, b""
    done = subprocess.run([assembler, "-o", "/dev/null", "-"], input=text, capture_output=True)
    return done.returncode, done.stderr


def round_of(program, text, counts):
    """A run of the program over the bytes of a text, counted by its status; none where it takes over ten seconds."""
    try:
        done = subprocess.run([program, "round"], input=text, capture_output=True, timeout=10)
    except subprocess.TimeoutExpired:
        return None
    counts[done.returncode] += 1
    return done


def summary(seed, count, kind, counts, faults):
    """What is said at the end of many runs."""
    shown = ", ".join(f"status {status}: {n}" for status, n in sorted(counts.items()))
    return f"seed {seed}, {count} {kind}; {shown}; {faults} faults"
