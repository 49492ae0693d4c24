"""Names of all kinds at random, and how LLVM text may write each."""
import re

from names import BARE, bytes_of

PLAIN = ("a b c x y z i j n v1 v2 x_v3 block1 b_block2 entry entry_block0 loop exit add ret br phi label i1 true void "
         "icmp eq unreachable define nuw E9 L0_ q_ r2d2 ptr float half addrspace llvm llvm.f").split()
JOINTS = ["_", ".", "-", "$", " ", "\n", '"', "\\", "%", ";", "é"]  # between words: what no identifier has, and `_`
SIGNS = [*'abcEF019$._-\t\n\r ;:%@,()[]{}*""\\\\', *"\x01\x1f\x7f\x80éß漢\ufeff\uffff😀\U0010ffff"]
LONGEST = 900  # of a name, in bytes: LLVM takes locals of 1024, and their names in the module back are longer


def plain(rng):
    return rng.choice(PLAIN)


def alike(rng):
    """A name of those that share few identifiers, or have one that another comes to with its suffix."""
    first, second = rng.choice(["a", "b", ""]), rng.choice(["a", "b", "", "1"])
    return first + rng.choice(JOINTS) + second + rng.choice(["", "", "", "_1", "_2", "_3", "_1_1", ".1"])


def bare(rng):
    return rng.choice("abz_$.-") + "".join(rng.choice("ab01$._-") for _ in range(rng.randint(0, 8)))


def digits(rng):
    """A name that a number is no spelling of."""
    return str(rng.randrange(12)).zfill(rng.choice([1, 1, 2, 3])) + rng.choice(["", "", "a", "."])


def any_name(rng):
    length = rng.randint(20, LONGEST // 4) if rng.random() < 0.05 else rng.randint(1, 12)
    return "".join(rng.choice(SIGNS) for _ in range(length))


KINDS = [[plain], [plain, alike], [alike], [plain, alike, bare, digits, any_name], [any_name, alike]]


def distinct(rng, count):
    """So many names, no two of them the same."""
    kinds, found = rng.choice(KINDS), {}
    while len(found) < count:
        kind = any_name if rng.random() < 0.2 else rng.choice(kinds)  # of plain ones there are few
        found[kind(rng)] = None
    return list(found)


def written(rng, name):
    """A name as it may be written."""
    return name if BARE.match(name) and rng.random() < 0.7 else string(rng, name)


def string(rng, text):
    """A text between quotes, with as many escapes as it likes."""
    out, share = b"", rng.choice([0.0, 0.0, 0.2, 1.0])
    for byte in reversed(bytes_of(text)):
        alone = byte not in (0, 34) and (byte != 92 or not re.match(rb'\\|[0-9A-Fa-f]{2}', out))
        if alone and rng.random() >= share:
            out = bytes([byte]) + out
        elif byte == 92 and rng.random() < 0.5:
            out = b"\\\\" + out
        else:
            out = f"\\{byte:{rng.choice(['02X', '02x'])}}".encode() + out
    return '"' + out.decode(errors="surrogateescape") + '"'
