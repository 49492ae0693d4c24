"""Types of values at random, and structs with names, and how LLVM text may write them."""
import re

from some_names import distinct, written
from value_types import BIT, FLOATING, MAX_CONSTANT, MAX_VALUE, MAX_WIDTH, SPACES
from value_types import Array, Floating, Integer, Named, Pointer, Struct, Vector, has_constants, is_integer

NUMBER = re.compile(r"(0|[1-9][0-9]{0,8})\Z")  # a name of a struct that is written as a number


def made_type(rng, flat, levels, named=()):
    """A type with parts, of at most so many levels above these and above structs with names."""
    def part():
        if named and rng.random() < 0.3:
            return rng.choice(named)
        return made_type(rng, flat, levels - 1, named) if levels > 1 and rng.random() < 0.4 else rng.choice(flat)
    kind = rng.randrange(3)
    if kind == 0:
        return Array(rng.choice([0, 1, 2, 7, (1 << 64) - 1]), part())
    if kind == 1:
        return Vector(rng.random() < 0.4, rng.choice([1, 2, 4, 16, 12345]), rng.choice(flat))
    return Struct(rng.random() < 0.4, tuple(part() for _ in range(rng.choice([0, 1, 2, 3]))))


def some_types(rng, named):
    """A few types of values: mostly integers that have constants. Structs with names may be among them."""
    wide = [MAX_CONSTANT + 1, 128, MAX_WIDTH, rng.randint(MAX_CONSTANT + 1, MAX_WIDTH)]
    spaces = [1, 3, SPACES - 1, rng.randrange(SPACES)]
    short = [Integer(width) for width in rng.sample([1, 8, 32, 64, rng.randint(2, 63)], rng.randint(1, 3))]
    others = [Integer(rng.choice(wide)), Pointer(0), Pointer(rng.choice(spaces)), *map(Floating, FLOATING)]
    made = [made_type(rng, short + others, 3, named) for _ in range(rng.choice([0, 0, 1, 2]))]
    made += rng.sample(named, min(len(named), rng.choice([0, 1, 1, 2, 3])))
    return short + rng.sample(others, rng.choice([0, 0, 1, 1, 2, 3])) + list(dict.fromkeys(made))


def short_types(rng):
    """Integers that have constants."""
    return [Integer(width) for width in rng.sample(range(1, MAX_CONSTANT + 1), 3)]


def constant(rng, type):
    """A constant as it may be written: an integer where the type has them that are translated, and now and then one that is
    read and refused."""
    wide = is_integer(type) and not has_constants(type)
    if wide and rng.random() < 0.005:
        return "zeroinitializer"
    if not is_integer(type) or rng.random() < (0.98 if wide else 0.2):
        words = ["undef", "poison"] + (["null"] if isinstance(type, Pointer) else [])
        return rng.choice(words + ([] if wide else ["zeroinitializer"]))
    if type == BIT:
        return rng.choice(["true", "false", "1", "0", "-1"])
    if type.width > MAX_VALUE:
        return str(rng.choice([0, 1, (1 << MAX_VALUE) - 1, rng.randrange(1 << MAX_VALUE)]))
    top = 1 << (type.width - 1)
    number = rng.choice([0, 1, 2, 3, 7, -1, -top, top - 1, top, 2 * top - 1, rng.randrange(-top, 2 * top)])
    number = number if -top <= number < 2 * top else 1
    return ("-" if number < 0 else "") + rng.choice(["", "", "", "0", "00"]) + str(abs(number))


def written_type(rng, type):
    """A type as it may be written."""
    zeros = rng.choice(["", "", "", "", "0", "00"])
    if isinstance(type, Pointer) and rng.random() < 0.3:
        return f"ptr addrspace({zeros}{type.space})"
    if isinstance(type, Array):
        return f"[{zeros}{type.count} x {written_type(rng, type.element)}]"
    if isinstance(type, Struct):
        body = "{" + ", ".join(written_type(rng, it) for it in type.fields) + "}"
        return f"<{body}>" if type.packed else body
    if isinstance(type, Named):
        return f"%{type.name if NUMBER.match(type.name) else written(rng, type.name)}"
    return f"i{zeros}{type.width}" if is_integer(type) else str(type)


def names_of_structs(rng, names):
    """Names for structs: of those that other things may have, others, and numbers."""
    count = rng.choice([1, 2, 3, 4, 6, 8, 20])
    found = rng.sample(names, rng.randint(0, count)) + distinct(rng, count)
    found += [str(rng.choice([0, 1, 2, 7, 10, 123456789])) for _ in range(rng.choice([0, 0, 1, 2]))]
    rng.shuffle(found)
    return list(dict.fromkeys(found))[:count]


def some_structs(rng, names, lacked):
    """Structs with names, each in those before it alone, and the lines that define them, in any order. Fields may have the
    types that are lacked too."""
    flat = [Integer(8), Integer(32), Integer(64), Pointer(0), Pointer(3), *map(Floating, FLOATING)] + lacked
    structs, lines = [], []
    for name in names_of_structs(rng, names):
        fields = []
        for _ in range(rng.choice([0, 1, 2, 3, 5])):
            if rng.random() < 0.4:
                fields.append(made_type(rng, flat, 3, structs))
            else:
                fields.append(rng.choice(structs if structs and rng.random() < 0.6 else flat))
        body = written_type(rng, Struct(rng.random() < 0.3, tuple(fields))) if rng.random() < 0.8 else "opaque"
        structs.append(Named(name))
        lines.append(f"{written_type(rng, structs[-1])} = type {body}\n")
    rng.shuffle(lines)
    return structs, lines


def held_of(rng, structs, lacked):
    """Of the types of values: some of the structs, often all of them, and those that are lacked."""
    if rng.random() < 0.5:
        structs = rng.sample(structs, rng.randint(0, len(structs)))
    return structs + lacked
