"""Constants that are made of others: what a written one means, its one form, and how LLVM and the dialect write it.

A constant is a type with a value: a number, `zero`, `undef` or `poison`, bytes, the constants of a list, or a `Splat`.
"""
import dataclasses

from names import escaped
from value_types import BIT, FILLS, Array, Integer, Named, Pointer, Struct, Vector, renamed

BYTE = Integer(8)


@dataclasses.dataclass(frozen=True)
class Listed:
    """What is written between brackets, which are `[`, `<`, `{` or `<{`."""
    brackets: str
    elements: tuple


@dataclasses.dataclass(frozen=True)
class Chars:
    """What is written as a text of bytes."""
    said: bytes


@dataclasses.dataclass(frozen=True)
class Splat:
    """What is written as a splat, or the value of a scalable vector whose lanes are equal."""
    element: tuple


def fill_of(constant):
    """Whether a constant is zero, undef or poison, as its word in the dialect; none where it is another."""
    value = constant[1]
    return "zero" if value == 0 and isinstance(value, int) else value if isinstance(value, str) else None


def listed(type, elements):
    """The constant of a type that has such elements, in its one form."""
    fills = {fill_of(it) for it in elements}
    if len(fills) <= 1 and None not in fills:
        return (type, fills.pop() if fills else "zero")
    if type == Array(len(elements), BYTE) and all(isinstance(value, int) for _, value in elements):
        return (type, bytes(value for _, value in elements))
    return (type, tuple(elements))


def lanes(type, element):
    """The constant of a vector type each lane of which is that."""
    if fill_of(element):
        return (type, fill_of(element))
    return (type, Splat(element)) if type.scalable else listed(type, [element] * type.count)


def parts_of(type, brackets, structs):
    """The types of the elements between those brackets at a type: none where it has no such."""
    if isinstance(type, Named):
        type = structs[type.name].body if type.name in structs else None
    if isinstance(type, Array) and brackets == "[" or isinstance(type, Vector) and brackets == "<" and not type.scalable:
        return type.count, type.element
    if isinstance(type, Struct) and brackets == ("<{" if type.packed else "{"):
        return type.fields
    return None


def are_of(elements, parts):
    """Whether the elements have the types of those parts."""
    types = [type for type, _ in elements]
    if parts and isinstance(parts[0], int):
        return len(types) == parts[0] and all(it == parts[1] for it in types)
    return parts is not None and types == list(parts)


def meant(constant, structs):
    """What a written constant means in a module of these structs; none where it means nothing."""
    type, value = constant
    if isinstance(value, Chars):
        wanted = type == Array(len(value.said), BYTE)
        return listed(type, [(BYTE, it) for it in value.said]) if wanted else None
    if isinstance(value, Listed):
        elements = [meant(it, structs) for it in value.elements]
        return listed(type, elements) if None not in elements and are_of(elements, parts_of(type, value.brackets, structs)) else None
    if isinstance(value, Splat):
        element = meant(value.element, structs)
        return lanes(type, element) if element and isinstance(type, Vector) and element[0] == type.element else None
    return constant


def inside(constant):
    """A constant and all that it is made of."""
    yield constant
    value = constant[1]
    for it in value if isinstance(value, tuple) else [value.element] if isinstance(value, Splat) else []:
        yield from inside(it)


def renamed_constant(constant, names):
    """A constant whose types name structs by other names."""
    type, value = constant
    if isinstance(value, tuple):
        value = tuple(renamed_constant(it, names) for it in value)
    return (renamed(type, names), value)


def attribute(constant):
    """How the dialect writes a constant."""
    type, value = constant
    if isinstance(value, str):
        return f"llvm.{value} <{type.in_dialect()}>"
    if isinstance(value, bytes):
        return f"llvm.bytes <[{', '.join(map(str, value))}]>"
    if isinstance(value, tuple):
        return f"llvm.aggregate <[{', '.join(map(attribute, value))}] : {type.in_dialect()}>"
    return f"builtin.integer <{value}: {type}>"


def is_packed(type, structs):
    return (structs[type.name].body if isinstance(type, Named) else type).packed


def literal(constant, structs):
    """How LLVM writes a constant behind its type, in a module of these structs."""
    type, value = constant
    if isinstance(value, bytes):
        return f'c"{"".join(map(escaped, value))}"'
    if isinstance(value, tuple):
        elements = ", ".join(f"{it[0]} {literal(it, structs)}" for it in value)
        if isinstance(type, Array):
            return f"[{elements}]"
        if isinstance(type, Vector):
            return f"<{elements}>"
        return f"<{{ {elements} }}>" if is_packed(type, structs) else f"{{ {elements} }}"
    if value == "zero":
        return "null" if isinstance(type, Pointer) else "zeroinitializer"
    if value in FILLS.values():
        return value
    if type == BIT:
        return "true" if value else "false"
    return str(value - (1 << type.width) if value >> (type.width - 1) else value)
