"""The types of values: how LLVM writes each (`str`), and how the dialect does, unless it lacks the type."""
import dataclasses

from names import printed

MAX_WIDTH = 1 << 23  # of an integer, in bits
MAX_CONSTANT = 64  # the width of an integer constant that is translated
MAX_VALUE = 128  # the bits of its value that are read
SPACES = 1 << 24  # so many address spaces there are
FLOATING = {"half": "fp16", "bfloat": "bf16", "float": "fp32", "double": "fp64"}  # with their words in the dialect
# types that the dialect lacks, with the words by which they are refused
LACKED = {"x86_fp80": "X86Fp80", "fp128": "Fp128", "ppc_fp128": "PpcFp128", "x86_amx": "X86Amx", "token": "Token"}


@dataclasses.dataclass(frozen=True)
class Integer:
    width: int

    def __str__(self):
        return f"i{self.width}"

    def in_dialect(self):
        return f"builtin.integer i{self.width}"


@dataclasses.dataclass(frozen=True)
class Pointer:
    space: int

    def __str__(self):
        return f"ptr addrspace({self.space})" if self.space else "ptr"

    def in_dialect(self):
        return f"llvm.ptr ({self.space})"


@dataclasses.dataclass(frozen=True)
class Floating:
    word: str

    def __str__(self):
        return self.word

    def in_dialect(self):
        return f"builtin.{FLOATING[self.word]}"


@dataclasses.dataclass(frozen=True)
class Lacked:
    word: str

    def __str__(self):
        return self.word


@dataclasses.dataclass(frozen=True)
class Named:
    """A struct with a name, whose fields stand beside the types."""
    name: str

    def __str__(self):
        return "%" + printed(self.name)

    def in_dialect(self):
        return f"llvm.struct <@{self.name}>"


@dataclasses.dataclass(frozen=True)
class Array:
    count: int
    element: object

    def __str__(self):
        return f"[{self.count} x {self.element}]"

    def in_dialect(self):
        return f"llvm.array [{self.count} x {self.element.in_dialect()}]"


@dataclasses.dataclass(frozen=True)
class Vector:
    scalable: bool
    count: int
    element: object

    def length(self):
        return f"{'vscale x ' if self.scalable else ''}{self.count}"

    def __str__(self):
        return f"<{self.length()} x {self.element}>"

    def in_dialect(self):
        length = f"{'vscale ' if self.scalable else ''}{self.count}"
        return f"llvm.vector [{length} x {self.element.in_dialect()}]"


@dataclasses.dataclass(frozen=True)
class Struct:
    packed: bool
    fields: tuple

    def __str__(self):
        body = f"{{ {', '.join(map(str, self.fields))} }}" if self.fields else "{}"
        return f"<{body}>" if self.packed else body

    def body_in_dialect(self):
        """What stands between the braces and what is before them, as it does beside the name of a struct."""
        fields = ", ".join(it.in_dialect() for it in self.fields)
        return f"{'packed ' if self.packed else ''}{{{fields}}}"

    def in_dialect(self):
        return f"llvm.struct <{self.body_in_dialect()}>"


BIT = Integer(1)
COUNTS = 1 << 64  # so many counts of elements an array has
LENGTHS = 1 << 32  # and a vector, 0 aside
DEEPEST = 1000  # so deep types may nest


def depth(type):
    """How deep a type nests, its innermost part counted."""
    if isinstance(type, (Array, Vector)):
        return 1 + depth(type.element)
    if isinstance(type, Struct):
        return 1 + max(map(depth, type.fields), default=0)
    return 1


def is_field(type):
    """Whether a struct may have a field of the type."""
    return type != Lacked("token")


def is_item(type):
    """Whether an array may be made of the type."""
    return is_field(type) and type != Lacked("x86_amx")


def is_element(type):
    """Whether a vector may be made of the type."""
    return is_item(type) and not isinstance(type, (Array, Vector, Struct, Named))


def nesting(type, structs):
    """How deep a type nests through the fields of structs, given by name: none where that is deeper than is allowed, or
    where it names a struct that there is not. The depths of structs are noted beside them."""
    if isinstance(type, (Array, Vector)):
        parts = [type.element]
    elif isinstance(type, Struct):
        parts = type.fields
    elif isinstance(type, Named):
        return struct_nesting(type.name, structs)
    else:
        parts = []
    depths = [nesting(it, structs) for it in parts]
    return None if None in depths or max(depths, default=0) >= DEEPEST else 1 + max(depths, default=0)


def struct_nesting(name, structs):
    """How deep the struct of that name nests."""
    if name not in structs:
        return None
    struct = structs[name]
    if not hasattr(struct, "depth"):
        struct.depth = None  # one that is in itself has none
        depths = [nesting(it, structs) for it in (struct.body.fields if struct.body else ())]
        if None not in depths and max(depths, default=0) < DEEPEST:
            struct.depth = 1 + max(depths, default=0)
    return struct.depth


def renamed(type, names):
    """A type with the structs that it names under other names; none stays none."""
    if isinstance(type, Named):
        return Named(names[type.name])
    if isinstance(type, Array):
        return Array(type.count, renamed(type.element, names))
    if isinstance(type, Struct):
        return Struct(type.packed, tuple(renamed(it, names) for it in type.fields))
    return type


class Held:
    """What types hold that are gone through one after the other, through the fields of structs too: `made` has the
    names of the structs in the order in which they can be made, each behind those that its fields hold, and `lacked` the
    word of the first type met that the dialect lacks."""

    def __init__(self, structs):
        """Of types that may name these structs, which are given by name."""
        self.structs, self.met, self.made, self.lacked = structs, set(), [], None

    def take(self, type):
        if isinstance(type, Lacked):
            self.lacked = self.lacked or LACKED[type.word]
        elif isinstance(type, (Array, Vector)):
            self.take(type.element)
        elif isinstance(type, Struct):
            for it in type.fields:
                self.take(it)
        elif isinstance(type, Named) and type.name not in self.met:
            self.met.add(type.name)
            self.take(self.structs[type.name].body)
            self.made.append(type.name)


def lanes_of(type):
    """How many lanes a type has, of which kind, and the type of one: what is no vector is one lane."""
    return ((type.scalable, type.count), type.element) if isinstance(type, Vector) else (None, type)


def in_lanes(lanes, type):
    """So many lanes of a type."""
    return type if lanes is None else Vector(*lanes, type)


def is_pointer(type):
    return isinstance(type, Pointer)


def is_integer(type):
    return isinstance(type, Integer)


FILLS = {"zeroinitializer": "zero", "undef": "undef", "poison": "poison"}  # constants of any type, with their words in the dialect


def filled(type, word):
    """The constant that a word says at a type, none where it says none there: the zero of an integer type is 0."""
    if word == "null":
        return (type, "zero") if isinstance(type, Pointer) else None
    if word == "zeroinitializer" and is_integer(type):
        return (type, 0)
    return (type, FILLS[word]) if word in FILLS else None


def has_constants(type):
    """Whether integer constants of the type are translated: those of others are read, and refused."""
    return is_integer(type) and type.width <= MAX_CONSTANT
