"""A text of the form as a tree: its tokens, and functions of blocks of instructions, whose names are those that it says.

What is no such text is `NotYet`.
"""
import re

from made_constants import Chars, Listed, Splat
from names import bytes_said, name_said, text_said
from value_types import (
    BIT, COUNTS, DEEPEST, FLOATING, LACKED, LENGTHS, MAX_VALUE, MAX_WIDTH, SPACES,
    Array, Floating, Integer, Lacked, Named, Pointer, Struct, Vector, depth, filled, in_lanes, is_element, is_field, is_integer, is_item,
    is_pointer, lanes_of,
)

PREDICATES = "eq ne ugt uge ult ule sgt sge slt sle".split()
FLAGGED = "add sub mul shl".split()  # of two operands of one type, with flags
BINARY = FLAGGED + "udiv sdiv urem srem lshr ashr and or xor".split()


def are_integers(of, to):
    return is_integer(of) and is_integer(to)


def is_sized(type):
    """Whether a value of it has a size."""
    return type != Lacked("token")


CASTS = {  # of one lane
    "trunc": lambda of, to: are_integers(of, to) and to.width < of.width,
    "sext": lambda of, to: are_integers(of, to) and of.width < to.width,
    "zext": lambda of, to: are_integers(of, to) and of.width < to.width,
    "ptrtoint": lambda of, to: is_pointer(of) and is_integer(to),
    "inttoptr": lambda of, to: is_integer(of) and is_pointer(to),
    "addrspacecast": lambda of, to: is_pointer(of) and is_pointer(to) and of != to,
}
ENDS = ("ret", "br", "cond_br", "unreachable")
NO_RESULT = (*ENDS, "store")
ALIGNS = 1 << 31  # the greatest alignment


class NotYet(Exception):
    """No checked module of the form is spelled by the text."""


def need(condition, why=""):
    if not condition:
        raise NotYet(why)


def said(of, written):
    """What something written says by the rule `of`, where it says anything."""
    text = of(written)
    need(text is not None, f"nothing said by {written!r}")
    return text


# --- tokens ---------------------------------------------------------------------------------------------------

TOKEN = re.compile(r"""
    (?P<blank>[\ \t\r\n]+|;[^\n\r]*)
  | (?P<label>[A-Za-z0-9$._-]+:|"[^"]*":)
  | (?P<local>%[-A-Za-z$._][-A-Za-z$._0-9]*|%[0-9]+|%"[^"]*")
  | (?P<global>@[-A-Za-z$._][-A-Za-z$._0-9]*|@[0-9]+|@"[^"]*")
  | (?P<string>"[^"]*")
  | (?P<chars>c"[^"]*")
  | (?P<int>i[0-9]+(?![A-Za-z0-9_.]))
  | (?P<word>[A-Za-z_][A-Za-z0-9_.]*)
  | (?P<number>(?!0x)-?[0-9]+)
  | (?P<sign>[,=(){}<>\[\]*])
""", re.X)


def tokens_of(text):
    at, found = 0, []
    while at < len(text):
        it = TOKEN.match(text, at)
        need(it, f"no token at {at}: {text[at:at + 12]!r}")
        if it.lastgroup == "number":  # a number with a dot or an exponent is none of the form
            need(not re.compile(r"\.").match(text, it.end()), "a number with a point")
        if it.lastgroup != "blank":
            found.append((it.lastgroup, it.group()))
        at = it.end()
    found.append(("end", ""))
    return found


# --- the tree -------------------------------------------------------------------------------------------------

class Node:
    """A thing of the tree, with whatever fields it is given."""

    def __init__(self, **fields):
        self.__dict__.update(fields)


class Reader:
    def __init__(self, text):
        self.tokens, self.at = tokens_of(text), 0

    def peek(self):
        return self.tokens[self.at]

    def take(self, kind):
        found, text = self.tokens[self.at]
        need(found == kind, f"{kind} wanted, {text!r} found")
        self.at += 1
        return text

    def skip(self, text):
        """Takes a sign or word where it is the next one."""
        kind, found = self.peek()
        if kind in ("sign", "word") and found == text:
            self.at += 1
            return True
        return False

    def want(self, text):
        need(self.skip(text), f"{text!r} wanted, {self.peek()[1]!r} found")

    def type(self):
        """A type of a value, which does not nest too deep."""
        found = self.any_type()
        need(depth(found) <= DEEPEST, "depth")
        return found

    def any_type(self):
        if self.skip("["):
            return self.array()
        if self.skip("{"):
            return Struct(False, self.fields())
        if self.skip("<"):
            if self.skip("{"):
                found = Struct(True, self.fields())
            else:
                found = self.vector()
            self.want(">")
            return found
        return self.flat_type()

    def count(self, counts):
        number = self.take("number")
        need(number.isdigit() and int(number) < counts, "count")
        return int(number)

    def array(self):
        count = self.count(COUNTS)
        self.want("x")
        element = self.any_type()
        need(is_item(element), "element of an array")
        self.want("]")
        return Array(count, element)

    def vector(self):
        scalable = self.skip("vscale")
        if scalable:
            self.want("x")
        count = self.count(LENGTHS)
        self.want("x")
        element = self.any_type()
        need(count > 0 and is_element(element), "element of a vector")
        return Vector(scalable, count, element)

    def fields(self):
        """What stands between the braces of a struct."""
        found = []
        if not self.skip("}"):
            found.append(self.any_type())
            while self.skip(","):
                found.append(self.any_type())
            self.want("}")
        need(all(map(is_field, found)), "field of a struct")
        return tuple(found)

    def flat_type(self):
        if self.peek()[0] == "int":
            return self.integer()
        if self.peek()[0] == "local":
            return Named(self.symbol_name("local"))
        if self.skip("ptr"):
            return Pointer(self.space() if self.skip("addrspace") else 0)
        word = self.take("word")
        need(word in FLOATING or word in LACKED, f"type {word!r}")
        return Floating(word) if word in FLOATING else Lacked(word)

    def integer(self):
        width = int(self.take("int")[1:])
        need(1 <= width <= MAX_WIDTH, "width")
        return Integer(width)

    def space(self):
        self.want("(")
        number = self.take("number")
        need(number.isdigit() and int(number) < SPACES, "address space")
        self.want(")")
        return int(number)

    def result(self):
        """The type that a function returns, none where that is void."""
        return None if self.skip("void") else self.type()

    def name(self, kind):
        """A name, or a number: what a local or a label says beside its sign."""
        text = self.take(kind)
        text = text[:-1] if kind == "label" else text[1:]
        return int(text) if text.isdigit() else said(name_said, text)

    def symbol_name(self, kind):
        """The name of a symbol or a struct, which digits are too."""
        text = self.take(kind)[1:]
        return text if text.isdigit() else said(name_said, text)

    def value(self, type):
        """A constant as it is written, (type, value), or the name or number of a local."""
        return self.name("local") if self.peek()[0] == "local" else self.constant(type)

    def constant(self, type):
        """A constant as it is written: what those that are made of others mean, `made_constants.meant` says."""
        kind, text = self.peek()
        self.at += 1
        if kind == "chars":
            return (type, Chars(bytes_said(text[1:])))
        if (kind, text) == ("word", "splat"):
            return (type, self.splat())
        if kind == "sign":
            return (type, self.listed(text))
        if kind == "word" and text in ("true", "false"):
            need(type == BIT, f"value {text!r}")
            return (BIT, int(text == "true"))
        if kind == "word":
            found = filled(type, text)
            need(found, f"value {text!r} of {type}")
            return found
        need(kind == "number", f"value {text!r}")
        need(is_integer(type), f"a constant of {type}")
        number, width = int(text), type.width
        need(-(1 << (width - 1)) <= number < (1 << min(width, MAX_VALUE)), f"range of {text}")
        need(number >= 0 or width <= MAX_VALUE, f"{text} at more than {MAX_VALUE} bits")
        return (type, number % (1 << width))

    def element(self):
        return self.constant(self.type())

    def splat(self):
        self.want("(")
        element = self.element()
        self.want(")")
        return Splat(element)

    def listed(self, opening):
        """Elements behind a bracket, with the one that closes them."""
        need(opening in ("[", "<", "{"), f"value {opening!r}")
        brackets = "<{" if opening == "<" and self.skip("{") else opening
        closing = {"[": "]", "<": ">", "{": "}", "<{": "}"}[brackets]
        elements = []
        if not self.skip(closing):
            elements.append(self.element())
            while self.skip(","):
                elements.append(self.element())
            self.want(closing)
        if brackets == "<{":
            self.want(">")
        return Listed(brackets, tuple(elements))

    def file(self):
        module = Node(name="", structs=[], functions=[])
        if self.skip("source_filename"):
            self.want("=")
            module.name = said(text_said, self.take("string"))
        while self.peek()[0] != "end":
            if self.peek()[0] == "local":
                module.structs.append(self.struct())
            else:
                module.functions.append(self.function())
        return module

    def struct(self):
        """A struct with a name, whose body is none where it is opaque."""
        name = self.symbol_name("local")
        self.want("=")
        self.want("type")
        return Node(name=name, body=self.struct_body())

    def struct_body(self):
        if self.skip("opaque"):
            return None
        packed = self.skip("<")
        self.want("{")
        body = Struct(packed, self.fields())
        if packed:
            self.want(">")
        return body

    def function(self):
        self.want("define")
        self.skip("external")
        result = self.result()
        name = self.symbol_name("global")
        self.want("(")
        params = []
        if not self.skip(")"):
            while True:
                type = self.type()
                params.append(Node(type=type, name=self.name("local") if self.peek()[0] == "local" else None))
                if self.skip(")"):
                    break
                self.want(",")
        self.want("{")
        blocks = [self.block()]
        while not self.skip("}"):
            blocks.append(self.block())
        return Node(name=name, result=result, params=params, blocks=blocks)

    def block(self):
        block = Node(name=self.name("label") if self.peek()[0] == "label" else None, insts=[])
        while True:
            inst = self.inst()
            block.insts.append(inst)
            if inst.kind in ENDS:
                return block

    def target(self):
        self.want("label")
        return self.name("local")

    def typed(self):
        """A value behind its type, with it."""
        type = self.type()
        return self.value(type), type

    def pair(self, fits):
        """Two values of one type, each with it, whose lanes pass the test."""
        type = self.type()
        need(fits(lanes_of(type)[1]), f"an operation on {type}")
        left = self.value(type)
        self.want(",")
        return [(left, type), (self.value(type), type)]

    def condition(self):
        value, type = self.typed()
        need(type == BIT, "a condition's type")
        return value, type

    def row(self, kind, given, type, values, flags=(), predicate=None, to=None, align=None):
        """An instruction with a result of that type, or with none; its operands come with the type of each."""
        return Node(kind=kind, name=given, type=type, operands=[v for v, _ in values], of=[t for _, t in values],
                    flags=list(flags), predicate=predicate, to=to, align=align, targets=[])

    def inst(self):
        given = None
        if self.peek()[0] == "local":
            given = self.name("local")
            self.want("=")
        word = self.take("word")
        if word in BINARY:
            flags = [flag for flag in ("nuw", "nsw") if word in FLAGGED and self.skip(flag)]
            values = self.pair(is_integer)
            return self.row(word, given, values[0][1], values, flags=flags)
        if word == "icmp":
            predicate = self.take("word")
            need(predicate in PREDICATES, "predicate")
            values = self.pair(lambda lane: is_integer(lane) or is_pointer(lane))
            return self.row(word, given, in_lanes(lanes_of(values[0][1])[0], BIT), values, predicate=predicate)
        if word in CASTS:
            return self.cast(word, given)
        if word == "select":
            values = [self.typed()]
            for _ in range(2):
                self.want(",")
                values.append(self.typed())
            count, bit = lanes_of(values[0][1])
            need(bit == BIT and count in (None, lanes_of(values[1][1])[0]), "the condition of a select")
            need(values[1][1] == values[2][1], "the types of a select")
            return self.row(word, given, values[1][1], values)
        if word == "freeze":
            value, type = self.typed()
            return self.row(word, given, type, [(value, type)])
        if word == "load":
            flags = self.volatile()
            type = self.type()
            need(is_sized(type), "a load of no size")
            self.want(",")
            return self.row(word, given, type, [self.address()], flags=flags, to=type, align=self.align())
        if word == "va_arg":
            address = self.address()
            self.want(",")
            type = self.type()
            return self.row(word, given, type, [address], to=type)
        if word == "phi":
            return self.phi(given)
        need(given is None, "a result of what has none")
        if word == "store":
            flags = self.volatile()
            stored = self.typed()
            need(is_sized(stored[1]), "a store of no size")
            self.want(",")
            return self.row(word, None, None, [stored, self.address()], flags=flags, align=self.align())
        return self.terminator(word)

    def volatile(self):
        return ["volatile"] if self.skip("volatile") else []

    def address(self):
        value, type = self.typed()
        need(is_pointer(type), f"an address of {type}")
        return value, type

    def align(self):
        """An alignment behind a comma, where there is one."""
        if not self.skip(","):
            return None
        self.want("align")
        number = self.take("number")
        need(number.isdigit() and 1 <= int(number) <= ALIGNS and int(number).bit_count() == 1, "alignment")
        return int(number)

    def cast(self, word, given):
        flags = ["nneg"] if word == "zext" and self.skip("nneg") else []
        value, of = self.typed()
        self.want("to")
        to = self.type()
        (lanes, lane), (others, other) = lanes_of(of), lanes_of(to)
        need(lanes == others and CASTS[word](lane, other), "the types of a cast")
        return self.row(word, given, to, [(value, of)], flags=flags, to=to)

    def phi(self, given):
        type, entries = self.type(), []
        while True:
            self.want("[")
            value = self.value(type)
            self.want(",")
            entries.append((value, self.name("local")))
            self.want("]")
            if not self.skip(","):
                return Node(kind="phi", name=given, type=type, entries=entries, operands=[])

    def terminator(self, word):
        if word == "unreachable":
            return Node(kind="unreachable", operands=[], of=[], targets=[])
        if word == "ret":
            values = [] if self.skip("void") else [self.typed()]
            return Node(kind="ret", operands=[v for v, _ in values], of=[t for _, t in values], targets=[])
        need(word == "br", f"word {word!r}")
        if self.peek() == ("word", "label"):
            return Node(kind="br", operands=[], of=[], targets=[self.target()])
        condition, _ = self.condition()
        self.want(",")
        first = self.target()
        self.want(",")
        return Node(kind="cond_br", operands=[condition], of=[BIT], targets=[first, self.target()])
