"""Names: what a written one says, how one is printed, and the identifiers that an import gives.

A name is a string. Texts may hold bytes that are no UTF-8, as Python's `surrogateescape` has them.
"""
import re

BARE = re.compile(r"[-A-Za-z$._][-A-Za-z$._0-9]*\Z")
ESCAPE = re.compile(rb"\\(\\|[0-9A-Fa-f]{2})")


def bytes_said(string):
    """The bytes that a string says, with its quotes."""
    return ESCAPE.sub(lambda it: b"\\" if it[1] == b"\\" else bytes([int(it[1], 16)]), bytes_of(string[1:-1]))


def text_said(string):
    """The text that a string says, with its quotes; none where that is no UTF-8."""
    try:
        return bytes_said(string).decode()
    except UnicodeDecodeError:
        return None


def name_said(written):
    """The name that a written one says, bare or between quotes; none where it says none."""
    if BARE.match(written):
        return written
    text = text_said(written)
    return text if text and "\0" not in text else None


def bytes_of(text):
    return text.encode(errors="surrogateescape")


def escaped(byte):
    """A byte as LLVM text has it between quotes."""
    if byte == 92:
        return "\\\\"
    return chr(byte) if 32 <= byte <= 126 and byte != 34 else f"\\{byte:02X}"


def printed_text(text):
    """A text between quotes in LLVM text."""
    return '"' + "".join(map(escaped, bytes_of(text))) + '"'


def printed(name):
    """A name in LLVM text."""
    return name if BARE.match(name) else printed_text(name)


def quoted(text):
    """A text in the dialect."""
    return '"' + re.sub(r'["\\]', lambda it: "\\" + it[0], text) + '"'


class Legaliser:
    """The identifiers of a whole import: each name has one, and each one name."""

    def __init__(self):
        self.given, self.suffixes = {}, {}

    def identifier(self, name):
        """That of a name: where the name is new, the first that is free of those that it asks for."""
        if name not in self.given:
            asked = re.sub(rb"[^A-Za-z0-9_]", b"_", bytes_of(name)).decode()
            asked = "_" + asked if not asked or asked[0].isdigit() else asked
            found = asked
            while found in self.suffixes:
                self.suffixes[asked] += 1  # all suffixes up to this one are taken
                found = f"{asked}_{self.suffixes[asked]}"
            self.suffixes[found] = 0
            self.given[name] = found
        return self.given[name]
