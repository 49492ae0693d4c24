"""Names for texts of the bench: plain ones, and of the same length ones of other kinds, each as it is written."""

LETTERS = "stuvwxyz"
SIGNS = "._-$ !+/"  # `_` in an identifier; half of them stand in bare names
PLACES = 7  # so there are 2,097,152 names


def spelled(number, digits):
    """A number in as many places, by these digits."""
    return "a" + "".join(digits[number >> 3 * place & 7] for place in range(PLACES)) + "b"


def plain(number):
    return spelled(number, LETTERS)


def alike(number):
    """A name that asks for the identifier `a_______b`; bare where it can be."""
    name = spelled(number, SIGNS)
    return name if set(name) <= set("ab._-$") else f'"{name}"'


def long(number):
    return "a" * 190 + f"{number:010}"


def quoted(number):
    return '"' + "a b." * 47 + f'{number:010}"'


def escaped(number):
    return '"' + "a\\20b" * 38 + f'{number:010}"'


def function(number, name):
    """A function, its name made of its number."""
    return f"define i32 @{name(number)}() {{\n  ret i32 {number % 100000}\n}}\n"
