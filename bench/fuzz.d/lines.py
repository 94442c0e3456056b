"""The lines of a script, and what each means: nothing, a command as a tuple of its first word and its values, or a fault."""
import re

SMALL = (-(1 << 31), (1 << 31) - 1)
LARGE = (-(1 << 63), (1 << 63) - 1)
NAME = re.compile(rb"[A-Za-z][A-Za-z0-9_]{0,31}\Z")
NUMBER = re.compile(rb"-?[0-9]+\Z")
HEX = re.compile(rb"(?:[0-9A-Fa-f]{2})+\Z")
PLAIN = re.compile(rb"[\x21-\x7e \t]*\Z")
OPERATIONS = ("sum", "prod", "min", "max", "and", "or", "xor", "first", "last")


class Fault(Exception):
    """A line, or a word of it, that is in no line form."""


def split(script):
    """The lines of an input, without their ends: line feeds, and one carriage return before each or at the end."""
    lines = script.split(b"\n")
    if not lines[-1]:
        lines.pop()
    return [line[:-1] if line.endswith(b"\r") else line for line in lines]


def words_of(line):
    return [word for word in re.split(rb"[ \t]+", line) if word]


def name(word):
    if not NAME.match(word):
        raise Fault
    return word.decode()


def number(word, bounds):
    if not NUMBER.match(word):
        raise Fault
    sign = -1 if word.startswith(b"-") else 1
    digits = word.lstrip(b"-").lstrip(b"0") or b"0"
    if len(digits) > 20 or not bounds[0] <= sign * int(digits) <= bounds[1]:
        raise Fault
    return sign * int(digits)


def small(word):
    return number(word, SMALL)


def large(word):
    return number(word, LARGE)


def hexadecimal(word):
    if word == b"-":
        return b""
    if not HEX.match(word):
        raise Fault
    return bytes.fromhex(word.decode())


def one_of(*choices):
    def read(word):
        if word.decode() not in choices:
            raise Fault
        return word.decode()

    return read


def parts(separator, *readers):
    """A word of several parts."""

    def read(word):
        found = word.split(separator)
        if len(found) != len(readers):
            raise Fault
        return tuple(reader(part) for reader, part in zip(readers, found))

    return read


def default_or_small(word):
    return None if word == b"-" else small(word)


rep = one_of("native", "external32")
order = one_of("c", "fortran")
distribution = one_of("block", "cyclic", "none")

# The words of a form one by one; a reader in a list, which comes last, reads any number of words.
CONSTRUCTORS = {
    "contiguous": (small, name),
    "vector": (small, small, small, name),
    "hvector": (small, small, large, name),
    "indexed": (name, [parts(b"@", small, small)]),
    "hindexed": (name, [parts(b"@", small, large)]),
    "indexed_block": (name, small, [small]),
    "hindexed_block": (name, small, [large]),
    "struct": ([parts(b"@", small, large, name)],),
    "resized": (large, large, name),
    "dup": (name,),
    "subarray": (order, name, [parts(b":", small, small, small)]),
    "darray": (small, small, order, name, [parts(b":", small, distribution, default_or_small, small)]),
}
FILLS = {"zero": (small,), "count": (small,), "hex": (hexadecimal,)}
equals = one_of("=")
FORMS = {
    "child": (name, equals, name, small),
    "rebuild": (name, equals, name),
    "commit": (name,),
    "free": (name,),
    "info": (name,),
    "map": (name,),
    "envelope": (name,),
    "contents": (name,),
    "show": (name,),
    "bytes": (rep, small, name, name, large),
    "pack": (name, rep, small, name, name, large),
    "take": (name, small),
    "seek": (name, large),
    "unpack": (name, rep, small, name, name, large),
    "give": (name, hexadecimal),
    "close": (name,),
    "elements": (rep, large, name),
    "weights": (small,) * 6,
    "normalise": (name,),
    "copy": (small, name, name, large) * 2,
    "export": (name,),
    "import": (name, equals, hexadecimal),
    "reduce": (one_of(*OPERATIONS), small, name, name, large, name, large),
    "reduceall": (one_of(*OPERATIONS), one_of("halves", "left"), small, name, large, name, name, [name]),
}


def values(words, readers):
    """The values of words, by their readers."""
    rest = readers[-1] if isinstance(readers[-1], list) else None
    one_by_one = readers[:-1] if rest else readers
    if len(words) < len(one_by_one) or (not rest and len(words) > len(one_by_one)):
        raise Fault
    found = [reader(word) for reader, word in zip(one_by_one, words)]
    if rest:
        found.append([rest[0](word) for word in words[len(one_by_one) :]])
    return found


def parse(line, without=()):
    """None of a blank or comment line, else the command. Commands in `without` are in no line form."""
    words = words_of(line)
    if not words or words[0].startswith(b"#"):
        return None
    if not PLAIN.match(line):
        raise Fault
    first, rest = words[0].decode(), words[1:]
    if first in without:
        raise Fault
    if first == "type":
        if len(rest) < 3 or rest[1] != b"=":
            raise Fault
        made = name(rest[0])
        constructor = rest[2].decode()
        if constructor not in CONSTRUCTORS:
            raise Fault
        return ("type", made, constructor, values(rest[3:], CONSTRUCTORS[constructor]))
    if first == "buffer":
        if len(rest) < 2 or rest[1].decode() not in FILLS:
            raise Fault
        fill = rest[1].decode()
        return ("buffer", name(rest[0]), fill, values(rest[2:], FILLS[fill])[0])
    if first not in FORMS:
        raise Fault
    return (first, *(value for value in values(rest, FORMS[first]) if value != "="))
