"""Asks `dtt run`: a script of the user with lines behind it, and the replies to them. Nothing of a layout is worked out here."""
import collections
import re
import subprocess

SECONDS = 120
COPIES = 16  # so many copies have their bounds asked for and marked
SHOWN = 2000  # the packed bytes of longer operations aren't asked for one by one
SPAN = 65536  # nor are those of elements that lie further apart

Entry = collections.namedtuple("Entry", "kind at")
Packed = collections.namedtuple("Packed", "rep total sizes sources values cut")
Cut = collections.namedtuple("Cut", "bytes given held reply")


class Refused(Exception):
    """A line of the script, or one that was asked behind it, was refused."""

    def __init__(self, reply, line):
        super().__init__(reply)
        self.reply, self.line = reply, line


class Fault(Exception):
    """The program didn't answer as it should."""


class Layout:
    """What the program says of some copies of a type. All places are those in memory, the origin among them."""

    name = definition = ""
    count, origin = 1, 0
    info = whole = marks = None
    entries, copies, packed = (), (), ()
    buffer = tree = None


def replied_lines(text):
    """The numbers and the lines of a script that have a reply: those that are neither blank nor a comment."""
    found = []
    lines = text.split(b"\n")
    if lines[-1] == b"":
        lines.pop()
    for number, line in enumerate(lines, 1):
        bare = line.removesuffix(b"\r").strip(b" \t")
        if bare and not bare.startswith(b"#"):
            found.append((number, bare.decode("ascii", "replace")))
    return found


class Asker:
    """A script, and a program that is asked about it."""

    def __init__(self, program, text):
        self.program = program
        self.text = text if not text or text.endswith(b"\n") else text + b"\n"
        self.lines = replied_lines(self.text)
        self.prefix = "drawn"
        while self.prefix.encode() in text:
            self.prefix += "x"
        self.answers([])

    def name(self, word):
        """A name that the script doesn't use."""
        return f"{self.prefix}_{word}"

    def answers(self, asked):
        """The replies to lines that stand behind the script. The first refusal of all is raised."""
        text = self.text + "".join(line + "\n" for line in asked).encode()
        try:
            done = subprocess.run([self.program, "run"], input=text, capture_output=True, timeout=SECONDS)
        except (OSError, subprocess.TimeoutExpired) as fault:
            raise Fault(f"{self.program} run: {fault}") from fault
        replies = done.stdout.decode("ascii", "replace").splitlines()
        places = [f"line {number}: {shortened(line, 90)}" for number, line in self.lines] + [f"asked: {shortened(line, 90)}" for line in asked]
        for reply, place in zip(replies, places):
            if reply.startswith("refused "):
                raise Refused(reply, place)
        if done.returncode != 0 or len(replies) != len(places):
            raise Fault(f"{self.program} run ended with status {done.returncode}, and {len(replies)} of {len(places)} replies")
        return replies[len(self.lines) :]

    def definition(self, name):
        """The last line of the script that makes the type of that name."""
        made = re.compile(rf"(type|child|import|rebuild)[ \t]+{re.escape(name)}[ \t]+=[ \t]")
        return next((" ".join(line.split()) for _, line in reversed(self.lines) if made.match(line)), "a basic type")


def shortened(text, most):
    return text if len(text) <= most else text[: most - 3] + " .."


def facts_of(reply):
    """The numbers of a reply to `info`."""
    words = reply.split()[1:]
    return {key: int(value) for key, value in zip(words[::2], words[1::2]) if key != "committed"}


def entries_of(reply, origin):
    """The marks and the entries of a reply to `map`."""
    words = reply.split()
    if words[3] == "none":
        marks, rest = None, words[4:]
    else:
        marks, rest = (int(words[3]), int(words[4])), words[5:]
    pairs = [word.rpartition("@") for word in rest]
    return marks, [Entry(kind, int(at) + origin) for kind, _, at in pairs]


def digits(length, place):
    """The bytes of a buffer of that length, each one digit of its number to the base 256."""
    return bytes((at >> (8 * place)) & 255 for at in range(length)).hex() or "-"


def layout(asker, name, given):
    """Asks for everything that a picture of so many copies of a type shows."""
    came = Layout()
    came.name, came.count, came.origin = name, given.count, given.origin
    came.definition = shortened(asker.definition(name), 240)
    whole, copy = asker.name("whole") if given.count != 1 else name, asker.name("copy")
    made = [f"type {whole} = contiguous {given.count} {name}"] if given.count != 1 else []
    asked = [f"info {name}", f"info {whole}", f"map {whole}"]
    for number in range(1, min(given.count, COPIES)):
        asked += [f"type {copy} = indexed_block {name} 1 {number}", f"info {copy}", f"free {copy}"]
    replies = asker.answers(made + asked)[len(made) :]
    came.info, came.whole = facts_of(replies[0]), facts_of(replies[1])
    came.marks, came.entries = entries_of(replies[2], given.origin)
    copies = [came.info] + [facts_of(reply) for reply in replies[4::3]]
    came.copies = [(each["lb"] + given.origin, each["ub"] + given.origin) for each in copies][: max(given.count, 0)]
    if given.buffer:
        came.buffer = buffer_of(asker.answers([f"show {given.buffer}"])[0])
    kinds = list(dict.fromkeys(entry.kind for entry in came.entries))
    facts = [facts_of(reply) for reply in asker.answers([f"info {kind}" for kind in kinds])]
    for rep in given.reps:
        sizes = {kind: fact["size" if rep == "native" else "ext"] for kind, fact in zip(kinds, facts)}
        came.packed += (packed(asker, came, rep, sizes, given),)
    came.sizes = {kind: fact["size"] for kind, fact in zip(kinds, facts)}
    return came


def buffer_of(reply):
    """The bytes of a reply to `show`."""
    return bytes.fromhex(reply.split()[2].replace("-", ""))


def packed(asker, came, rep, sizes, given):
    """Asks for packed bytes: how many, where in memory each comes from, its value in the user's buffer, and what a piece sets."""
    total = came.whole["size" if rep == "native" else "ext"]
    low, span = came.whole["true_lb"], came.whole["true_ub"] - came.whole["true_lb"]
    sources = values = cut = None
    operation = f"{rep} {came.count} {came.name}"
    if total <= SHOWN and span <= SPAN:
        asked = []
        for place in (0, 1):
            asked += [f"buffer {asker.name(f'b{place}')} hex {digits(span, place)}"]
            asked += [f"bytes {operation} {asker.name(f'b{place}')} {-low}"]
        ones, mores = (buffer_of(reply) for reply in asker.answers(asked)[1::2])
        sources = [one + 256 * more + low + came.origin for one, more in zip(ones, mores)]
        if given.buffer:
            values = buffer_of(asker.answers([f"bytes {operation} {given.buffer} {came.origin}"])[0])
    if sum(sizes[entry.kind] for entry in came.entries) != total or (sources is not None and len(sources) != total):
        raise Fault(f"{came.name} has other packed bytes than its entries")
    if given.cut is not None:
        cut = piece(asker, came, operation, given.cut)
    return Packed(rep, total, sizes, sources, values, cut)


def piece(asker, came, operation, number):
    """Asks what a receiver has set behind the first bytes of all that come."""
    low, span = came.whole["true_lb"], came.whole["true_ub"] - came.whole["true_lb"]
    memory, session = asker.name("memory"), asker.name("session")
    asked = [f"commit {came.name}", f"buffer {memory} zero {span}", f"unpack {session} {operation} {memory} {-low}"]
    reply = asker.answers(asked + [f"give {session} {'ff' * number or '-'}"])[-1]
    words = reply.split()
    return Cut(number, int(words[1]), int(words[3]), reply)
