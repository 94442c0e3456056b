"""What a script's lines reply, by the plain definitions: the state, and one method for each command.

A condition of refusal is raised by its number. Where several hold the least one is told, so each command asks them in the order of
their numbers; what needs a thing that is missing isn't asked.
"""
import datatypes
import lines
import sessions
import tables
import trees
import wire
from datatypes import Refused
from kinds import JOINS, LEFT_OUT, WRITTEN, word_of

WORDS = {
    1: "syntax",
    2: "unknown name",
    3: "name taken",
    4: "unsupported kind",
    5: "not committed",
    6: "basic type",
    7: "named type",
    8: "no such child",
    9: "bad argument",
    10: "overflow",
    11: "too deep",
    12: "too heavy",
    13: "too many names",
    14: "too many entries",
    15: "outside",
    16: "overlap",
    17: "too large",
    18: "wrong direction",
    19: "truncated",
    20: "signature differs",
    21: "same buffer",
    22: "bad wire",
}
MOST_TYPES, MOST_BUFFERS, MOST_SESSIONS = 1_024, 256, 256
MOST_BYTES, MOST_BYTES_TOGETHER = 1 << 24, 1 << 26
MOST_MAPPED, MOST_NORMALISED, MOST_RANKS = 4_096, 1_024, 1_024
HEAVIEST = 1_000_000


class Wrong(Exception):
    """A told tree that isn't what it has to be."""


def refuse(number, holds):
    if holds:
        raise Refused(number)


def hexadecimal(data):
    return bytes(data).hex() if data else "-"


def undefined_or(number):
    return "undefined" if number is None else str(number)


class Machine:
    """The state of a script. `tree_for` answers a told base and tree for a type, and may raise Wrong."""

    def __init__(self, tree_for, without=()):
        self.types = {}  # name to type and whether it is committed
        self.buffers = {}
        self.sessions = {}
        self.weights = (1, 3, 2, 1, 2, 2)
        self.totals = dict.fromkeys(("commands", "taken", "given", "elements", "cost"), 0)
        self.tree_for = tree_for
        self.without = without

    def line(self, line):
        """The reply to a line, without its end, or None of a line without one."""
        try:
            command = lines.parse(line, self.without)
        except lines.Fault:
            return "refused 1 syntax"
        if command is None:
            return None
        try:
            reply = getattr(self, "do_" + command[0])(*command[1:])
        except Refused as refused:
            return f"refused {refused.number} {WORDS[refused.number]}"
        self.totals["commands"] += 1
        return reply

    # What names stand for

    def is_unknown(self, word):
        """A type word that stands for nothing, and names no kind that is left out."""
        if word.startswith("MPI_"):
            return word not in WRITTEN and word not in LEFT_OUT
        return word not in self.types

    def find(self, *words):
        """The types of words, of which none is unknown, and whether each is committed."""
        refuse(4, any(word in LEFT_OUT for word in words))
        found = [(datatypes.named(WRITTEN[word]), True) if word in WRITTEN else self.types[word] for word in words]
        return found[0] if len(words) == 1 else found

    def want(self, types=(), buffers=(), session=None):
        """That all names that are used stand."""
        refuse(2, any(self.is_unknown(word) for word in types))
        refuse(2, any(word not in self.buffers for word in buffers))
        refuse(2, session is not None and session not in self.sessions)

    def want_new_type(self, name):
        refuse(3, name in self.types or name.startswith("MPI_"))

    def want_room_for_type(self):
        refuse(13, len(self.types) >= MOST_TYPES)

    def add(self, name, made, committed=False):
        self.types[name] = (made, committed or made.is_basic)
        return "ok"

    # Types

    def do_type(self, name, constructor, values):
        words = old_words(constructor, values)
        self.want(types=words)
        self.want_new_type(name)
        refuse(4, any(word in LEFT_OUT for word in words))
        made = make(constructor, values, lambda word: self.find(word)[0])
        self.want_room_for_type()
        return self.add(name, made, constructor == "dup" and self.find(words[0])[1])

    def do_child(self, name, word, k):
        self.want(types=[word])
        self.want_new_type(name)
        old, _ = self.find(word)
        refuse(7, old.is_basic)
        refuse(8, not 0 <= k < len(old.olds))
        self.want_room_for_type()
        return self.add(name, old.olds[k])

    def do_rebuild(self, name, word):
        self.want(types=[word])
        self.want_new_type(name)
        old, _ = self.find(word)
        refuse(10, old.true_ub - old.true_lb > 1 << 59 or old.natural_ub > 1 << 60)
        self.want_room_for_type()
        reply, base, node, _ = self.least(old)
        try:
            made = trees.built(base, node, old.marks)
        except Refused as refused:
            raise Wrong(f"a constructor of the told tree refuses: {refused.number}") from refused
        assert made.entries == old.entries and made.marks == old.marks
        self.add(name, made)
        return reply

    def do_normalise(self, word):
        self.want(types=[word])
        old, _ = self.find(word)
        reply, _, _, cost = self.least(old)
        self.totals["cost"] += cost
        return reply

    def least(self, old):
        """The reply that tells a least tree, and its base, tree and cost."""
        refuse(14, old.number > MOST_NORMALISED)
        if old.number == 0:
            return "tree cost 0 base 0 empty", 0, None, 0
        base, node = self.tree_for(old, self.weights)
        cost = trees.cost(node, self.weights)
        return f"tree cost {cost} base {base} {trees.text_of(node)}", base, node, cost

    def do_commit(self, word):
        self.want(types=[word])
        old, _ = self.find(word)
        if not old.is_basic:
            self.types[word] = (old, True)
        return "ok"

    def do_free(self, word):
        self.want(types=[word])
        old, _ = self.find(word)
        refuse(6, old.is_basic)
        del self.types[word]
        return "ok"

    def do_info(self, word):
        self.want(types=[word])
        old, committed = self.find(word)
        return (
            f"info size {old.size} ext {old.ext_size} elements {old.number} align {old.align} lb {old.lb} ub {old.ub}"
            f" extent {old.extent} true_lb {old.true_lb} true_ub {old.true_ub} committed {'yes' if committed else 'no'}"
        )

    def do_map(self, word):
        self.want(types=[word])
        old, _ = self.find(word)
        refuse(14, old.number > MOST_MAPPED)
        marks = f"{old.marks[0]} {old.marks[1]}" if old.marks else "none"
        return " ".join([f"map {old.number} marks {marks}", *(f"{kind.name}@{disp}" for kind, disp in old.listed())])

    def do_envelope(self, word):
        self.want(types=[word])
        old, _ = self.find(word)
        integers, addresses = datatypes.contents(old)
        return f"envelope {old.combiner} integers {len(integers)} addresses {len(addresses)} types {len(old.olds)}"

    def do_contents(self, word):
        self.want(types=[word])
        old, _ = self.find(word)
        refuse(7, old.is_basic)
        integers, addresses = datatypes.contents(old)
        olds = [it.arguments.name if it.is_basic else f"<{it.combiner}>" for it in old.olds]
        counted = (("integers", integers), ("addresses", addresses), ("types", olds))
        return " ".join(["contents", *(str(word) for what, items in counted for word in (what, len(items), *items))])

    def do_export(self, word):
        self.want(types=[word])
        old, _ = self.find(word)
        text = wire.export(old)
        return f"wire {len(text)} {hexadecimal(text)}"

    def do_import(self, name, text):
        self.want_new_type(name)
        try:
            call = wire.reader_of(text)
        except wire.BadWire:
            call = None
        made = call() if call else None
        self.want_room_for_type()
        refuse(22, made is None)
        return self.add(name, made)

    # Buffers

    def do_buffer(self, name, fill, value):
        refuse(3, name in self.buffers)
        length = len(value) if fill == "hex" else value
        refuse(9, length < 0)
        refuse(13, len(self.buffers) >= MOST_BUFFERS)
        together = sum(len(buffer) for buffer in self.buffers.values())
        refuse(17, length > MOST_BYTES or together + length > MOST_BYTES_TOGETHER)
        if fill == "hex":
            self.buffers[name] = bytearray(value)
        elif fill == "zero":
            self.buffers[name] = bytearray(length)
        else:
            self.buffers[name] = bytearray(bytes(range(256)) * (length // 256 + 1))[:length]
        return "ok"

    def do_show(self, name):
        self.want(buffers=[name])
        return f"show {len(self.buffers[name])} {hexadecimal(self.buffers[name])}"

    def do_bytes(self, rep, count, word, name, origin):
        self.want(types=[word], buffers=[name])
        old, _ = self.find(word)
        refuse(9, count < 0)
        buffer = self.buffers[name]
        refuse(15, not sessions.span_inside(old, count, origin, len(buffer)))
        total = count * old.packed_size(rep)
        refuse(17, total > MOST_BYTES)
        data = sessions.packed(rep, sessions.elements_of(old, count, origin), buffer)
        return f"bytes {len(data)} {hexadecimal(data)}"

    # Sessions

    def open(self, is_packing, session, rep, count, word, name, origin):
        self.want(types=[word], buffers=[name])
        refuse(3, session in self.sessions)
        old, committed = self.find(word)
        refuse(5, not committed)
        refuse(9, count < 0)
        refuse(13, len(self.sessions) >= MOST_SESSIONS)
        length = len(self.buffers[name])
        refuse(15, not sessions.span_inside(old, count, origin, length))
        refuse(16, not is_packing and sessions.overlap(old, count, origin, length))
        total = count * old.packed_size(rep)
        refuse(17, total + sum(it.total for it in self.sessions.values()) > MOST_BYTES)
        elements = sessions.elements_of(old, count, origin)
        if is_packing:
            self.sessions[session] = sessions.Pack(rep, elements, name, total)
        else:
            self.sessions[session] = sessions.Unpack(rep, elements, name, total, old.packed_size(rep))
        return f"ok {total}"

    def do_pack(self, *words):
        return self.open(True, *words)

    def do_unpack(self, *words):
        return self.open(False, *words)

    def do_take(self, name, most):
        self.want(session=name)
        session = self.sessions[name]
        refuse(9, most < 0)
        refuse(18, isinstance(session, sessions.Unpack))
        data = session.take(self.buffers, most)
        self.totals["taken"] += len(data)
        return f"bytes {len(data)} {hexadecimal(data)}"

    def do_seek(self, name, byte):
        self.want(session=name)
        session = self.sessions[name]
        refuse(9, not 0 <= byte <= session.total)
        refuse(18, isinstance(session, sessions.Unpack))
        session.passed = byte
        return "ok"

    def do_give(self, name, piece):
        self.want(session=name)
        session = self.sessions[name]
        refuse(18, isinstance(session, sessions.Pack))
        refuse(19, session.passed + len(piece) > session.total)
        new = session.give(self.buffers, piece)
        self.totals["given"] += len(piece)
        self.totals["elements"] += new
        number, elements, copies = session.counts()
        return f"given {new} held {len(session.held)} bytes {number} elements {elements} copies {undefined_or(copies)}"

    def do_close(self, name):
        self.want(session=name)
        session = self.sessions.pop(name)
        return f"closed bytes {session.passed} of {session.total}"

    def do_elements(self, rep, number, word):
        self.want(types=[word])
        old, _ = self.find(word)
        refuse(9, number < 0)
        copies = sessions.whole_copies(old.packed_size(rep), number)
        return f"elements {sessions.whole_elements(old, rep, number)} copies {undefined_or(copies)}"

    def do_weights(self, *weights):
        refuse(9, any(not 0 <= weight <= HEAVIEST for weight in weights))
        self.weights = weights
        return "ok"

    # Copies and reductions

    def do_copy(self, count, word, name, origin, target_count, target_word, target, target_origin):
        self.want(types=[word, target_word], buffers=[name, target])
        (old, committed), (new, target_committed) = self.find(word, target_word)
        refuse(5, not (committed and target_committed))
        refuse(9, count < 0 or target_count < 0)
        source, into = self.buffers[name], self.buffers[target]
        refuse(15, not sessions.span_inside(old, count, origin, len(source)))
        refuse(15, not sessions.span_inside(new, target_count, target_origin, len(into)))
        refuse(16, sessions.overlap(new, target_count, target_origin, len(into)))
        refuse(19, old.number * count > new.number * target_count)
        given = sessions.elements_of(old, count, origin)
        taken = sessions.elements_of(new, target_count, target_origin)
        refuse(20, any(a is not b for (a, _), (b, _) in zip(given, taken)))
        refuse(21, name == target)
        for (kind, at), (_, to) in zip(given, taken):
            into[to : to + kind.size] = source[at : at + kind.size]
        return f"copied {len(given)} bytes {sum(kind.size for kind, _ in given)}"

    def do_reduce(self, operation, count, word, name, origin, target, target_origin):
        self.want(types=[word], buffers=[name, target])
        old, committed = self.find(word)
        refuse(5, not committed)
        refuse(9, count < 0)
        source, into = self.buffers[name], self.buffers[target]
        refuse(15, not sessions.span_inside(old, count, origin, len(source)))
        refuse(15, not sessions.span_inside(old, count, target_origin, len(into)))
        refuse(16, sessions.overlap(old, count, target_origin, len(into)))
        refuse(21, name == target)
        given = sessions.elements_of(old, count, origin)
        taken = sessions.elements_of(old, count, target_origin)
        self.join_into(operation, into, taken, [words(source, given), words(into, taken)])
        return f"reduced {len(taken)}"

    def do_reduceall(self, operation, _how, count, word, origin, target, first, others):
        ranks = [first, *others]
        self.want(types=[word], buffers=[target, *ranks])
        old, committed = self.find(word)
        refuse(5, not committed)
        refuse(9, count < 0)
        for name in (target, *ranks):
            refuse(15, not sessions.span_inside(old, count, origin, len(self.buffers[name])))
        refuse(16, sessions.overlap(old, count, origin, len(self.buffers[target])))
        refuse(17, len(ranks) > MOST_RANKS or old.size * count * len(ranks) > MOST_BYTES)
        elements = sessions.elements_of(old, count, origin)
        rows = [words(self.buffers[name], elements) for name in ranks]
        self.join_into(operation, self.buffers[target], elements, rows)
        return f"reduced {len(elements)} ranks {len(ranks)}"

    def join_into(self, operation, into, elements, rows):
        """Sets each element to the words of its column, joined from left to right."""
        join = JOINS[operation]
        for k, (kind, at) in enumerate(elements):
            value = rows[0][k]
            for row in rows[1:]:
                value = join(kind, value, row[k])
            into[at : at + kind.size] = value.to_bytes(kind.size, "little")


def words(buffer, elements):
    return [word_of(buffer[at : at + kind.size]) for kind, at in elements]


OLD_WORD = {"indexed": 0, "hindexed": 0, "indexed_block": 0, "hindexed_block": 0, "subarray": 1, "darray": 3}


def old_words(constructor, values):
    """The words that name old types, in their order."""
    if constructor == "struct":
        return [old for _, _, old in values[0]]
    return [values[OLD_WORD.get(constructor, -1)]]


def make(constructor, values, find):
    """What a constructor gives, or its refusal."""
    if constructor == "struct":
        return datatypes.structure([(length, disp, find(old)) for length, disp, old in values[0]])
    if constructor in ("indexed", "hindexed"):
        return getattr(datatypes, constructor)(values[1], find(values[0]))
    if constructor in ("indexed_block", "hindexed_block"):
        return getattr(datatypes, constructor)(values[1], values[2], find(values[0]))
    if constructor == "subarray":
        return datatypes.subarray(values[0], values[2], find(values[1]))
    if constructor == "darray":
        size, rank, order, old, dims = values
        return datatypes.darray(size, rank, order, dims, find(old))
    return getattr(datatypes, constructor)(*values[:-1], find(values[-1]))


def own_tree(old, weights):
    """A tree of the type's entries, whatever it costs, for a script that is still being made."""
    entries = old.listed()
    base = entries[0][1]
    moved = trees.shifted(entries, -base)
    if len(moved) == 1:
        return base, ("leaf", moved[0][0])
    if len({kind for kind, _ in moved}) == 1:
        return base, ("index", 1, [disp for _, disp in moved], ("leaf", moved[0][0]))
    return base, ("struct", [(1, disp, ("leaf", kind)) for kind, disp in moved])


class Told:
    """The tree that a program told, tested: it is tidy, places the entries from the first one on, and none costs less."""

    def __init__(self, searched):
        self.reply = None
        self.searched = searched  # up to so many entries the least cost is searched for

    def __call__(self, old, weights):
        words = (self.reply or "").split(" ", 5)
        if len(words) != 6 or words[:2] != ["tree", "cost"] or words[3] != "base":
            raise Wrong("no tree was told")
        try:
            node = trees.read(words[5])
        except trees.BadText:
            raise Wrong("the told text is that of no tree") from None
        entries = old.listed()
        base = entries[0][1]
        if trees.elements(node) != len(entries) or trees.shifted(trees.flat(node), base) != entries:
            raise Wrong(f"the told tree doesn't place the entries from {base} on")
        if not trees.is_tidy(node):
            raise Wrong("the told tree isn't tidy")
        cost = trees.cost(node, weights)
        if len(entries) <= self.searched and cost != tables.least_cost(entries, weights):
            raise Wrong(f"a tree costs {tables.least_cost(entries, weights)}")
        if cost > trees.cost(own_tree(old, weights)[1], weights):
            raise Wrong("a plain index or struct of leaves costs less")
        return base, node
