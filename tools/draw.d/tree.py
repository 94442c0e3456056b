"""The least tree that `normalise` tells, with the cost of each node and the places that it stands for. These are asked for, too: a node is
made as a type by MPI's constructors, and where its copies lie is the typemap of a byte in place of each."""

import ask

NODES = 120  # a tree of more nodes is told, and not drawn


class Node:
    """A node: its words without those of its trees, the trees below it, and what the program says of it."""

    def __init__(self, words, parts):
        self.words, self.parts = words, parts
        self.cost = self.facts = None
        self.places = ()  # where its copies lie: the byte that its displacements are counted from
        self.depth = 0

    def made(self, olds):
        """The words of MPI's constructor of this node, over the old types of these names."""
        kind, *numbers = self.words
        if kind == "leaf":
            return f"dup {numbers[0]}"
        if kind == "vector":
            return f"hvector {' '.join(numbers)} {olds[0]}"
        if kind == "index":
            return f"hindexed_block {olds[0]} {' '.join(numbers[1:])}"
        return "struct " + " ".join(f"{block}@{at}@{old}" for (block, at), old in zip(self.pairs(), olds))

    def pairs(self):
        """The block length and the displacement of each part of a struct."""
        return list(zip(self.words[2::2], self.words[3::2]))

    def over(self, old, number):
        """The same with its part of that number alone."""
        if self.words[0] != "struct":
            return self.made([old])
        block, at = self.pairs()[number]
        return f"struct {block}@{at}@{old}"

    def label(self):
        """A short text of a node. The block lengths and displacements of a struct stand with its parts."""
        return " ".join(self.words[:2] if self.words[0] == "struct" else self.words)


def read(words, at, depth):
    """The tree whose text begins with the word of that number, and the number of the next word."""
    kind = words[at]
    if kind == "struct":
        count = int(words[at + 1])
        own, parts, at = ["struct", words[at + 1]], [], at + 2
        for _ in range(count):
            own += words[at : at + 2]
            part, at = read(words, at + 2, depth + 1)
            parts.append(part)
    else:
        end = at + {"leaf": 2, "vector": 4}.get(kind, 3)
        if kind == "index":
            end += int(words[at + 1])
        own, parts, at = words[at:end], [], end
        if kind != "leaf":
            part, at = read(words, at, depth + 1)
            parts.append(part)
    node = Node(own, parts)
    node.depth = depth
    return node, at


def all_nodes(node):
    """A node and all below it, from the top."""
    found = [node]
    for part in node.parts:
        found += all_nodes(part)
    return found


class Tree:
    """A least tree, from the top, with what `normalise` replied."""

    def __init__(self, cost, base, nodes):
        self.cost, self.base, self.nodes = cost, base, nodes


def ask_costs(asker, node, name, asked, told):
    """Lines that make a node as a type and ask for its facts and its cost; its own name is freed by the caller."""
    olds = []
    for number, part in enumerate(node.parts):
        olds.append(f"{name}{number}_" if len(name) < 24 else asker.name(f"n{len(asked)}"))
        ask_costs(asker, part, olds[-1], asked, told)
    asked += [f"type {name} = {node.made(olds)}", f"info {name}", f"normalise {name}"] + [f"free {old}" for old in olds]
    told.append((node, len(asked) - 2 - len(olds)))


def paths(node, above):
    """Each node with those above it and the numbers of their parts, the nearest first."""
    yield node, above
    for number, part in enumerate(node.parts):
        yield from paths(part, [(node, number)] + above)


def ask_places(asker, node, above):
    """Lines whose last but one asks where the copies of a node lie: each node above it places a byte of its extent."""
    pin, made = asker.name("pin"), asker.name("made")
    asked = [f"type {pin} = resized 0 {node.facts['extent']} MPI_BYTE"]
    for upper, number in above:
        asked += [f"type {made} = {upper.over(pin, number)}", f"free {pin}"]
        asked += [f"type {pin} = resized 0 {upper.facts['extent']} {made}", f"free {made}"]
    return asked + [f"map {pin}", f"free {pin}"]


def tree(asker, layout):
    """The least tree of a layout's entries."""
    whole = asker.name("whole") if layout.count != 1 else layout.name
    made = [f"type {whole} = contiguous {layout.count} {layout.name}"] if layout.count != 1 else []
    words = asker.answers(made + [f"normalise {whole}"])[-1].split()
    cost, base = int(words[2]), int(words[4])
    if words[5] == "empty":
        return Tree(cost, base, [])
    root, _ = read(words, 5, 0)
    nodes = all_nodes(root)
    if len(nodes) > NODES:
        raise ask.Fault(f"a tree of {len(nodes)} nodes isn't drawn: at most {NODES}")
    asked, told = [], []
    ask_costs(asker, root, asker.name("n"), asked, told)
    replies = asker.answers(asked)
    for node, at in told:
        node.facts, node.cost = ask.facts_of(replies[at]), int(replies[at + 1].split()[2])
    asked, told = [], []
    for node, above in paths(root, []):
        asked += ask_places(asker, node, above)
        told.append((node, len(asked) - 2))
    replies = asker.answers(asked)
    for node, at in told:
        node.places = [entry.at for entry in ask.entries_of(replies[at], base + layout.origin)[1]]
    check(layout, nodes, cost)
    return Tree(cost, base, nodes)


def check(layout, nodes, cost):
    """Whether the leaves stand at the entries, and the tree costs what was told."""
    stood = sorted((at, node.words[1]) for node in nodes if node.words[0] == "leaf" for at in node.places)
    if stood != sorted((entry.at, entry.kind) for entry in layout.entries) or nodes[0].cost != cost:
        raise ask.Fault(f"the tree of {layout.name} doesn't stand for its entries")
