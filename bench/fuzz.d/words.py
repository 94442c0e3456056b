"""The words of the program beside `run`: certificates written, damaged, checked and migrated, and the totals of generated scripts."""
import certificates
import lines
import machine
import script
from compare import Difference, run
from kinds import KINDS

MOST = 14  # entries of a certified type, since the model tries every tree
DAMAGED = 12  # texts that are made of each certificate


class Made:
    """A script and what comes of it."""

    def __init__(self, seed, length, without, slow):
        made = script.Script(seed, without, slow)
        made.mood = made.rng.choice(("trees", "plain", "shapes"))
        made.picks.room = made.one(4, 8, 12)
        made.text(length)
        self.rng = made.rng
        self.picks = made.picks
        self.lines = self.accepted(made.lines, without)
        self.without = without

    def accepted(self, said, without):
        """The lines that aren't refused, after the ones before them that aren't."""
        model = machine.Machine(machine.own_tree, without)
        return [line for line in said if not (model.line(lines.split(line)[0]) or "").startswith("refused")]


def state_after(program, text, without):
    """The machine behind a script, by the trees that the program told, and the first refusal or none."""
    told = machine.Told(0)
    model = machine.Machine(told, without)
    replies = iter(run(program, ["run"], text)[0].decode("ascii", "replace").split("\n"))
    first = None
    for line in lines.split(text):
        words = lines.words_of(line)
        told.reply = None if not words or words[0].startswith(b"#") else next(replies, None)
        reply = model.line(line)
        if first is None and reply is not None and reply.startswith("refused"):
            first = reply
    return model, first


def refusal_of(model, word):
    """What `normalise` of the name would be refused for."""
    try:
        model.want(types=[word])
        old, _ = model.find(word)
        machine.refuse(14, old.number > machine.MOST_NORMALISED)
    except machine.Refused as refused:
        return f"refused {refused.number} {machine.WORDS[refused.number]}"
    return None


def differs_in_certify(program, text, word, without):
    """The certificate of a type, if there is one, and why what came isn't right, or none."""
    came, status = run(program, ["certify", word], text)
    model, first = state_after(program, text, without)
    refusal = first or refusal_of(model, word)
    if refusal is not None:
        right = (came, status) == (f"{refusal}\n".encode(), 1)
        return None, None if right else Difference(None, f"certify {word}".encode(), f"{refusal}, status 1", f"{came}, {status}")
    old, _ = model.find(word)
    if status != 0:
        return None, Difference(None, f"certify {word}".encode(), "a certificate, status 0", f"{came}, {status}")
    if old.number > MOST:
        return None, None
    line, shown = certificates.verdict(came)
    if not shown or not came.startswith(b"dtcert 3\n"):
        return None, Difference(None, f"certify {word}".encode(), "a certificate that holds", f"{line} of {came}")
    found = certificates.read(came)
    if found.entries != old.entries or found.weights != model.weights:
        return None, Difference(None, f"certify {word}".encode(), "the type's entries and the last weights", str(came))
    return came, None


def differs_in_text(program, text):
    """Why what `check` or `migrate` says of a text isn't right, or none."""
    line, shown = certificates.verdict(text)
    came, status = run(program, ["check"], text)
    if (came, status) != (f"{line}\n".encode(), 0 if shown else 1):
        return Difference(None, b"check", f"{line}, status {0 if shown else 1}", f"{came}, {status}")
    came, status = run(program, ["migrate"], text)
    wanted = certificates.migration_fault(text, (came, status == 0)) if status in (0, 1) else "status 0 or 1"
    return Difference(None, b"migrate", wanted, f"{came}, {status}") if wanted else None


def in_version_2(text):
    """A certificate of version 3 as one of version 2, where each segment has its own value."""
    found = certificates.read(text)
    values = certificates.values_of_segments(found)
    head = text[: text.index(b"\nclass")] if b"\nclass" in text else text[: -len(b"end\n") - 1]
    rows = sorted(values, key=lambda segment: (segment[1] - segment[0], segment[0]))
    body = "".join(f"low {i} {j} {values[i, j]}\n" for i, j in rows)
    return head.replace(b"dtcert 3", b"dtcert 2") + b"\n" + body.encode() + b"end\n"


class Damage:
    """Changes of a text."""

    def __init__(self, rng):
        self.rng = rng

    def number(self, text):
        """One number of the text is another one."""
        rows = [row.split(b" ") for row in text.split(b"\n")]
        spots = [(at, k) for at, row in enumerate(rows) for k, word in enumerate(row) if word.lstrip(b"-").isdigit()]
        at, k = self.rng.choice(spots)
        value = int(rows[at][k])
        edge = self.rng.choice((0, 1, -1, 1024, 1 << 60, (1 << 60) + 1, 1 << 61, 1 << 63, (1 << 64) - 1, 1 << 64, 1_000_001))
        rows[at][k] = str(self.rng.choice((value + 1, value - 1, value + 1, value - 1, -value, edge))).encode()
        return b"\n".join(b" ".join(row) for row in rows)

    def value(self, text):
        """The value of a segment, the cost, the base or a displacement is another one, or a value is left out."""
        rows = text.split(b"\n")
        sort = self.rng.choice((b"class", b"low", b"class", b"low", b"cost", b"base", b"entry"))
        spots = [at for at, row in enumerate(rows) if row.startswith(sort + b" ")]
        if not spots:
            return text
        at = self.rng.choice(spots)
        if sort in (b"class", b"low") and self.rng.randrange(3) == 0:
            del rows[at]
        else:
            words = rows[at].split(b" ")
            words[-1] = str(int(words[-1]) + self.rng.choice((1, -1, 1, -1, 5))).encode()
            rows[at] = b" ".join(words)
        return b"\n".join(rows)

    def line(self, text):
        """A line is left out, said twice, or changes places with the next one."""
        rows = text.split(b"\n")
        at = self.rng.randrange(len(rows))
        change = self.rng.randrange(3)
        if change == 0:
            del rows[at]
        elif change == 1:
            rows.insert(at, rows[self.rng.randrange(len(rows))])
        elif at + 1 < len(rows):
            rows[at], rows[at + 1] = rows[at + 1], rows[at]
        return b"\n".join(rows)

    def byte(self, text):
        at = self.rng.randrange(len(text))
        new = bytes([self.rng.choice((32, 48, 10, 45, 101, self.rng.randrange(256)))])
        return text[:at] + self.rng.choice((b"", new, new)) + text[at + self.rng.randrange(2) :]

    def end(self, text):
        return self.rng.choice((text[: self.rng.randrange(len(text) + 1)], text + self.rng.choice((b"\n", b"end\n", b"x", b" "))))

    def version(self, text):
        return text[:7] + self.rng.choice((b"1", b"1", b"2", b"3", b"4", b"")) + text[8:]

    def __call__(self, text):
        often = (self.value, self.value, self.value, self.value, self.number, self.number, self.line, self.byte, self.end, self.version)
        try:
            return self.rng.choice(often)(text) or b"\n"
        except (ValueError, IndexError):
            return text  # an earlier change left nothing to change


def try_certificates(program, seed, length, without, slow):
    """Certificates of two types of a script, and texts made of them: how many texts were tried, and the first difference with its input."""
    made = Made(seed, length, without, slow)
    try:
        return try_certificates_of(program, made, without)
    except machine.Wrong as wrong:
        return 0, Difference(None, b"run", "a least tree, but " + str(wrong), "another"), b"".join(made.lines)


def try_certificates_of(program, made, without):
    rng = made.rng
    tried = 0
    for _ in range(2):
        text = b"".join(made.lines)
        if rng.randrange(8) == 0:
            text += rng.choice((b"type x = contiguous -1 MPI_INT\n", b"nonsense\n", b"show nobody\n"))
        small = [name for name, (old, _) in made.picks.machine.types.items() if old.number <= MOST]
        word = rng.choice(small) if small and rng.randrange(8) else made.picks.type_word(50)
        whole, difference = differs_in_certify(program, text, word, without)
        tried += 1
        if difference:
            return tried, difference, text
        if whole is None:
            continue
        for text in damaged(whole, rng):
            tried += 1
            difference = differs_in_text(program, text)
            if difference:
                return tried, difference, text
    return tried, None, None


def damaged(whole, rng):
    """A certificate in each version, and texts that are made of these by changes."""
    damage = Damage(rng)
    texts = [whole, in_version_2(whole), whole.replace(b"dtcert 3", b"dtcert 1")]
    yield from texts
    for _ in range(DAMAGED):
        text = rng.choice(texts)
        for _ in range(rng.choice((1, 1, 1, 2))):
            text = damage(text)
        yield text


class Draws:
    """Numbers drawn one after another from a first one."""

    def __init__(self, first):
        self.at = first

    def __call__(self, below):
        self.at = (self.at * 6364136223846793005 + 1442695040888963407) % (1 << 64)
        return (self.at >> 33) % below


def generated(number):
    """The large valid script of a number."""
    draw = Draws(number)
    rows = []
    for r in range(100):
        kind = KINDS[draw(23)]
        c, b = 2 + draw(6), 1 + draw(4)
        g = b + draw(4)
        m = 2 + draw(4)
        s = draw(3)
        one = ((c - 1) * g + b) * kind.size
        extent = one + 8 * s
        length = (m - 1) * extent + one
        total = m * c * b * kind.size
        rows += [
            f"type v{r} = vector {c} {b} {g} {kind.name}",
            f"type h{r} = hvector {m} 1 {extent} v{r}",
            f"commit h{r}",
            f"buffer b{r} count {length}",
            f"buffer z{r} zero {length}",
            f"pack p{r} native 1 h{r} b{r} 0",
            f"unpack u{r} native 1 h{r} z{r} 0",
        ]
        given = 0
        while given < total:
            t = 1 + draw(97)
            end = min(given + t, total)
            piece = bytes((7 * i + r) % 256 for i in range(given, end))
            rows += [f"take p{r} {t}", f"give u{r} {piece.hex()}"]
            given = end
        rows += [f"close p{r}", f"close u{r}", f"normalise h{r}"]
    places = [3 * i + draw(2) for i in range(1024)]
    rows += ["type big = indexed_block MPI_SHORT 1 " + " ".join(map(str, places)), "normalise big"]
    return "".join(row + "\n" for row in rows).encode()


def differs_in_totals(program, number):
    """Why the totals that are told of a generated script aren't those of its replies, or none."""
    text = generated(number)
    try:
        model, refusal = state_after(program, text, ())
    except machine.Wrong as wrong:
        return Difference(None, b"the generated script", f"a least tree, but {wrong}", "another")
    if refusal is not None:
        return Difference(None, b"the generated script", "no refusal", refusal)
    wanted = " ".join(["gen", str(number), *(f"{word} {total}" for word, total in model.totals.items())]) + "\n"
    came, status = run(program, ["gen", str(number)], b"")
    if (came, status) == (wanted.encode(), 0):
        return None
    return Difference(None, f"gen {number}".encode(), f"{wanted}, status 0", f"{came}, {status}")
