"""Runs the program on an input in a file, and tells time, memory, and whether the replies are those that are wanted."""
import os
import subprocess
import tempfile

PIECE = 1 << 20
SECONDS = 900
TIME = "/usr/bin/time"  # a small process between, so that the memory is the program's and not this one's


class Bomb:
    """An input of a kind, made piece by piece, with the replies that it has."""

    def __init__(self, name, pieces, replies, status=0, words=("run",), needs=(), fault=None):
        """Pieces and replies are calls that give bytes piece by piece. Where replies are none, because several are right, `fault` says of
        the program and the file of what it wrote what is wrong, or none."""
        self.name, self.pieces, self.replies, self.status, self.fault = name, pieces, replies, status, fault
        self.words = list(words)
        self.needs = [*needs, *self.words[:1]]


class Measured:
    """What a run took: seconds by the clock and of the processor, and the peak of memory."""

    def __init__(self, size, written, seconds, processor, mebibytes, fault):
        self.size, self.written, self.fault = size, written, fault
        self.seconds, self.processor, self.mebibytes = seconds, processor, mebibytes


def repeated(piece, times):
    """A piece so many times, in greater pieces."""
    block = max(PIECE // max(len(piece), 1), 1)
    whole, rest = divmod(times, block)
    for _ in range(whole):
        yield piece * block
    yield piece * rest


def joined(pieces):
    """Pieces, with the small ones joined to greater ones."""
    held, length = [], 0
    for piece in pieces:
        held.append(piece)
        length += len(piece)
        if length >= PIECE:
            yield b"".join(held)
            held, length = [], 0
    yield b"".join(held)


def first_difference(path, pieces):
    """Where a file isn't the pieces one after another, or none."""
    at = 0
    with open(path, "rb") as file:
        for piece in joined(pieces):
            came = file.read(len(piece))
            if came != piece:
                k = next((k for k, (a, b) in enumerate(zip(came, piece)) if a != b), len(came))
                return f"at byte {at + k}: {came[k:k + 60]!r} in place of {piece[k:k + 60]!r}"
            at += len(piece)
        rest = file.read(60)
        return f"at byte {at}: {rest!r} after the end" if rest else None


def measured(program, bomb):
    with tempfile.TemporaryDirectory() as work:
        paths = {name: os.path.join(work, name) for name in ("input", "replies", "time")}
        with open(paths["input"], "wb") as file:
            for piece in joined(bomb.pieces()):
                file.write(piece)
        size = os.path.getsize(paths["input"])
        command = [TIME, "-f", "%e %U %S %M", "-o", paths["time"], program, *bomb.words]
        with open(paths["input"], "rb") as stdin, open(paths["replies"], "wb") as stdout:
            try:
                status = subprocess.run(command, stdin=stdin, stdout=stdout, stderr=subprocess.DEVNULL, timeout=SECONDS).returncode
            except subprocess.TimeoutExpired:
                return Measured(size, 0, SECONDS, 0, 0, f"no end after {SECONDS} seconds")
        with open(paths["time"]) as file:
            seconds, user, system, kibibytes = map(float, file.read().split("\n")[-2].split())
        fault = None if status == bomb.status else f"status {status} in place of {bomb.status}"
        if bomb.replies is not None:
            fault = fault or first_difference(paths["replies"], bomb.replies())
        if bomb.fault is not None:
            fault = fault or bomb.fault(program, paths["replies"])
        return Measured(size, os.path.getsize(paths["replies"]), seconds, user + system, kibibytes / 1024, fault)
