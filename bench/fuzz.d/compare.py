"""Runs a program on a script and compares each reply, and the exit status, with the plain definitions; shrinks a script that differs."""
import subprocess

import lines
import machine
from datatypes import Unlistable

SECONDS = 60
SEARCHED = 40  # entries up to which the least cost is searched for


class Difference:
    """Where a program first differs from the definitions."""

    def __init__(self, number, line, wanted, came, is_late=False):
        self.number, self.line, self.wanted, self.came, self.is_late = number, line, wanted, came, is_late

    def __str__(self):
        def cut(text):
            return text if len(text) <= 2_000 else f"{text[:2_000]}.. ({len(text)} characters)"

        return f"line {self.number or 'any'}: {cut(repr(self.line))}\n  wanted: {cut(self.wanted)}\n  came:   {cut(self.came)}"


def run(program, words, script):
    """What a program wrote, and its exit status, or none where it doesn't end in time."""
    try:
        done = subprocess.run([program, *words], input=script, capture_output=True, timeout=SECONDS)
    except subprocess.TimeoutExpired:
        return b"", None
    return done.stdout, done.returncode


class Tally:
    """What was compared."""

    def __init__(self):
        self.scripts = self.lines = self.replies = self.searched = 0
        self.refusals = {}
        self.accepted = {}

    def count(self, line, reply):
        self.replies += 1
        if reply.startswith("refused "):
            self.refusals[reply] = self.refusals.get(reply, 0) + 1
        else:
            words = lines.words_of(line)
            first = words[0].decode()
            if first == "type":
                first = words[3].decode()
            self.accepted[first] = self.accepted.get(first, 0) + 1


def compare(program, script, without=(), tally=None):
    """The first difference between the program's replies and the definitions', or None."""
    tally = tally or Tally()
    text, status = run(program, ["run"], script)
    told = machine.Told(SEARCHED)
    model = machine.Machine(told, without)
    replies = text.decode("ascii", "replace").split("\n")
    at = refused = 0
    tally.scripts += 1
    if status is None or status < 0:
        tally.lines += len(lines.split(script))
        came = f"none after {SECONDS} seconds" if status is None else f"signal {-status}"
        return Difference(None, b"(the whole script)", "an end of the program", came, status is None)
    for number, line in enumerate(lines.split(script), 1):
        tally.lines += 1
        came = told.reply = replies[at] if at < len(replies) - 1 else "(nothing)"
        try:
            wanted = model.line(line)
        except machine.Wrong as wrong:
            return Difference(number, line, f"a least tree, but {wrong}", came)
        if wanted is None:
            continue
        if came != wanted:
            return Difference(number, line, wanted, came)
        at += 1
        refused += wanted.startswith("refused ")
        tally.count(line, wanted)
    if at != len(replies) - 1 or replies[-1]:
        return Difference(number, b"(the end)", "no more replies", "\n".join(replies[at:]))
    if status != (1 if refused else 0):
        return Difference(number, b"(the end)", f"status {1 if refused else 0}", f"status {status}")
    return None


def shrunk(program, script, without, difference):
    """Fewer lines of the script over which there still is a difference, and that difference. A script that takes too long stays whole."""
    if difference.is_late:
        return [script], difference
    kept = script.splitlines(keepends=True) if b"\r" not in script else script.split(b"\n")
    if b"\r" in script:
        kept = [line + b"\n" for line in kept[:-1]] + ([kept[-1]] if kept[-1] else [])
    kept = kept[: difference.number]
    size = max(len(kept) // 2, 1)
    while True:
        at = 0
        while at < len(kept):
            fewer = kept[:at] + kept[at + size :]
            try:
                found = compare(program, b"".join(fewer), without) if fewer else None
            except Unlistable:
                found = None
            if found:
                kept, difference = fewer[: found.number], found
            else:
                at += size
        if size == 1:
            return kept, difference
        size //= 2
