"""Reads and writes of the system that fail, one after another, for each word of the program."""
import os
import resource
import signal
import socket
import subprocess
import tempfile

PIECES = """type v = vector 2 1 2 MPI_INT
commit v
buffer b count 16
pack p native 1 v b 0
take p 3
take p 3
take p 3
take p 3
close p
""".encode()
REPLIES = b"ok\nok\nok\nok 8\nbytes 3 000102\nbytes 3 030809\nbytes 2 0a0b\nbytes 0 -\nclosed bytes 8 of 8\n"
# What the sample's type has as certificate, in either version.
SAMPLE_2 = """dtcert 2
weights 1 3 2 1 2 2
map 3
entry MPI_INT 0
entry MPI_INT 8
entry MPI_INT 16
base 0
tree vector 3 1 8 leaf MPI_INT
cost 4
low 0 1 1
low 1 2 1
low 2 3 1
low 0 2 4
low 1 3 4
low 0 3 4
end
""".encode()
SAMPLE_3 = SAMPLE_2[: SAMPLE_2.index(b"low")].replace(b"dtcert 2", b"dtcert 3") + b"class 0 1 1\nclass 0 2 4\nclass 0 3 4\nend\n"
# The words, what they are given, and whether they read it.
WORDS = {
    "run": (["run"], PIECES, True),
    "certify": (["certify", "v"], PIECES, True),
    "check": (["check"], SAMPLE_2, True),
    "migrate": (["migrate"], SAMPLE_2, True),
    "gen": (["gen", "1"], b"", False),
}
SECONDS = 120
READ_FAULT, WRITE_FAULT, USAGE = 3, 4, 2


def outcome(command, **how):
    """The exit status and what was written."""
    done = subprocess.run(command, capture_output="stdout" not in how, timeout=SECONDS, **how)
    return done.returncode, done.stdout or b""


def whole(program, words, given):
    return outcome([program, *words], input=given)


def reset_after(given, number, size):
    """A socket that gives so many pieces, one a read, and then fails."""
    ours, theirs = socket.socketpair(socket.AF_UNIX, socket.SOCK_SEQPACKET)
    theirs.send(b"unread")  # what the other end never reads makes its closing a reset
    for k in range(number):
        ours.send(given[k * size : (k + 1) * size])
    ours.close()
    return theirs


def failing_reads(program, words, given, size=16):
    """Each read fails in turn, of a source of pieces. Answers how many were tried, and the faults."""
    faults = []
    pieces = -(-len(given) // size)
    for number in range(pieces + 1):
        with reset_after(given, number, size) as source:
            came = outcome([program, *words], stdin=source)
        if came != (READ_FAULT, b""):
            faults.append(f"read {number} fails: {came}")
    return pieces + 1, faults


def unreadable(program, words):
    """Inputs that can't be read at all: closed, a folder, and open for writing alone."""
    faults = []
    folder = os.open("/", os.O_RDONLY)
    writing = os.open(os.devnull, os.O_WRONLY)
    for name, how in (
        ("closed", {"preexec_fn": lambda: os.close(0)}),
        ("a folder", {"stdin": folder}),
        ("for writing alone", {"stdin": writing}),
    ):
        came = outcome([program, *words], **how)
        if came != (READ_FAULT, b""):
            faults.append(f"input {name}: {came}")
    os.close(folder)
    os.close(writing)
    return 3, faults


def limited(room):
    """Files have room for so many bytes; a write past that fails."""

    def prepare():
        signal.signal(signal.SIGXFSZ, signal.SIG_IGN)
        resource.setrlimit(resource.RLIMIT_FSIZE, (room, room))

    return prepare


def failing_writes(program, words, given, wanted, rooms):
    """The output has room for so many bytes: for each the status, and that a front of the answer was written."""
    faults = []
    with tempfile.TemporaryDirectory() as work:
        path = os.path.join(work, "output")
        for room in rooms:
            with open(path, "wb") as file:
                status, _ = outcome([program, *words], input=given, stdout=file, preexec_fn=limited(room))
            with open(path, "rb") as file:
                held = file.read()
            if status != WRITE_FAULT or held != wanted[:room]:
                faults.append(f"room for {room} bytes: status {status}, {held!r}")
    return len(rooms), faults


def unwritable(program, words, given):
    """Outputs that can't be written at all: closed, a full disk, for reading alone, and a pipe that no one reads."""
    faults = []
    full = os.open("/dev/full", os.O_WRONLY)
    reading = os.open(os.devnull, os.O_RDONLY)
    unread, pipe = os.pipe()
    os.close(unread)
    for name, how in (
        ("closed", {"stdout": None, "preexec_fn": lambda: os.close(1)}),
        ("a full disk", {"stdout": full}),
        ("for reading alone", {"stdout": reading}),
        ("a pipe that no one reads", {"stdout": pipe}),
    ):
        status, _ = outcome([program, *words], input=given, **how)
        if status != WRITE_FAULT:
            faults.append(f"output {name}: status {status}")
    for it in (full, reading, pipe):
        os.close(it)
    return 4, faults


def closing_pipe(program, words, given, wanted):
    """A reader that takes one write and goes away: the answers of a run are written one by one."""
    ours, theirs = socket.socketpair(socket.AF_UNIX, socket.SOCK_SEQPACKET)
    faults = []
    with ours, theirs:
        long_input = given * 20_000
        child = subprocess.Popen([program, *words], stdin=subprocess.PIPE, stdout=theirs, stderr=subprocess.DEVNULL)
        theirs.close()
        child.stdin.write(long_input)
        child.stdin.close()
        first = ours.recv(1 << 16)
        ours.close()
        status = child.wait(SECONDS)
    if status != WRITE_FAULT or not wanted.startswith(first):
        faults.append(f"a reader that goes away: status {status}, first {first!r}")
    return 1, faults


def wrong_words(program, words):
    """Words that are none of the forms: nothing is read, so an input that fails doesn't matter, and nothing is written."""
    faults = []
    wrong = [[], ["run", "x"], ["Run"], [""], ["check", "x"], ["migrate", "x"], ["certify"], ["certify", "1a"], ["certify", "a", "b"]]
    wrong += [["certify", "a" * 33], ["certify", "a-b"], ["gen"], ["gen", "-1"], ["gen", "01"], ["gen", "4294967296"], ["gen", "1", "2"]]
    wrong += [["gen", ""], ["gen", "+1"], ["help"], ["run", "run"], [b"\xff"]]
    for words in wrong:
        came = outcome([program, *words], preexec_fn=lambda: os.close(0))
        if came != (USAGE, b""):
            faults.append(f"words {words}: {came}")
    return len(wrong), faults


def rows(program, without):
    """What was tried, how often, and what was wrong."""
    yield ("any", "wrong words", *wrong_words(program, []))
    for word, (words, given, reads) in WORDS.items():
        if word in without:
            continue
        status, wanted = whole(program, words, given)
        yield (word, "nothing fails", 1, [] if status == 0 else [f"status {status}"])
        if reads:
            yield (word, "each read fails in turn", *failing_reads(program, words, given))
            yield (word, "input that can't be read", *unreadable(program, words))
        else:
            came = outcome([program, *words], preexec_fn=lambda: os.close(0))
            yield (word, "input that can't be read", 1, [] if came == (0, wanted) else [f"{came}"])
        rooms = range(len(wanted))
        yield (word, "each byte of the output is one too many", *failing_writes(program, words, given, wanted, rooms))
        yield (word, "output that can't be written", *unwritable(program, words, given))
    if whole(program, ["run"], PIECES)[1] != REPLIES:
        yield ("run", "the replies are those that are told here", 1, ["they aren't"])
    yield ("run", "a reader that goes away", *closing_pipe(program, ["run"], PIECES, REPLIES))
