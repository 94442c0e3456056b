"""Damaged certificates: each front of one, and one line left out, put in or changed."""
import subprocess

from faults import SAMPLE_2, SAMPLE_3


def said(program, word, text):
    done = subprocess.run([program, word], input=text, capture_output=True, timeout=120)
    return done.stdout.decode("latin-1"), done.returncode


def without_line(text, line):
    return text.replace(line + b"\n", b"", 1)


# What is changed in the certificate of version 2, and what `check` then says.
CHANGED_2 = [
    (SAMPLE_2, "least 4"),
    (without_line(SAMPLE_2, b"low 0 1 1"), "not shown low 0 2"),
    (without_line(SAMPLE_2, b"low 1 2 1"), "not shown low 1 3"),
    (without_line(SAMPLE_2, b"low 2 3 1"), "least 4"),
    (without_line(SAMPLE_2, b"low 0 2 4"), "least 4"),
    (without_line(SAMPLE_2, b"low 1 3 4"), "least 4"),
    (without_line(SAMPLE_2, b"low 0 3 4"), "not shown root 0 4"),
    (SAMPLE_2.replace(b"low 0 2 4", b"low 0 2 5"), "not shown low 0 2"),
    (SAMPLE_2.replace(b"cost 4", b"cost 5"), "not shown cost 5 4"),
    (SAMPLE_2.replace(b"entry MPI_INT 16", b"entry MPI_INT 17"), "not shown map 2"),
    (without_line(SAMPLE_2, b"end"), "not shown syntax 16"),
    (SAMPLE_2[: SAMPLE_2.index(b"low")] + b"low 0 1 1\nlow 0 3 4\nend\n", "least 4"),
    (SAMPLE_2[: SAMPLE_2.index(b"low")] + b"low 0 3 4\nend\n", "not shown low 0 3"),
    (SAMPLE_2[: SAMPLE_2.index(b"low")] + b"end\n", "not shown root 0 4"),
    (SAMPLE_2.replace(b"dtcert 2", b"dtcert 1"), "not shown syntax 1"),
    (SAMPLE_2.replace(b"dtcert 2", b"dtcert 4"), "not shown syntax 1"),
    (SAMPLE_2 + b"\n", "not shown syntax 17"),
    (SAMPLE_2 + b"x", "not shown syntax 17"),
    (SAMPLE_2.replace(b"\n", b"\r\n"), "not shown syntax 1"),
]
CHANGED_3 = [
    (SAMPLE_3, "least 4"),
    (SAMPLE_3.replace(b"class 0 2 4", b"class 1 2 1\nclass 0 2 4"), "not shown syntax 11"),
    (SAMPLE_3.replace(b"class 0 2 4", b"class 0 2 5"), "not shown low 0 2"),
    (without_line(SAMPLE_3, b"class 0 1 1"), "not shown low 0 2"),
    (without_line(SAMPLE_3, b"class 0 2 4"), "least 4"),
    (without_line(SAMPLE_3, b"class 0 3 4"), "not shown root 0 4"),
]


def fronts(text):
    """Each front, but for the whole, with the number of the line that isn't whole or is missing."""
    for length in range(len(text)):
        yield text[:length], f"not shown syntax {text[:length].count(10) + 1}"


def compared(program, pairs):
    faults = []
    number = 0
    for text, wanted in pairs:
        number += 1
        came = said(program, "check", text)
        if came != (wanted + "\n", 0 if wanted.startswith("least") else 1):
            faults.append(f"{text!r}: {came} in place of {wanted}")
    return number, faults


def migrated(program):
    """What `migrate` makes of the samples."""
    faults = []
    tried = [
        (SAMPLE_2, (SAMPLE_3.decode(), 0)),
        (SAMPLE_3, (SAMPLE_3.decode(), 0)),
        (SAMPLE_2.replace(b"low 0 2 4", b"low 0 2 5"), ("not shown low 0 2\n", 1)),
        (b"dtcert 1", ("not shown syntax 1\n", 1)),
        (b"dtcert 1\n", ("not shown syntax 2\n", 1)),
        (SAMPLE_2.replace(b"dtcert 2", b"dtcert 1")[: SAMPLE_2.index(b"entry MPI_INT 16")], ("not shown syntax 6\n", 1)),
    ]
    for text, wanted in tried:
        came = said(program, "migrate", text)
        if came != wanted:
            faults.append(f"{text!r}: {came} in place of {wanted}")
    old = SAMPLE_2.replace(b"dtcert 2", b"dtcert 1")
    for text in (old, old[: old.index(b"base")], old.replace(b"cost 4", b"anything")):
        came, status = said(program, "migrate", text)
        again = said(program, "check", came.encode("latin-1"))
        if status != 0 or again != ("least 4\n", 0):
            faults.append(f"{text!r}: {came!r}, {status}, and of it {again}")
    return len(tried) + 3, faults


def rows(program, without):
    if "check" in without:
        return
    yield ("check", "each front of a certificate of version 2", *compared(program, fronts(SAMPLE_2)))
    yield ("check", "each front of a certificate of version 3", *compared(program, fronts(SAMPLE_3)))
    yield ("check", "lines left out, put in and changed", *compared(program, CHANGED_2 + CHANGED_3))
    if "migrate" not in without:
        yield ("migrate", "each version, whole and damaged", *migrated(program))
