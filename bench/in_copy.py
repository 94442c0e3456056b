"""Proves, builds and runs a program in a copy of the repository, since no source file may stand outside crates/."""
import os
import shutil
import subprocess
import tempfile

TOP = os.path.dirname(os.path.dirname(os.path.realpath(__file__)))


def put(folder, path, text):
    """Writes a file of the program's crate."""
    whole = os.path.join(folder, path)
    os.makedirs(os.path.dirname(whole), exist_ok=True)
    with open(whole, "w") as file:
        file.write(text)


def make_copy(top, name, uses, files):
    """A copy of the repository with the crate in it."""
    crates = os.path.join(top, "crates")
    shutil.copytree(os.path.join(TOP, "crates"), crates, ignore=shutil.ignore_patterns("out"))
    shutil.copy(os.path.join(TOP, "HANDLES"), top)
    with open(os.path.join(TOP, "crates.txt")) as lines, open(os.path.join(top, "crates.txt"), "w") as copy:
        copy.write(lines.read() + f"{name}: {uses}\n")
    folder = os.path.join(crates, name)
    for path, text in files.items():
        put(folder, path, text)
    return folder


def run(name, uses, files):
    """Runs the program of a crate of these files, by their paths in it. Answers its exit status."""
    with tempfile.TemporaryDirectory() as top:
        return subprocess.run(["rt", "run"], cwd=make_copy(top, name, uses, files)).returncode


def built(top, name, uses, files):
    """The path of the program of a crate of these files, proved and built in a folder, and run once without words."""
    folder = make_copy(top, name, uses, files)
    subprocess.run(["rt", "run"], cwd=folder, stdout=subprocess.DEVNULL)
    program = os.path.join(folder, "out", name)
    if not os.path.exists(program):
        raise SystemExit(f"{name} isn't proved")
    return program
