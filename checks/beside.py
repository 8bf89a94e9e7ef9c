"""What the checks of this folder share: our program and SCons over copies of one tree, and the trials that `rt ci` runs.

SCons takes gcc and g++ where they stand, and this tool cc and c++, which are the same programs: in SCons's lines they are written so.
"""
import argparse
import os
import re
import shutil
import signal
import subprocess
import sys
import tempfile

TOP = os.path.dirname(os.path.dirname(os.path.realpath(__file__)))
TRIALS = f"{TOP}/crates/build_trials"
OURS = f"{TOP}/built/scons"


class Failed(Exception):
    """What was found isn't what has to be."""


def arguments(about):
    """The arguments that every check takes."""
    given = argparse.ArgumentParser(description=about)
    given.add_argument("--ours", default=OURS, help="the program to check; without it built/scons, which ./build makes")
    given.add_argument("--scons", default=shutil.which("scons"), help="SCons 4; without it the one on PATH")
    return given


def programs(given):
    """The programs to run by name: ours, and SCons where there is one."""
    if not os.access(given.ours, os.X_OK):
        sys.exit(f"{given.ours} is no program: make it by ./build, or name one by --ours")
    found = {"ours": os.path.realpath(given.ours)}
    if given.scons and os.path.realpath(given.scons) != found["ours"]:
        found["SCons"] = given.scons
    else:
        print("SCons isn't here, so nothing is compared with it")
    return found


def run(program, words, tree):
    """Runs a program in a tree, and gives its status, what it wrote on both streams, and the same without lines on progress."""
    done = subprocess.run([program, *words], cwd=tree, stdin=subprocess.DEVNULL, stdout=subprocess.PIPE,
                          stderr=subprocess.STDOUT, text=True, timeout=120)
    return done.returncode, as_cc(done.stdout)


def as_cc(text):
    return re.sub(r"(?m)^g\+\+ ", "c++ ", re.sub(r"(?m)^gcc ", "cc ", text))


def commands(text):
    """The lines of a run but those that a tool says of itself."""
    return [line for line in text.splitlines() if not line.startswith("scons: ")]


def same(found, wanted, what):
    if found != wanted:
        raise Failed(f"{what}\n  found:  {found!r}\n  wanted: {wanted!r}")


def put(tree, files):
    """Writes files into a tree."""
    for name, text in files.items():
        path = os.path.join(tree, name)
        os.makedirs(os.path.dirname(path) or ".", exist_ok=True)
        with open(path, "w") as file:
            file.write(text)


def files_of(tree):
    """The bytes of each file of a tree but those that a tool keeps of its own."""
    found = {}
    for at, _, names in os.walk(tree):
        for name in names:
            if not name.startswith(".sconsign"):
                path = os.path.join(at, name)
                with open(path, "rb") as file:
                    found[os.path.relpath(path, tree)] = file.read()
    return found


class Place:
    """A folder in which trees stand one after another at one path, so that both tools see the same absolute paths."""

    def __enter__(self):
        # (so that nothing is left where the check is ended)
        for ending in (signal.SIGTERM, signal.SIGHUP):
            signal.signal(ending, lambda *_: sys.exit("ended"))
        self.room = tempfile.TemporaryDirectory(prefix="scons-check-")
        self.tree = f"{self.room.name}/tree"
        return self

    def __exit__(self, *_):
        self.room.cleanup()

    def new(self):
        shutil.rmtree(self.tree, ignore_errors=True)
        os.mkdir(self.tree)
        return self.tree


def told(words, output, status, started):
    """How the trials write a run: its words, what it printed, what it reported."""
    faults = [line for line in output.splitlines() if line.startswith("scons: *** ")]
    lines = [f"! {line}" if line in faults else line for line in output.splitlines()]
    last = f"status {status}, {len(faults)} faults, started:{''.join(f' {it}' for it in started)}"
    return "\n".join([f"$ scons {words}", *lines, last, ""])


def file_step(name, text):
    """A file as the trials put one."""
    if any(line.startswith(("-- ", "== ")) for line in text.splitlines()):
        raise Failed(f"{name} has a line that a trial would take for its own")
    return f"-- file {name}\n{text if text.endswith(chr(10)) or not text else text + chr(10)}"


def trials_of(text):
    """The trials of a text, each with its first line."""
    return [it for it in re.split(r"(?m)^(?=== )", text) if it]


def look_at_trials(trials, kinds, write):
    """Compares the trials of build_trials whose names begin with one of these kinds with those that there have to be, or writes these."""
    for name, wanted in zip(("stdin", "stdout"), zip(*trials)):
        with open(f"{TRIALS}/{name}") as file:
            there = trials_of(file.read())
        found = [it for it in there if it.startswith(tuple(f"== {kind}" for kind in kinds))]
        if write:
            first = there.index(found[0]) if found else len(there)
            rest = [it for it in there if it not in found]
            with open(f"{TRIALS}/{name}", "w") as file:
                file.write("".join([*rest[:first], *wanted, *rest[first:]]))
        else:
            for one, other in zip(found, wanted):
                same(one, other, f"crates/build_trials/{name} has another trial: write it anew by --write")
            same(len(found), len(wanted), f"crates/build_trials/{name}: trials: write them anew by --write")
