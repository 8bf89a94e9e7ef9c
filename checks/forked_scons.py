"""SCons with its modules loaded once: each run is a fork of this process, so that thousands of runs take minutes.

A run does what `scons WORDS` does in a folder.
"""
import atexit
import glob
import importlib
import os
import subprocess
import sys

from beside import as_cc


class Run:
    """What a run came to: its status and the texts of both streams."""

    def __init__(self, status, out, err):
        self.status, self.out, self.err = status, as_cc(out), as_cc(err)


def by_program(program, words, tree, env=None):
    """Runs a program in a tree."""
    done = subprocess.run([program, *words], cwd=tree, env=env, stdin=subprocess.DEVNULL, stdout=subprocess.PIPE,
                          stderr=subprocess.PIPE, text=True, errors="replace", timeout=120)
    return Run(done.returncode, done.stdout, done.stderr)


def become_its_python(program):
    """Starts this process again by the Python that this SCons is written for, where another one runs it."""
    with open(program) as file:
        python = file.readline().strip().removeprefix("#!").strip()
    if os.path.isabs(python) and os.path.realpath(python) != os.path.realpath(sys.executable):
        os.execv(python, [python, *sys.argv])


class ForkedScons:
    """SCons as a program at this path would run it."""

    def __init__(self, program):
        self.program = program
        importlib.import_module("SCons.Script")
        tools = os.path.dirname(importlib.import_module("SCons.Tool").__file__)
        for path in sorted(glob.glob(f"{tools}/*.py")):
            name = os.path.basename(path)[:-3]
            if name.startswith(("ms", "win", "ilink", "linkloc", "ninja", "__")):
                continue
            try:
                importlib.import_module(f"SCons.Tool.{name}")
            except ImportError:
                pass
        for name in ("SCons.Platform.posix", "SCons.Scanner.C", "SCons.SConf", "SCons.Scanner.Dir"):
            importlib.import_module(name)
        self.remember_programs()

    def remember_programs(self):
        """Has SCons ask this machine once where its programs are and which version they have, and not in each run."""
        gcc, environment = sys.modules["SCons.Tool.gcc"], importlib.import_module("SCons.Environment")
        version_of, where_is, versions, places = gcc.detect_version, environment.WhereIs, {}, {}

        def version(env, cc):
            key = str(env.subst(cc))
            if key not in versions:
                versions[key] = version_of(env, cc)
            return versions[key]

        def place(file, path=None, pathext=None, reject=None):
            key = (str(file), str(path), str(pathext), str(reject))
            if key not in places:
                places[key] = where_is(file, path, pathext, reject)
            return places[key]

        gcc.detect_version, environment.WhereIs = version, place
        environment.Environment()
        sys.modules["SCons.Node.FS"].default_fs = None

    def run(self, words, tree):
        """Runs SCons with these words in a tree."""
        sys.stdout.flush()
        sys.stderr.flush()
        out, err = os.memfd_create("out"), os.memfd_create("err")
        child = os.fork()
        if not child:
            self.be_scons(words, tree, out, err)
        _, status = os.waitpid(child, 0)
        return Run(os.waitstatus_to_exitcode(status), taken(out), taken(err))

    def be_scons(self, words, tree, out, err):
        """The child: becomes SCons, and never returns."""
        status = 70
        try:
            os.chdir(tree)
            nothing = os.open(os.devnull, os.O_RDONLY)
            for number, at in ((nothing, 0), (out, 1), (err, 2)):
                os.dup2(number, at)
            sys.stdin = sys.__stdin__ = open(0, closefd=False)
            sys.stdout = sys.__stdout__ = open(1, "w", closefd=False)
            sys.stderr = sys.__stderr__ = open(2, "w", buffering=1, closefd=False)
            sys.argv = [self.program, *words]
            atexit._clear()
            from SCons import exitfuncs
            atexit.register(exitfuncs._run_exitfuncs)
            try:
                sys.modules["SCons.Script"].main()
            except SystemExit as ending:
                status = ending.code if isinstance(ending.code, int) else 0 if ending.code is None else 1
            atexit._run_exitfuncs()
            sys.stdout.flush()
            sys.stderr.flush()
        finally:
            os._exit(status)


def taken(number):
    """All that was written to this file, which is closed."""
    with os.fdopen(number, "rb") as file:
        file.seek(0)
        return file.read().decode(errors="replace")
