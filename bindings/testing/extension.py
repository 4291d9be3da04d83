"""Tests of the extension for Python, compiled anew, under sanitizers and under valgrind."""

import os
import re
import xml.etree.ElementTree

from .languages import SANITIZERS
from .support import BINDINGS, Failure, archive_in, has, python_environment, run, tell

FOLDER = os.path.join(BINDINGS, "python")
# The tests under sanitizers, without those of time and of growing memory. Each row is a program.
SANITIZED = [["test_native", "test_rows", "test_putting", "test_mysql_session"],
             ["test_lives.Threads"], ["test_lives.Interrupts", "test_lives.EachCall"],
             ["test_lives.Memory.test_refused", "test_lives.Memory.test_cycles",
              "test_lives.Memory.test_references"]]
# Those under valgrind take the least of it.
UNDER_VALGRIND = ["test_native.Misuse", "test_native.Events"]
MEMCHECK = ["valgrind", "--track-origins=yes", "--leak-check=full", "--num-callers=40",
            "--xml=yes"]
SUPPRESSIONS = "/usr/lib/valgrind/python3.supp"


def compiled(library, made, *flags):
    """Compiles the extension, and returns the Python that runs it with the environment for that."""
    os.makedirs(made)
    how = {**python_environment(made), "CC": " ".join(["gcc", "-g", *flags]),
           # Each object is a block of malloc, so that the tools see where it ends.
           "PYTHONMALLOC": "malloc"}
    program = "import sys, make_native; make_native.compile_native(*sys.argv[1:])"
    run(["python3", "-c", program, archive_in(library), os.path.join(made, "_native.abi3.so")],
        env=how)
    # It is the Python itself: a script that starts it would run under the tools too.
    return run(["python3", "-c", "import sys; print(sys.executable)"]).strip(), how


def count_of(said):
    """Returns how many tests ran, by what unittest said."""
    found = re.search(r"^Ran ([1-9][0-9]*) tests? in ", said, re.M)
    if not found:
        raise Failure(f"no test ran: {said}")
    return int(found[1])


def sanitized(python, how, tests):
    """Runs tests by a Python whose extension has sanitizers."""
    # What Python itself never frees isn't told.
    how = {**how, "LD_PRELOAD": run(["gcc", "-print-file-name=libasan.so"]).strip(),
           "ASAN_OPTIONS": "detect_leaks=0"}
    said = run([python, "-m", "unittest", *tests], cwd=FOLDER, env=how)
    tell(f"{count_of(said)} tests")


def functions(stack):
    """Returns the names of a stack's functions, the innermost first."""
    return [it.findtext("fn") or "" for it in stack]


def is_of_extension(stack):
    """Whether the extension called, without a program in Python between."""
    for frame in stack:
        if (frame.findtext("obj") or "").endswith("_native.abi3.so"):
            return True
        if (frame.findtext("fn") or "").startswith("_PyEval_"):
            return False
    return False


def is_of_python(error):
    """Whether an error of memcheck is one of Python's own, which programs without an extension have
    too. These are of two kinds: bytes that nothing has written, and blocks to whose middle alone
    something points."""
    kind, stacks = error.findtext("kind"), error.findall("stack")
    if not kind.startswith("Uninit") and kind != "Leak_PossiblyLost":
        return False
    # Python multiplies the digit of a zero, which it never writes, by zero.
    is_zero = any("_PyLong_New" in functions(it)[:3] for it in stacks[1:])
    return is_zero or not any(is_of_extension(it) for it in stacks)


def under_valgrind(python, how, made):
    """Runs tests under memcheck, and fails by each error that isn't Python's own."""
    file = os.path.join(made, "memcheck.xml")
    given = [f"--suppressions={SUPPRESSIONS}"] if os.path.exists(SUPPRESSIONS) else []
    said = run([*MEMCHECK, *given, f"--xml-file={file}", python, "-m", "unittest", *UNDER_VALGRIND],
               cwd=FOLDER, env=how)
    errors = list(xml.etree.ElementTree.parse(file).iter("error"))
    others = [it for it in errors if not is_of_python(it)]
    if others:
        raise Failure("\n".join("{} {}".format(it.findtext("kind"), [functions(at) for at in
                                                                  it.findall("stack")])
                                for it in others))
    tell(f"{count_of(said)} tests, {len(errors)} errors of Python's own")


def test_extension(report, library, room):
    """Runs both."""
    made = os.path.join(room, "sanitized")
    found = report.run("the extension with sanitizers", compiled, library, made, *SANITIZERS)
    if found:
        for tests in SANITIZED:
            report.run(f"{' '.join(tests)}, sanitizers", sanitized, *found, tests)
    if not has("valgrind"):
        return
    made = os.path.join(room, "valgrind")
    found = report.run("the extension for valgrind", compiled, library, made)
    if found:
        report.run(f"{' '.join(UNDER_VALGRIND)}, valgrind", under_valgrind, *found, made)
