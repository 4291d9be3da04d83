"""The tests and examples in C, Rust and Python, and the programs of the documents."""

import functools
import glob
import os
import re
import subprocess

from .support import (BINDINGS, C99, CPP17, Failure, ROOT, archive_in, compare, has,
                      python_environment, run, rust_environment, tell)

SANITIZERS = ["-fsanitize=address,undefined", "-fno-sanitize-recover=all"]
# By these the tests can have an allocation be refused.
WRAPPED = ["-Wl,--wrap=malloc", "-Wl,--wrap=realloc"]
VALGRIND = ["valgrind", "--quiet", "--error-exitcode=9", "--leak-check=full",
            "--show-leak-kinds=all", "--errors-for-leak-kinds=all"]


TESTING = os.path.join(BINDINGS, "testing")
RECORDINGS = os.path.join(ROOT, "crates", "connection_conformance", "data")
CONVERSATIONS = sorted(glob.glob(os.path.join(RECORDINGS, "*.conversations")))
# What tests in C are told: the recorded connections.
RECORDED = sorted(it[:-len(".client")] for it in glob.glob(os.path.join(RECORDINGS, "*.client")))
WORDS = {"connections": RECORDED, "lent": RECORDED}


# ---- C ----------------------------------------------------------------------------------------


class C:
    """The tests and examples in C."""

    def __init__(self, report, library, room):
        self.report, self.library, self.room = report, library, room
        self.folder = os.path.join(BINDINGS, "c")
        files = sorted(glob.glob(os.path.join(self.folder, "tests", "*.c")))
        # A file with a header of its own is shared by the tests.
        self.shared = [it for it in files if os.path.exists(it[:-1] + "h")]
        self.tests = [it for it in files if it not in self.shared]
        self.words = {**WORDS, "conversations": [os.path.join(room, "conversations")]}

    def build(self, compiler, sources, name):
        """Compiles and links a program, and returns its file."""
        made = os.path.join(self.room, name)
        # By -x none, the archive isn't read as C++.
        run([*compiler, *sources, "-x", "none", archive_in(self.library), "-o", made])
        return made

    def header(self, compiler):
        """The header compiles by itself."""
        file = os.path.join(self.room, "header.c")
        with open(file, "w", encoding="utf-8") as it:
            it.write('#include "mysql_session.h"\nint unused;\n')
        run([*compiler, f"-I{self.folder}", "-c", file, "-o", file + ".o"])

    def test(self, compiler, file, kind, tool):
        """Builds a test in its own way, and runs it by itself or under a tool."""
        name = os.path.basename(file)[:-2]
        made = self.build([*compiler, "-g", *WRAPPED], [file, *self.shared], f"{name}.{kind}")
        said = run([*tool, made, *self.words.get(name, [])])
        if not re.search(r"\b[1-9][0-9]* checks, 0 failed\n$", said):
            raise Failure(f"it didn't count its checks: {said}")

    def parts(self):
        """Returns the parts that run each test in each way, and build the examples."""
        words = ["python3", "-B", os.path.join(TESTING, "conversation_rows.py")]
        words += [*self.words["conversations"], *CONVERSATIONS]
        self.report.run("conversations for C", run, words)
        ways = []
        if has("gcc", "valgrind"):
            ways += [("valgrind", [*C99, "-O1"], VALGRIND)]
        if has("gcc"):
            ways += [("sanitizers", [*C99, "-O1", *SANITIZERS], [])]
            ways += [("C99", [*C99, "-O2"], [])]
        if has("g++"):
            ways += [("C++17", CPP17, [])]
        return [*(functools.partial(self.way, *it) for it in ways), self.headers_and_examples]

    def way(self, kind, compiler, tool):
        """Runs each test in one way."""
        for file in self.tests:
            name = os.path.relpath(file, ROOT)
            self.report.run(f"{name}, {kind}", self.test, compiler, file, kind, tool)

    def headers_and_examples(self):
        """Compiles the header by itself, and builds the examples."""
        if has("g++"):
            self.report.run("mysql_session.h, C++17", self.header, CPP17)
        if has("gcc"):
            self.report.run("mysql_session.h, C99", self.header, C99)
            for file in sorted(glob.glob(os.path.join(self.folder, "examples", "*.c"))):
                self.report.run(os.path.relpath(file, ROOT), self.build, [*C99, "-O2"], [file],
                                os.path.basename(file)[:-2])


# ---- Rust and Python --------------------------------------------------------------------------


def test_rust(report, library, room):
    """Runs the crate's tests and builds its examples."""
    how = {"cwd": os.path.join(BINDINGS, "rust"), "env": rust_environment(library, room)}
    report.run("cargo test", run, ["cargo", "test", "--offline"], **how)
    strict = {**how, "env": {**how["env"], "RUSTDOCFLAGS": "-D warnings"}}
    report.run("cargo doc", run, ["cargo", "doc", "--offline", "--no-deps"], **strict)
    if report.run("cargo build --examples", run, ["cargo", "build", "--offline", "--examples"],
                  **how):
        examples = os.path.join(room, "target", "debug", "examples")
        report.run("examples/poll_loop", poll_loop, os.path.join(examples, "poll_loop"))
        report.run("clients at servers that are told what to say", run,
                   ["python3", os.path.join(TESTING, "told.py"), examples],
                   env=python_environment(library))


def poll_loop(program):
    """Runs the example of a loop, and compares what it prints with what its section says."""
    with open(os.path.join(ROOT, "docs", "EXAMPLES_RUST.md"), encoding="utf-8") as it:
        section = it.read().partition("\n## A poll loop\n")[2].partition("\n## ")[0]
    compare(run([program]), re.search(r"^```text\n(.*?)^```$", section, re.M | re.S)[1])


def three_machines(events, **how):
    """A client, a server and an auditor agree on random scripts; tells how many, and their seeds."""
    words = ["python3", os.path.join(TESTING, "three_machines.py"), RECORDINGS]
    tell(run(words + (["--events", str(events)] if events else []), **how))


def python_parts(report, library, room, events=None):
    """Returns the parts that run the module's tests, a file each, and what else there is of Python."""
    folder = os.path.join(BINDINGS, "python")
    how = {"cwd": folder, "env": python_environment(library)}
    files = sorted(glob.glob(os.path.join(folder, "test_*.py")), key=os.path.getsize, reverse=True)
    names = [os.path.basename(it)[:-len(".py")] for it in files]
    return [*(functools.partial(report.run, f"{name}, Python", run,
                                ["python3", "-m", "unittest", name], **how) for name in names),
            functools.partial(report.run, "a client, a server and an auditor", three_machines,
                              events, **how),
            functools.partial(test_python, report, folder, room, how)]


def test_python(report, folder, room, how):
    """Looks at the module's types, runs rows, and reads each example as a program."""
    if has("mypy"):
        words = ["mypy", "--strict", "--cache-dir", os.path.join(room, "mypy"), "mysql_session.py",
                 *sorted(glob.glob(os.path.join(folder, "examples", "*.py")))]
        types = {**how["env"], "MYPYPATH": folder}
        report.run("types of Python", run, words, cwd=folder, env=types)
    for words in (["sessions"], ["values"], ["packets"], ["conversations", "--strange", "1000"]):
        name, *others = words
        words = ["python3", os.path.join(TESTING, name + ".py"), *others]
        report.run(f"rows of {name}", run, words, **how)
    words = ["python3", os.path.join(TESTING, "codes.py"), "--check"]
    report.run("the page of codes", run, words, **how)
    for file in sorted(glob.glob(os.path.join(folder, "examples", "*.py"))):
        words = ["python3", file, "--help"]
        report.run(os.path.relpath(file, ROOT) + " --help", run, words, **how)


def fuzz(library):
    """Reads inputs of fixed seeds under sanitizers, and tells how many and what of."""
    words = [os.path.join(TESTING, "fuzz"), "--short", "--library", library]
    tell(run(["python3", *words]).splitlines()[1])


def measure_costs(library):
    """Measures what hostile inputs take, and tells how many rows there are."""
    words = [os.path.join(TESTING, "costs"), "--quick", "--library", library]
    tell(run(["python3", *words]).splitlines()[-1])


# ---- The README's programs --------------------------------------------------------------------


def blocks_of(file):
    """Returns the programs of a document: language, text, and the output behind it."""
    with open(file, encoding="utf-8") as it:
        fenced = re.findall(r"^```(\w*)\n(.*?)^```$", it.read(), re.M | re.S)
    behind = [*fenced[1:], ("", "")]
    return [(language, text, output) for (language, text), (kind, output) in zip(fenced, behind)
            if language in ("c", "rust", "python") and kind == "text"]


# What a program in C may need of another library.
OPENSSL = "#include <openssl/sha.h>"


def has_header(line):
    """Whether the compiler finds what a line includes."""
    ran = subprocess.run([*C99, "-fsyntax-only", "-x", "c", "-"], input=line + "\n", text=True,
                         stdout=subprocess.DEVNULL, stderr=subprocess.DEVNULL)
    return ran.returncode == 0


# What a program in Python may need of another package, which a distribution's Python may have.
NUMPY = "import numpy\n"


def python_for(text):
    """A Python that has what a program needs, or None."""
    if NUMPY not in text:
        return "python3"
    looks = (it for it in ("python3", "/usr/bin/python3") if has(it))
    return next((it for it in looks if not subprocess.run(
        [it, "-c", NUMPY], stderr=subprocess.DEVNULL).returncode), None)


class Programs:
    """Runs programs of documents as they are there, in the repository's folder."""

    def __init__(self, library, room):
        self.library, self.room = library, os.path.join(room, "documents")

    def write(self, name, text):
        """Writes a file in its own folder."""
        file = os.path.join(self.room, name)
        os.makedirs(os.path.dirname(file), exist_ok=True)
        with open(file, "w", encoding="utf-8") as it:
            it.write(text)
        return file

    def c(self, text):
        """Compiles and runs a program in C."""
        file = self.write("program.c", text)
        made = file + ".out"
        more = ["-lcrypto"] if OPENSSL in text else []
        run([*C99, f"-I{BINDINGS}/c", file, archive_in(self.library), *more, "-o", made])
        return run([made], cwd=ROOT)

    def rust(self, text):
        """Compiles and runs a program in Rust, as a crate that uses the bindings."""
        self.write("rust/src/main.rs", text)
        manifest = self.write("rust/Cargo.toml", '[package]\nname = "program"\nedition = "2021"\n'
                              'version = "0.0.0"\n[dependencies]\nmysql_session = { path = '
                              f'"{BINDINGS}/rust" }}\n[workspace]\n')
        words = ["cargo", "build", "--offline", "--quiet", "--manifest-path", manifest]
        run(words, env=rust_environment(self.library, self.room))
        return run([os.path.join(self.room, "target", "debug", "program")], cwd=ROOT)

    def python(self, text):
        """Runs a program in Python."""
        return run([python_for(text), self.write("program.py", text)], cwd=ROOT,
                   env=python_environment(self.library))

    def test(self, language, text, output):
        """Runs a program and compares what it prints."""
        compare(getattr(self, language)(text), output)


def test_documents(report, programs, wanted):
    """Runs the programs of the documents in one language. The README has one in each."""
    documents = [os.path.join(ROOT, "README.md"), os.path.join(BINDINGS, "README.md")]
    documents += sorted(glob.glob(os.path.join(BINDINGS, "*", "README.md")))
    documents += sorted(glob.glob(os.path.join(ROOT, "docs", "EXAMPLES_*.md")))
    documents.append(os.path.join(ROOT, "docs", "LOGGING_IN.md"))
    for file in documents:
        name, blocks = os.path.relpath(file, ROOT), blocks_of(file)
        for number, block in enumerate(blocks):
            if block[0] != wanted:
                continue
            if OPENSSL in block[1] and not has_header(OPENSSL):
                print(f"left out: {name}, program {number} (apt-get install libssl-dev)", flush=True)
                continue
            if block[0] == "python" and python_for(block[1]) is None:
                print(f"left out: {name}, program {number} (apt-get install python3-numpy)",
                      flush=True)
                continue
            report.run(f"{name}, program {number} ({block[0]})", programs.test, *block)
        if file == documents[0] and wanted not in {it[0] for it in blocks}:
            report.run(f"{name}, a program in {wanted}", lacks, wanted)


def document_parts(report, library, room):
    """Returns the parts that run the programs of the documents, a language each, and look at their
    commands."""
    programs = Programs(library, room)
    words = ["python3", os.path.join(TESTING, "commands.py")]
    return [*(functools.partial(test_documents, report, programs, it) for it in ("rust", "python", "c")),
            functools.partial(report.run, "the commands of the documents", run, words)]


def lacks(language):
    """Fails."""
    raise Failure(f"no block ```{language} has a block ```text behind it")
