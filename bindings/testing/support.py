"""What the tests of the bindings share: commands that are run, their report, what is compared."""

import concurrent.futures
import contextlib
import os
import shutil
import subprocess
import threading
import time

BINDINGS = os.path.dirname(os.path.dirname(os.path.abspath(__file__)))
ROOT = os.path.dirname(BINDINGS)
WARNINGS = ["-Wall", "-Wextra", "-pedantic", "-Wconversion", "-Wshadow", "-Werror"]
C99 = ["gcc", "-std=c99", *WARNINGS]
CPP17 = ["g++", "-std=c++17", "-x", "c++", *WARNINGS]
# Whose rule a step shows that asks a server.
MYSQL, MARIADB = "MySQL", "MariaDB"
BOTH, MARIADBS = (MYSQL, MARIADB), (MARIADB,)
# A test that hangs is stopped: none of them takes a tenth of this.
SECONDS = 1200


class Failure(Exception):
    """Why a test failed."""


# What the test that a thread runs has said so far, and the commands that run.
SAID, RUNNING = threading.local(), set()


def tell(text):
    """Says what a test found: some lines behind its name."""
    SAID.lines = [*getattr(SAID, "lines", []), *text.strip("\n").splitlines()]


class Report:
    """Counts what passed and what failed, and tells each as it ends. Tests may run in several threads."""

    def __init__(self):
        self.passed = 0
        self.failed = []
        self.telling, self.is_stopped = threading.Lock(), False

    def run(self, name, test, *given, **named):
        """Runs a test, and returns what it returns, True for None, or None where it failed."""
        began, SAID.lines, found, why = time.monotonic(), [], None, None
        if self.is_stopped:
            return None
        try:
            found = test(*given, **named)
        except Exception as error:  # (whatever it is, the tests behind it still run)
            why = error if isinstance(error, Failure) else repr(error)
        with self.telling:
            if why is None:
                self.passed += 1
                print(f"ok {name} ({time.monotonic() - began:.1f} s)")
            else:
                self.failed.append(name)
                print(f"FAILED {name}: {why}")
            print("".join(f"  {it}\n" for it in SAID.lines), end="", flush=True)
        return None if why is not None else True if found is None else found

    def side_by_side(self, jobs, parts):
        """Runs parts of the tests, so many at a time. Those that take longest come first."""
        with concurrent.futures.ThreadPoolExecutor(jobs) as pool:
            try:
                for it in [pool.submit(part) for part in parts]:
                    it.result()
            except BaseException:
                # A thread ends with its command.
                self.is_stopped = True
                for it in list(RUNNING):
                    it.terminate()
                raise


def run(words, status=0, timeout=SECONDS, **how):
    """Runs a command and returns its output; another status than this one is a failure."""
    with subprocess.Popen(words, stdin=subprocess.DEVNULL, stdout=subprocess.PIPE,
                          stderr=subprocess.STDOUT, text=True, encoding="utf-8", errors="replace",
                          **how) as ran, contextlib.ExitStack() as stack:
        RUNNING.add(ran)
        stack.callback(RUNNING.discard, ran)
        try:
            said, _ = ran.communicate(timeout=timeout)
        except BaseException:
            ran.kill()
            raise
    if ran.returncode != status:
        # What failed comes first, since a report may be cut off.
        failed = [it for it in said.splitlines() if it.lstrip().startswith("FAILED")]
        raise Failure("\n".join([f"{' '.join(words)} ended with status {ran.returncode}, not {status}",
                                 *failed, said[-20000:]]))
    return said


def compare(found, wanted):
    """Fails where two texts or lists differ, by the first position where they do."""
    if found == wanted:
        return
    at = next((at for at, (one, other) in enumerate(zip(found, wanted)) if one != other),
              min(len(found), len(wanted)))
    raise Failure(f"of {len(found)} in place of {len(wanted)} the first that differs is {at}: "
                  f"{found[at:at + 200]!r:.2000} in place of {wanted[at:at + 200]!r:.2000}")


def need(name, package):
    """Fails where the machine has no such command."""
    if not shutil.which(name):
        raise Failure(f"this machine has no {name}: apt-get install {package}")


def has(*names):
    """Returns whether the machine has these commands. What it lacks has failed by itself."""
    return all(shutil.which(it) for it in names)


def archive_in(library):
    """Returns the static library of a folder that `bindings/build` made."""
    return os.path.join(library, "libmysql_session.a")


def rust_environment(library, room):
    """Returns the environment in which the crate finds the library, and is built aside."""
    return {**os.environ, "MYSQL_SESSION_LIBRARY": library,
            "CARGO_TARGET_DIR": os.path.join(room, "target")}


def python_environment(library):
    """Returns the environment in which the module is found, and finds the library."""
    return {**os.environ, "MYSQL_SESSION_LIBRARY": library, "PYTHONDONTWRITEBYTECODE": "1",
            "PYTHONIOENCODING": "utf-8", "PYTHONPATH": os.path.join(BINDINGS, "python")}
