"""Runs the built program over rows, and compares what it prints and its status.

    python3 bindings/testing/program.py PROGRAM [--only PATTERN] [--refuse LIBRARY [--always]]

PROGRAM is the executable mysql_session_program, proved or not. The rows are in
rows/program/*.txt. --only takes those of files, or with titles, that have the pattern. rows.py says
how rows are written, and how those that fail are told. A file has these lines beside comments and
names:

    $ WORD WORD ..                        the program's words, as for a shell; {NAME} is a named one
    TITLE | INPUT | OUTPUT | STATUS       a row: what it shows, standard input, standard output
    TITLE | INPUT | OUTPUT | STATUS | HOW

Rows are run by each of the lines of words together above them. Nothing may be printed on
standard error. A row without HOW is run twice: over its input in one piece, and byte by byte, where
a read has one byte. Where the input has more than 4096 bytes it is run over the first alone. Where
commas are in INPUT and OUTPUT, the program is given a piece and has to print its output before it
is given the next. What is behind the last comma comes by the input's end. HOW is one of

    by bytes                  byte by byte alone, however long the input is
    cut to M-N                the input ends behind so many bytes, by each number from M to N
    fails behind M-N          a read fails behind so many bytes: the input is a terminal that closes
    unread                    nothing of the input is read
    outputs                   the output takes just so many bytes, none to all but one, and each time
                              the status is 2 behind those; so it is at a full device and a closed pipe
    refuses long writes       the output refuses the first write as too long, and nothing follows it

With --refuse each row without HOW is run with each of its requests for memory refused in turn.
LIBRARY does so, which is tools/refuse_memory.c. It has to print what it prints else, or `refused:
Memory` behind some of its lines. With --always too all of them are refused at once, and it has to
be the latter. The sanitizer of `rt try` gives its own memory, so this wants a proved
program.
"""

import argparse
import concurrent.futures
import fcntl
import glob
import os
import pty
import re
import select
import shlex
import socket
import subprocess
import sys
import tempfile
import termios
import threading
import tty

# No file of what is imported stays in the folder.
sys.dont_write_bytecode = True

from rows import Failure, Report, compare, reading, rows_of

TESTING = os.path.dirname(os.path.abspath(__file__))
ROWS = os.path.join(TESTING, "rows", "program")
# By bytes a pipe hands out each write by a read of its own.
BY_BYTES_MOST = 4096
# A run that hangs is stopped: none takes a tenth of this where nothing runs beside it.
SECONDS = 1500
F_SETPIPE_SZ = 1031
MEMORY = b"refused: Memory\n"


# ---- Rows -------------------------------------------------------------------------------------


class Run:
    """A row by one line of words: its position, input, output, status and how it is run."""

    def __init__(self, row, words):
        given, wanted, status, *how = row.fields
        self.place, self.title, self.words = row.place, row.head, words
        self.file = os.path.basename(row.place).partition(":")[0]
        self.given, self.wanted = pieces_of(given), pieces_of(wanted)
        self.status, self.how = status.number, how[0].text if how else ""
        self.input, self.output = b"".join(self.given), b"".join(self.wanted)
        if len(self.given) != len(self.wanted):
            raise Failure("the input has other pieces than the output")


def pieces_of(field):
    """Returns the pieces of a field, which are between commas."""
    return [it.data for it in field.parts(",")]


def words_of(row):
    """Returns the words of a line for a shell."""
    return [row.names[it[1:-1]].data if it[:1] == "{" else it.encode()
            for it in shlex.split(row.line[1:])]


def runs_of(file):
    """Returns the rows of a file, each by all lines of words together above it."""
    runs, words, is_list = [], [], False
    for row in rows_of(file):
        with reading(row):
            if row.line.startswith("$"):
                words = [*(words if is_list else []), words_of(row)]
            elif words:
                runs += [Run(row, it) for it in words]
            else:
                raise Failure("no words stand above it")
        is_list = row.line.startswith("$")
    return runs


# ---- Runs -------------------------------------------------------------------------------------


def piped(data):
    """Returns a pipe's end to read from, and starts to write: each byte comes by its own read."""
    out, into = os.pipe2(os.O_DIRECT | os.O_CLOEXEC)
    fcntl.fcntl(into, F_SETPIPE_SZ, 1 << 20)

    def write():
        try:
            for at in range(len(data)):
                os.write(into, data[at:at + 1])
        except BrokenPipeError:
            pass
        os.close(into)

    writer = threading.Thread(target=write)
    writer.start()
    return out, writer


def closed_terminal(data):
    """Returns a terminal's end to read from: a read fails behind these bytes."""
    master, slave = pty.openpty()
    tty.setraw(slave)
    os.write(slave, data)
    os.close(slave)
    return master


def unread_in(pipe):
    """Returns how many bytes wait in a pipe."""
    return int.from_bytes(fcntl.ioctl(pipe, termios.FIONREAD, bytes(4)), sys.byteorder)


class Program:
    """The executable, run in each way that a row may ask for."""

    def __init__(self, file, library):
        self.file, self.library = file, library

    def run(self, words, before=(), **how):
        """Runs it, and returns its status and what it printed; nothing may be on standard error."""
        how = {"stdout": subprocess.PIPE, "stderr": subprocess.PIPE, "timeout": SECONDS, **how}
        ran = subprocess.run([*before, self.file, *words], **how)
        compare(ran.stderr[-2000:], b"", "on standard error is")
        return ran.returncode, ran.stdout

    def answers(self, row, **how):
        """It prints the row's output, and ends so."""
        status, output = self.run(row.words, **how)
        compare(output, row.output, "it prints")
        compare(status, row.status, "its status is")

    def answers_by_bytes(self, row):
        """The same, over an input that comes byte by byte."""
        source, writer = piped(row.input)
        try:
            self.answers(row, stdin=source)
        finally:
            os.close(source)
            writer.join()

    def answers_in_steps(self, row):
        """It prints the output of each piece before it is given the next."""
        how = {"stdin": subprocess.PIPE, "stdout": subprocess.PIPE, "stderr": subprocess.PIPE}
        with subprocess.Popen([self.file, *row.words], bufsize=0, **how) as ran:
            for given, wanted in list(zip(row.given, row.wanted))[:-1]:
                ran.stdin.write(given)
                compare(read_within(ran.stdout, len(wanted)), wanted, "by a piece it prints")
            try:
                # A fault ends the run before its input ends.
                ran.stdin.write(row.given[-1])
                rest = ran.stdout.read() if row.given[-1] else b""
                ran.stdin.close()
            except BrokenPipeError:
                rest = b""
            compare(rest + ran.stdout.read(), row.wanted[-1], "by the last piece it prints")
            compare(ran.stderr.read(), b"", "on standard error is")
        compare(ran.returncode, row.status, "its status is")

    def answers_though_reads_fail(self, row, count):
        """It prints the row's output where a read fails behind so many bytes."""
        source = closed_terminal(row.input[:count])
        try:
            self.answers(row, stdin=source)
        finally:
            os.close(source)

    def answers_unread(self, row):
        """It prints the row's output, and has read nothing."""
        source, into = os.pipe()
        try:
            os.write(into, row.input)
            self.answers(row, stdin=source)
            compare(unread_in(source), len(row.input), "so many bytes are unread:")
        finally:
            os.close(source)
            os.close(into)

    def fails_by_outputs(self, row):
        """It fails behind what its output took: each prefix of what it prints, or nothing."""
        # So that a write past the limit fails, and no signal ends the program.
        how = {"input": row.input, "restore_signals": False}
        for count in range(len(row.output)):
            with tempfile.TemporaryFile() as output:
                limit = ("prlimit", f"--fsize={count}")
                status, _ = self.run(row.words, before=limit, stdout=output, **how)
                output.seek(0)
                compare(output.read(), row.output[:count], "the output took")
            compare(status, 2, f"where {count} bytes are taken its status is")
        with open("/dev/full", "wb") as output:
            compare(self.run(row.words, stdout=output, **how)[0], 2, "at a full device its status is")
        out, into = os.pipe()
        os.close(out)
        compare(self.run(row.words, stdout=into, input=row.input)[0], 2, "at a closed pipe it is")
        os.close(into)

    def fails_by_long_writes(self, row):
        """It fails where its output refuses a write as too long, and writes nothing behind it."""
        ours, theirs = socket.socketpair(socket.AF_UNIX, socket.SOCK_SEQPACKET)
        with ours, theirs:
            theirs.setsockopt(socket.SOL_SOCKET, socket.SO_SNDBUF, 4096)
            status, _ = self.run(row.words, stdout=theirs.fileno(), input=row.input)
            theirs.close()
            compare(ours.recv(1 << 20), row.output, "the output took")
        compare(status, row.status, "its status is")

    # ---- Memory -------------------------------------------------------------------------------

    def refused(self, row, which):
        """Runs it with these requests refused; returns how many were, its status and its output."""
        with tempfile.NamedTemporaryFile() as told:
            how = {"REFUSE": which, "REFUSED": told.name, "LD_PRELOAD": self.library}
            status, output = self.run(row.words, input=row.input, env={**os.environ, **how})
            # The file is written anew, so it is opened anew.
            with open(told.name, encoding="utf-8") as it:
                return int(it.read() or 0), status, output

    def answers_though_refused(self, row, most):
        """With each request refused in turn it answers as else, or that memory was refused; returns
        how many were refused."""
        for number in range(1, most + 1):
            count, status, output = self.refused(row, str(number))
            is_answer = (status, output) == (row.status, row.output)
            if not is_answer and not (count and is_for_memory(row, status, output)):
                raise Failure(f"with request {number} refused it prints {output!r:.600}, status {status}")
            if not count and number == 1:
                raise Failure("no request for memory is refused: what asks for it isn't the C library")
            if not count:
                return number - 1
        return most

    def answers_refused(self, row):
        """With every request refused it answers that memory was."""
        count, status, output = self.refused(row, "always")
        if not count or not is_for_memory(row, status, output):
            raise Failure(f"with {count} requests refused it prints {output!r:.600}, status {status}")
        return count


def is_for_memory(row, status, output):
    """Returns whether a run may end so where memory is refused."""
    lines = output[:-len(MEMORY)]
    return (status == 1 and output.endswith(MEMORY) and row.output.startswith(lines)
            and (not lines or lines.endswith(b"\n")))


def read_within(stream, count):
    """Returns what a pipe has, of so many bytes, and what follows at once; it waits for a minute."""
    found = b""
    while len(found) < count and select.select([stream], [], [], 60)[0]:
        part = os.read(stream.fileno(), 65536)
        if not part:
            break
        found += part
    return found + (os.read(stream.fileno(), 65536) if select.select([stream], [], [], 0)[0] else b"")


# ---- Reports ----------------------------------------------------------------------------------


def counts_of(how):
    """Returns the numbers from M to N of words that end with `M-N`."""
    first, last = how.split()[-1].split("-")
    return range(int(first), int(last) + 1)


def test_row(program, row):
    """Runs a row as it asks for."""
    if row.how == "by bytes":
        program.answers_by_bytes(row)
    elif row.how.startswith("cut to "):
        for count in counts_of(row.how):
            program.answers(row, input=row.input[:count])
    elif row.how.startswith("fails behind "):
        for count in counts_of(row.how):
            program.answers_though_reads_fail(row, count)
    elif row.how == "unread":
        program.answers_unread(row)
    elif row.how == "outputs":
        program.answers(row, input=row.input)
        program.fails_by_outputs(row)
    elif row.how == "refuses long writes":
        program.fails_by_long_writes(row)
    elif row.how:
        raise Failure(f"there is no way {row.how}")
    else:
        test_plainly(program, row)


def test_plainly(program, row):
    """Runs a row over its input in one piece, byte by byte, and in steps where it has any."""
    program.answers(row, input=row.input)
    if len(row.input) <= BY_BYTES_MOST:
        program.answers_by_bytes(row)
    if len(row.given) > 1:
        program.answers_in_steps(row)


def asks_for_memory(row):
    """Returns whether a row is one whose requests for memory are refused."""
    return not row.how and len(row.given) == 1 and len(row.input) <= BY_BYTES_MOST


def test(program, row, most):
    """Runs a row, with so many requests refused in turn at most, or with all where that is 0; returns
    how many were refused."""
    try:
        if not program.library:
            return test_row(program, row)
        if most == 0:
            return program.answers_refused(row)
        return program.answers_though_refused(row, most)
    except (Failure, OSError, subprocess.TimeoutExpired) as error:
        said = " ".join(shlex.quote(it.decode(errors="replace")[:80]) for it in row.words)
        raise Failure(f"{row.title}: $ {said}\n  {error}") from error


def test_all(report, program, rows, most, jobs):
    """Runs all rows, some at a time."""
    with concurrent.futures.ThreadPoolExecutor(jobs) as pool:
        runs = [pool.submit(test, program, row, most) for row in rows]
        for row, run in zip(rows, runs):
            report.run(row.place, run.result)
    counts = [it.result() for it in runs if not it.exception()]
    if program.library:
        print(f"mysql_session_program: {sum(counts)} requests refused in {len(rows)} rows, "
              f"at most {max(counts, default=0)} in one")


def given():
    """Returns the command's words."""
    parser = argparse.ArgumentParser(description=__doc__,
                                     formatter_class=argparse.RawDescriptionHelpFormatter)
    parser.add_argument("program", metavar="PROGRAM", type=os.path.abspath)
    parser.add_argument("--only", metavar="PATTERN", default="")
    parser.add_argument("--refuse", metavar="LIBRARY", type=os.path.abspath)
    parser.add_argument("--always", action="store_true")
    parser.add_argument("--most", metavar="N", type=int, default=2000,
                        help="of each row at most so many requests are refused")
    parser.add_argument("--jobs", metavar="N", type=int, default=os.cpu_count())
    return parser.parse_args()


def main():
    words, report = given(), Report()
    rows = report.read(sorted(glob.glob(os.path.join(ROWS, "*.txt"))), runs_of)
    rows = [it for it in rows if re.search(words.only, f"{it.file} {it.title}")
            and (asks_for_memory(it) or not words.refuse)]
    program = Program(words.program, words.refuse)
    test_all(report, program, rows, 0 if words.always else words.most, words.jobs)
    return report.end()


if __name__ == "__main__":
    sys.exit(main())
