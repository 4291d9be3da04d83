"""Runs the examples of docs/PROGRAM.md in a shell, and compares what they print.

    python3 bindings/testing/shell.py PROGRAM

PROGRAM is the executable mysql_session_program, proved or not. An example is an indented block. A line behind `$`
begins a command, lines behind `>` go on with it, and the others are what it prints. Each block is run in a new folder,
which goes afterwards, and in which `crates` is this repository's. The last line is `N passed, M failed`.
"""

import os
import pathlib
import re
import subprocess
import sys
import tempfile

sys.dont_write_bytecode = True

from rows import Report, compare

ROOT = pathlib.Path(__file__).resolve().parent.parent.parent
DOCUMENT = ROOT / "docs" / "PROGRAM.md"
NAME = "mysql_session_program"
SECONDS = 600


def blocks():
    """Returns the blocks of the document that have commands, each with the number of its first line."""
    text = DOCUMENT.read_text(encoding="utf-8")
    for found in re.finditer(r"(?:^    .*\n)+", text, re.MULTILINE):
        lines = [it[4:] for it in found[0].splitlines()]
        if any(it.startswith("$ ") for it in lines):
            yield text[:found.start()].count("\n") + 1, lines


def commands(lines):
    """Returns the commands of a block, each with the lines behind it."""
    command, behind = "", []
    for line in lines:
        if line.startswith("$ "):
            if command:
                yield command, behind
            command, behind = line[2:], []
        elif line.startswith("> ") and not behind:
            command += "\n" + line[2:]
        else:
            behind.append(line)
    yield command, behind


def run_command(command, behind, folder):
    """Runs a command, and compares what it prints with the lines behind it."""
    ran = subprocess.run(["bash", "-c", command], cwd=folder, input="", stdout=subprocess.PIPE,
                         stderr=subprocess.STDOUT, encoding="utf-8", timeout=SECONDS,
                         env={**os.environ, "PATH": f"{folder}/bin:{os.environ['PATH']}"})
    compare(ran.stdout, "".join(f"{it}\n" for it in behind), f"of `{command}`")


def run_block(lines, program):
    """Runs the commands of a block."""
    with tempfile.TemporaryDirectory(prefix="shell-") as name:
        folder = pathlib.Path(name)
        (folder / "bin").mkdir()
        (folder / "bin" / NAME).symlink_to(program)
        (folder / "crates").symlink_to(ROOT / "crates")
        for command, behind in commands(lines):
            run_command(command, behind, folder)


def main(words):
    if len(words) != 1 or words[0].startswith("-"):
        sys.exit(__doc__)
    program, report = pathlib.Path(words[0]).absolute(), Report()
    if not program.is_file():
        raise SystemExit(f"there is no program {program}")
    for number, lines in blocks():
        report.run(f"docs/PROGRAM.md, line {number}", run_block, lines, program)
    return report.end()


if __name__ == "__main__":
    sys.exit(main(sys.argv[1:]))
