"""Looks at the commands of the documents: what each runs is there, can be run as it is typed, and
knows its options.

    python3 bindings/testing/commands.py

A command is a line of an indented or fenced block, behind `$` or not. Its program is a file of this
repository, by itself or behind `python3`. It isn't run: an option is known where it is in the
program's text. And each file that begins with `#!` can be run. The last line is `N passed, M
failed`.
"""

import glob
import os
import re
import subprocess
import sys

ROOT = os.path.dirname(os.path.dirname(os.path.dirname(os.path.abspath(__file__))))
FOLDERS = ("tools/", "bindings/", "bench/", ".ci/", "examples/")
DOCUMENTS = ("*.md", "docs/*.md", "docs/decisions/*.md", "bindings/*.md", "bindings/**/README.md",
             "bench/*.md")


def documents():
    """Returns the documents."""
    return sorted({it for form in DOCUMENTS
                   for it in glob.glob(os.path.join(ROOT, form), recursive=True)})


def blocks_of(text):
    """Returns the lines of indented and fenced blocks of a document, each with its number. A line
    that a backslash joins to the one before it begins no command."""
    fenced, is_joined = False, False
    for number, line in enumerate(text.split("\n"), 1):
        if line.lstrip().startswith("```"):
            fenced = not fenced
        elif (fenced or line.startswith("    ")) and not is_joined:
            yield number, line.strip()
        is_joined = line.endswith("\\")


def commands_of(line):
    """Returns the commands of a line, as lists of words, without what is around them."""
    line = re.sub(r"^[$>] +", "", line).partition(" #")[0]
    for part in re.split(r"&&|\|\||[|;()]", line):
        words = part.split()
        while words and re.fullmatch(r"\w+=\S*|sudo|time|nice", words[0]):
            words = words[1:]
        is_python = words[:1] == ["python3"]
        words = words[1:] if is_python else words
        if words and words[0].removeprefix("./").startswith(FOLDERS):
            yield is_python, words


def found(name, document):
    """Returns the file that a command names, from the top or from the document's folder."""
    places = (ROOT, os.path.dirname(document))
    files = [os.path.normpath(os.path.join(it, name)) for it in places]
    return next((it for it in files if os.path.isfile(it)), None)


def why_wrong(is_python, words, document):
    """Returns what is wrong with a command, or nothing."""
    file = found(words[0], document)
    if not file:
        return f"there is no file {words[0]}"
    if not is_python and not os.access(file, os.X_OK):
        return f"{words[0]} can't be run as it is typed"
    with open(file, encoding="utf-8", errors="replace") as it:
        text = it.read()
    options = [it.partition("=")[0].strip("[]") for it in words[1:] if it.lstrip("[").startswith("--")]
    unknown = [it for it in options if len(it) > 2 and it != "--help" and it not in text]
    return f"{words[0]} knows no {', '.join(unknown)}" if unknown else ""


def in_documents():
    """Returns how many commands the documents have, and what is wrong with some."""
    count, wrong = 0, []
    for document in documents():
        with open(document, encoding="utf-8") as it:
            text = it.read()
        for number, line in blocks_of(text):
            for is_python, words in commands_of(line):
                count += 1
                why = why_wrong(is_python, words, document)
                if why:
                    wrong.append(f"{os.path.relpath(document, ROOT)}:{number}: {why}")
    return count, wrong


def in_files():
    """Returns how many files begin with `#!`, and those that can't be run."""
    listed = subprocess.run(["git", "ls-files", "-z"], cwd=ROOT, stdout=subprocess.PIPE, check=True)
    count, wrong = 0, []
    for name in listed.stdout.decode().split("\0")[:-1]:
        file = os.path.join(ROOT, name)
        if not os.path.isfile(file):
            continue
        with open(file, "rb") as it:
            begins = it.read(3)
        # `#![` begins a Rust file.
        if begins[:2] == b"#!" and begins != b"#![":
            count += 1
            if not os.access(file, os.X_OK):
                wrong.append(f"{name} begins with #! and can't be run")
    return count, wrong


def main():
    commands, wrong = in_documents()
    files, more = in_files()
    for it in (*wrong, *more):
        print(f"FAILED {it}")
    failed = len(wrong) + len(more)
    print(f"{commands + files - failed} passed, {failed} failed")
    return 1 if failed or not commands or not files else 0


if __name__ == "__main__":
    sys.exit(main())
