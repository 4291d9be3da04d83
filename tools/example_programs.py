"""The programs that are in docs/EXAMPLES.md alone, as one program together with crates/examples.

A program of the document is a block ```rust NAME, and what it prints is the block ```text behind
it; a line that ends in two dots may go on. Each becomes a file NAME.rt beside the files of
crates/examples, which the programs may use. Each is called by its `run`, whose parameters between
the first and the last are handed the files of crates/examples/data with their names.
"""

import re
import shutil

from listed import CRATES, ROOT
from trying import Failure

DOCUMENT = ROOT / "docs" / "EXAMPLES.md"
EXAMPLES = CRATES / "examples"
USES = ["mysql_connection", "mysql_session", "mysql_login", "mysql_packets", "mysql_wire", "anyhow"]
HEAD = "== "
MAIN = """#![tactic(auto)]
{modules}
use std::fs::File;
use std::io::Write;
use std::{{fs, io}};

fn main(rt: HostRuntime) -> anyhow::Result<()> {{
    let mut out = io::writer(&rt);
{calls}    writeln!(out, "{end}")?;
    Ok(())
}}
"""


def programs():
    """The programs of the document: the name, the text, and the lines that it prints."""
    fenced = re.findall(r"^```(\w+) ?(\w*)\n(.*?)^```$", DOCUMENT.read_text(encoding="utf-8"), re.M | re.S)
    for (kind, name, text), (kind_behind, _, output) in zip(fenced, [*fenced[1:], ("", "", "")]):
        if kind == "rust":
            if not name or kind_behind != "text":
                raise Failure(f"docs/EXAMPLES.md: a program has no name, or no output behind it: {text[:60]!r}")
            yield name, text, output.splitlines()


def call_of(name, text):
    """The lines that call a program by its `run`; none where it has none."""
    run = re.search(r"^pub fn run<.*?\(\s*(.*?),?\s*\) ->", text, re.M | re.S)
    if not run:
        return ""
    words = []
    for word, form in re.findall(r"(\w+): (&mut [A-Z]\b|&\[u8\]|\w+)", run[1]):
        opened = {"alloc": "rt.alloc()", "_alloc": "rt.alloc()", "out": "&mut out"}.get(word)
        words.append(opened or (f'&fs::read(&rt, "{word}.bin")?' if form == "&[u8]" else
                                f'&mut File::open(&rt, "{word}.bin")?'))
    return f"    {name}::run({', '.join(words)})?;\n"


def write(folder):
    """Writes the crate of the one program that runs all, each behind a line with its name."""
    (folder / "src").mkdir(parents=True, exist_ok=True)
    modules, calls = [], f'    writeln!(out, "{HEAD}examples")?;\n'
    for file in sorted((EXAMPLES / "src").glob("*.rt")):
        if file.stem != "main":
            shutil.copy(file, folder / "src")
            modules.append(file.stem)
            calls += call_of(file.stem, file.read_text(encoding="utf-8"))
    for name, text, _ in programs():
        if name in modules:
            raise Failure(f"docs/EXAMPLES.md: crates/examples has a file {name}.rt")
        (folder / "src" / f"{name}.rt").write_text(text, encoding="utf-8")
        modules.append(name)
        calls += f'    writeln!(out, "{HEAD}{name}")?;\n{call_of(name, text)}'
    text = MAIN.format(modules="".join(f"mod {it};\n" for it in sorted(modules)), calls=calls, end=f"{HEAD}end")
    (folder / "src" / "main.rt").write_text(text, encoding="utf-8")


def printed(output):
    """Of each program the lines that it printed."""
    lines, name = {}, None
    for line in output.splitlines():
        if line.startswith(HEAD):
            name = line.removeprefix(HEAD)
            lines[name] = []
        elif name:
            lines[name].append(line)
    return lines


def is_wanted(line, wanted):
    """Whether a line is this one, or begins as one does that is cut off."""
    return line.startswith(wanted[:-2]) if wanted.endswith("..") else line == wanted


def compare(output):
    """Compares what the one program printed; returns how many printed what they have to, and how many there are."""
    expected = ("examples", "", (EXAMPLES / "stdout").read_text(encoding="utf-8").splitlines())
    lines, found, passed = printed(output), [expected, *programs()], 0
    for name, _, wanted in found:
        told = lines.get(name, [])
        if len(told) == len(wanted) and all(map(is_wanted, told, wanted)):
            passed += 1
            print(f"ok: {name}")
        elif told:
            print(f"failed: {name} prints", *told, "in place of", *wanted, sep="\n    ")
        else:
            print(f"failed: {name} prints nothing")
    return passed, len(found)
