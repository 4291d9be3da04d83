"""What tools share that build crates by `rt try`, which needs no proof.

The programs that they keep have the checks of `rt try`, but neither its sandbox nor its address
sanitizer. Where a check fails, such a program ends by a signal, and `rt try` says where.

`rt try` reads all sources from the beginning, and takes a minute to. So what is tried together is
copied into one repository and made one crate, of which each crate is a module.
"""

import contextlib
import ctypes
import os
import pathlib
import re
import shutil
import signal
import subprocess
import time

from listed import CRATES, ROOT, below


class Failure(Exception):
    """A step failed."""


def run(step, words, folder):
    """Runs a step's command; its output is told where it fails."""
    print(step, flush=True)
    ran = subprocess.run(words, cwd=folder, stdin=subprocess.DEVNULL, capture_output=True, text=True, errors="replace")
    if ran.returncode != 0:
        raise Failure(f"{step}: {words[0]} ended with status {ran.returncode}\n{ran.stderr}")


def kit():
    """Returns the folder of the Rattle kit."""
    page = subprocess.run(["rt", "doc"], stdout=subprocess.PIPE, text=True, check=True).stdout
    return pathlib.Path(page.strip()).parent


# ---- Sources -----------------------------------------------------------------------------------


def copy_sources(crate, uses, room):
    """Copies the sources of what a crate uses, and of all below it, as a repository; returns the crate's folder."""
    names = sorted(below([crate], uses))
    for name in names:
        for part in ("src", "specs"):
            if (CRATES / name / part).is_dir():
                shutil.copytree(CRATES / name / part, room / "crates" / name / part)
    listed = "".join(f"{name}: {' '.join(uses[name])}\n" for name in names)
    (room / "crates.txt").write_text(listed, encoding="utf-8")
    shutil.copy(ROOT / "HANDLES", room)
    (room / "crates" / crate / "src").mkdir(parents=True, exist_ok=True)
    return room / "crates" / crate


def add_module(sources, name, folder):
    """Copies the sources of a crate as a module of the crate in this folder."""
    for file in sources.rglob("*.rt"):
        text = re.sub(r"\bcrate::", f"crate::{name}::", file.read_text(encoding="utf-8"))
        to = folder / "src" / name / file.relative_to(sources)
        if file.parent == sources and file.stem in ("lib", "main"):
            text = re.sub(r"^#!\[.*\]$", "", text, flags=re.M).replace("\nfn main(", "\npub fn main(")
            to = folder / "src" / f"{name}.rt"
        to.parent.mkdir(parents=True, exist_ok=True)
        to.write_text(text, encoding="utf-8")


# ---- rt try ------------------------------------------------------------------------------------


def spare_hint(tried):
    """Ends the check that `rt try` runs beside itself only for hints on names, which takes as long again."""
    with contextlib.suppress(OSError):
        for pid in pathlib.Path(f"/proc/{tried.pid}/task/{tried.pid}/children").read_text().split():
            if b"--start\0no function\0" in pathlib.Path(f"/proc/{pid}/cmdline").read_bytes():
                os.kill(int(pid), signal.SIGKILL)


# By this processes whose parent has ended become those of this one.
PR_SET_CHILD_SUBREAPER = 36


def wait_for_orphans():
    """Waits for what `rt try` killed as it ended, so that its time is counted as this process's."""
    latest = time.monotonic() + 5
    with contextlib.suppress(ChildProcessError):
        while time.monotonic() < latest:
            if os.waitpid(-1, os.WNOHANG) == (0, 0):
                time.sleep(0.01)


@contextlib.contextmanager
def begun(words, folder, room, said):
    """Begins `rt try` with these words, whose files are below room/try until it is ended."""
    (room / "try").mkdir()
    how = {"env": {**os.environ, "TMPDIR": str(room / "try")}, "stdin": subprocess.DEVNULL}
    ctypes.CDLL(None).prctl(PR_SET_CHILD_SUBREAPER, 1, 0, 0, 0)
    tried = subprocess.Popen(["rt", "try", *words], cwd=folder, stdout=said, stderr=said, **how)
    try:
        yield tried
    finally:
        tried.terminate()
        tried.wait()
        wait_for_orphans()


def keep_module(room):
    """Keeps the program's module, which `rt try` writes, as module.bc; returns its size so far, 0 where there is none."""
    kept = room / "module.bc"
    for module in (room / "try").glob("*/*/module.bc"):
        # The first one, of some hundred bytes, tries the sanitizer. A link outlives the run.
        if not kept.exists() and module.stat().st_size > 1000:
            os.link(module, kept)
    return kept.stat().st_size if kept.exists() else 0


def take_module(folder, room):
    """Runs `rt try` until the program's module is whole, and keeps it."""
    print("rt try: the program's module", flush=True)
    size = stands = 0
    with open(room / "said", "w+", encoding="utf-8", errors="replace") as said:
        with begun(["--steps", "1", "--seconds", "1"], folder, room, said) as tried:
            while tried.poll() is None and stands < 20:
                time.sleep(0.05)
                spare_hint(tried)
                now = keep_module(room)
                stands, size = stands + 1 if now and now == size else 0, now
        said.seek(0)
        if not size:
            raise Failure(f"rt try: it ended with status {tried.returncode} and no module\n{said.read()}")


def module_text(room):
    """Writes the module that was kept as text, module.ll."""
    clang = kit() / "toolchain" / "bin" / "clang"
    words = ["--no-default-config", "-x", "ir", "-S", "-emit-llvm", "-Xclang", "-disable-llvm-passes"]
    run("clang: the module as text", [str(clang), *words, "module.bc", "-o", "module.ll"], room)


# What `rt try` alone adds to a function: the address sanitizer, and fills of fresh places.
ADDED = re.compile(r"  (%r\d+) = alloca |  call void @llvm\.memset\.p0\.i64\(ptr (%r\d+), i8 -86,")


def without_fills(text):
    """The lines of a module's text without the fills of fresh memory."""
    fresh = None
    for line in text:
        place = ADDED.match(line)
        is_fill = place and place[2] and place[2] == fresh
        fresh = place[1] if place else None
        if not is_fill:
            yield line


# ---- Programs ----------------------------------------------------------------------------------

FLAGS = """--target=x86_64-unknown-linux-gnu -march=x86-64-v2 -O1 -fPIE -ffunction-sections -fdata-sections
    -mllvm -no-trap-after-noreturn -mllvm -trap-unreachable""".split()
# As `rt try` links it.
LINKED = """-m elf_x86_64 -pie --dynamic-linker /lib64/ld-linux-x86-64.so.2 --as-needed -z relro -z now -z noexecstack
    --gc-sections lib/Scrt1.o lib/crti.o lib/crtbeginS.o program.o c/libos_c.a c/liblibc_c.a lib/libm.so.6 lib/libc.so.6
    lib/libc_nonshared.a lib/ld-linux-x86-64.so.2 lib/libgcc.a lib/libgcc_s.so.1 lib/crtendS.o lib/crtn.o""".split()


def compile_module(room, file):
    """Compiles the program's module that was kept, without the address sanitizer, as this file."""
    module_text(room)
    with open(room / "module.ll", encoding="utf-8") as text, open(room / "program.ll", "w", encoding="utf-8") as to:
        for line in without_fills(text):
            if line.startswith("attributes "):
                line = line.replace(" sanitize_address", "").replace(' "frame-pointer"="all"', "")
                # A group without an attribute is none for clang.
                line = line.replace("{ }", '{ "none" }')
            to.write(line)
    at = kit()
    tools = at / "toolchain" / "bin"
    words = ["--no-default-config", "-x", "ir", *FLAGS, "-c", "program.ll", "-o", "program.o"]
    run("clang: the object", [str(tools / "clang"), *words], room)
    of_kit = {"lib": at / "toolchain", "c": at}
    linked = [str(of_kit.get(it.partition("/")[0], room) / it) if "." in it and it[0] != "/" else it for it in LINKED]
    run("ld.lld: the program", [str(tools / "ld.lld"), *linked, "-o", "program"], room)
    file.parent.mkdir(parents=True, exist_ok=True)
    shutil.copyfile(room / "program", f"{file}.new")
    os.chmod(f"{file}.new", 0o755)
    os.replace(f"{file}.new", file)
