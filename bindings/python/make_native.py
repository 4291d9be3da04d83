"""Compiles the extension of the module, _native.abi3.so, with the library in it.

By CPython's limited interface of 3.8 one file serves that version and all later ones. It takes a C
compiler (CC, else cc) and the headers of the Python that runs this.
"""

from __future__ import annotations

import os
import pathlib
import shlex
import shutil
import subprocess
import sys
import sysconfig
from typing import Optional, Union

HERE = pathlib.Path(__file__).resolve().parent
NAME = "_native.abi3.so"

# A call that a header doesn't declare isn't of the limited interface: it never compiles.
WORDS = ["-std=c11", "-O2", "-fPIC", "-shared", "-fvisibility=hidden", "-Wall", "-Wextra",
         "-Wno-missing-field-initializers", "-Wno-cast-function-type",
         "-Werror=implicit-function-declaration"]
# The names of the library stay within the file, and nothing of it is bound late.
LINKED = ["-Wl,--exclude-libs,ALL", "-Wl,-z,relro", "-Wl,-z,now"]


class Lacking(Exception):
    """What the machine lacks to compile the extension."""


def compiler() -> list[str]:
    """The compiler's words."""
    return shlex.split(os.environ.get("CC") or "cc")


def lacking() -> Optional[str]:
    """What the machine lacks to compile the extension, or None."""
    include = sysconfig.get_path("include")
    if sys.implementation.name != "cpython" or sysconfig.get_config_var("Py_GIL_DISABLED"):
        return (f"{sys.executable} is no CPython with its lock: a Python of free threads has no "
                "stable interface that an extension could be built for")
    if not os.path.isfile(os.path.join(include, "Python.h")):
        return f"there is no {include}/Python.h, Python's headers: apt-get install python3-dev"
    if not shutil.which(compiler()[0]):
        return f"there is no C compiler {compiler()[0]}: apt-get install gcc libc6-dev"
    return None


def compile_native(archive: Union[str, pathlib.Path], made: Union[str, pathlib.Path]) -> None:
    """Compiles the extension over libmysql_session.a."""
    why = lacking()
    if why:
        raise Lacking(why)
    sources = sorted(str(it) for it in (HERE / "native").glob("*.c"))
    words = [*compiler(), *WORDS, "-I", sysconfig.get_path("include"), "-I", str(HERE.parent / "c"),
             *sources, str(archive), *LINKED, "-o", str(made)]
    ran = subprocess.run(words, stdin=subprocess.DEVNULL, stdout=subprocess.PIPE,
                         stderr=subprocess.STDOUT, text=True, errors="replace")
    if ran.returncode != 0:
        raise Lacking(f"{shlex.join(words)} ended with status {ran.returncode}\n{ran.stdout}")
