"""What `bindings/build` makes: the shared object, what is installed, the wheel, and what is said
where the library is missing."""

import os
import re
import zipfile

from .support import (BINDINGS, C99, Failure, archive_in, compare, has, python_environment, run,
                      rust_environment)

HEADER = os.path.join(BINDINGS, "c", "mysql_session.h")
PROGRAM = """#include <stdio.h>
#include "mysql_session.h"
int main(void)
{
    printf("%d\\n", mysql_session_abi() == MYSQL_SESSION_ABI);
    return 0;
}
"""
CMAKE = """cmake_minimum_required(VERSION 3.10)
project(program C)
find_package(PkgConfig REQUIRED)
pkg_check_modules(MYSQL_SESSION REQUIRED IMPORTED_TARGET mysql_session)
add_executable(program program.c)
target_link_libraries(program PkgConfig::MYSQL_SESSION)
"""


def header():
    """The header without its comments."""
    with open(HEADER, encoding="utf-8") as it:
        return re.sub(r"/\*.*?\*/", " ", it.read(), flags=re.S)


def defined(name):
    """What the header defines a name as, without quotes."""
    return re.search(rf'^#define MYSQL_SESSION_{name} "?([0-9.]+)', header(), re.M).group(1)


def declared_calls():
    """The names of the calls that the header declares."""
    return set(re.findall(r"\b(mysql_session_\w+)\([^)]*\);", header()))


def shared_object(library):
    """It has the name that goes with the header's interface, all calls of the header, and no other
    name."""
    file = os.path.join(library, "libmysql_session.so")
    said = run(["readelf", "--dynamic", file])
    compare(re.findall(r"\(SONAME\).*\[(.*)\]", said), [f"libmysql_session.so.{defined('ABI')}"])
    exports = {line.split()[-1] for line in run(["nm", "-D", "--defined-only", file]).splitlines()}
    compare(sorted(exports), sorted(declared_calls()))


def bound(library):
    """The shared object and the extension bind all names as they are loaded, and their tables can't
    be written behind that."""
    for name in ("libmysql_session.so", "_native.abi3.so"):
        file = os.path.join(library, name)
        said = run(["readelf", "--wide", "--dynamic", "--segments", file])
        for wanted in (r"\(FLAGS\).*\bBIND_NOW\b|\(BIND_NOW\)", r"\(FLAGS_1\).*\bNOW\b",
                       r"^ *GNU_RELRO "):
            if not re.search(wanted, said, re.M):
                raise Failure(f"{name} lacks what {wanted} finds:\n{said}")


# What the library calls of the C library.
CALLED = ["free", "malloc", "memcmp", "memcpy", "memmove", "memset", "realloc"]


def archive(library):
    """Other objects see the calls of the header in the archive, and no other name. What it lacks is
    of the C library."""
    said = run(["nm", "--extern-only", archive_in(library)])
    names = re.findall(r"^[0-9a-f ]+ ([A-Za-z]) (\S+)$", said, re.M)
    compare(sorted(name for kind, name in names if kind != "U"), sorted(declared_calls()))
    compare(sorted(name for kind, name in names if kind == "U" and name not in CALLED), [])


# The names that the extension calls of Python, each of the limited interface of 3.8. Later headers
# declare some under the same macro that 3.8 lacks.
LIMITED = """
    PyBool_FromLong PyByteArray_AsString PyByteArray_FromStringAndSize PyByteArray_Resize
    PyByteArray_Type PyBytes_AsString PyBytes_AsStringAndSize PyBytes_FromObject
    PyBytes_FromStringAndSize PyBytes_Size PyBytes_Type PyCallable_Check PyCapsule_GetPointer
    PyCapsule_New PyDict_Clear PyDict_Copy PyDict_DelItem PyDict_GetItemString
    PyDict_GetItemWithError PyDict_New PyDict_Next PyDict_SetItem PyDict_SetItemString PyErr_CheckSignals PyErr_Clear
    PyErr_ExceptionMatches PyErr_Fetch PyErr_Format PyErr_NoMemory PyErr_Occurred PyErr_Restore
    PyErr_SetObject PyErr_SetString PyEval_RestoreThread PyEval_SaveThread PyExc_ArithmeticError
    PyExc_ImportError PyExc_KeyError PyExc_OverflowError PyExc_RuntimeError PyExc_TypeError
    PyExc_ValueError PyFloat_AsDouble PyFloat_FromDouble PyFloat_Type PyImport_GetModuleDict
    PyImport_ImportModule PyIter_Next
    PyList_Append PyList_AsTuple PyList_GetItem PyList_GetSlice PyList_New PyList_SetItem
    PyList_SetSlice PyList_Size PyList_Type PyLong_AsLongLong PyLong_AsLongLongAndOverflow
    PyLong_AsUnsignedLongLong PyLong_FromLong PyLong_FromLongLong PyLong_FromSize_t
    PyLong_FromUnsignedLong PyLong_FromUnsignedLongLong PyLong_Type PyMem_Free PyMem_Malloc
    PyMem_Realloc PyMemoryView_FromObject PyMemoryView_Type PyModuleDef_Init PyModule_GetState
    PyOS_string_to_double PyObject_Call PyObject_CallFunctionObjArgs PyObject_GC_UnTrack
    PyObject_GenericSetAttr PyObject_GetAttrString PyObject_GetIter PyObject_IsInstance
    PyObject_IsTrue PyObject_Str PySequence_Concat PySequence_GetItem PySequence_Tuple PyThreadState_GetDict
    PyTuple_GetItem PyTuple_New PyTuple_Pack PyTuple_SetItem PyTuple_Size PyTuple_Type
    PyType_FromSpec PyType_GenericAlloc PyType_GetFlags PyType_GetSlot PyType_IsSubtype PyType_Type
    PyUnicode_AsUTF8String PyUnicode_Decode PyUnicode_DecodeASCII PyUnicode_DecodeUTF8
    PyUnicode_FromEncodedObject PyUnicode_FromFormat PyUnicode_FromStringAndSize
    PyUnicode_InternFromString PyUnicode_InternInPlace Py_GetVersion _PyArg_ParseTuple_SizeT
    _PyObject_CallFunction_SizeT _PyObject_CallMethod_SizeT _Py_BuildValue_SizeT _Py_Dealloc
    _Py_FalseStruct _Py_NoneStruct _Py_TrueStruct
"""


def extension(library):
    """The extension shows one name, and calls what each Python from 3.8 on has."""
    file = os.path.join(library, "_native.abi3.so")
    shown = [line.split()[-1] for line in run(["nm", "-D", "--defined-only", file]).splitlines()]
    compare(shown, ["PyInit__native"])
    called = {line.split()[-1] for line in run(["nm", "-D", "--undefined-only", file]).splitlines()}
    compare(sorted(it for it in called - set(LIMITED.split()) if it.startswith(("Py", "_Py"))), [])


def without_headers(library, room):
    """Without Python's headers or a compiler, what is lacking is said by its name."""
    program = ("import make_native, sysconfig, sys; sysconfig.get_path = lambda name: '/nothing'; "
               "print(make_native.lacking())")
    how = {"env": python_environment(library), "cwd": room}
    compare(run(["python3", "-c", program], **how), "there is no /nothing/Python.h, Python's headers: "
            "apt-get install python3-dev\n")
    how["env"] = {**how["env"], "CC": "no-such-compiler"}
    program = "import make_wheel; make_wheel.build_wheel('.')"
    compare(run(["python3", "-c", program], 1, **how), "there is no C compiler no-such-compiler: "
            "apt-get install gcc libc6-dev\n")


def build_word(library):
    """What the file beside the library says: whether it is proved."""
    with open(os.path.join(library, "mysql_session.build"), encoding="utf-8") as it:
        word, version = it.readline().strip(), it.readline().strip()
    compare(version, f"mysql_session {defined('VERSION')}, interface {defined('ABI')}")
    if word not in ("proved", "unproved", "unknown"):
        raise Failure(f"it says {word}")
    return word


class Installed:
    """What is installed in a prefix, and used from there alone."""

    def __init__(self, library, room):
        self.library, self.prefix = library, os.path.join(room, "prefix")
        self.lib = os.path.join(self.prefix, "lib")
        self.environment = {**os.environ,
                            "PKG_CONFIG_PATH": os.path.join(self.lib, "pkgconfig")}
        self.folder = os.path.join(room, "installed")

    def install(self):
        """The header, the libraries, what pkg-config reads and the audit are there, and no more."""
        # What was built for other tests isn't built again.
        environment = rust_environment(self.library, os.path.dirname(self.folder))
        run([os.path.join(BINDINGS, "build"), "--to", self.library, "--install", self.prefix],
            env=environment)
        found = [os.path.relpath(os.path.join(at, name), self.prefix)
                 for at, _, names in os.walk(self.prefix) for name in names]
        audit = ["bin/audit-report", "lib/systemd/system/mysql-audit.service", "sbin/mysql-audit",
                 "share/doc/mysql-audit/mysql-audit.conf", "share/man/man1/audit-report.1",
                 "share/man/man8/mysql-audit.8"]
        wanted = ["include/mysql_session.h", "lib/libmysql_session.a", "lib/libmysql_session.so",
                  f"lib/libmysql_session.so.{defined('ABI')}", "lib/mysql_session.build",
                  "lib/pkgconfig/mysql_session.pc"]
        compare(sorted(found), sorted(wanted + (audit if has("cargo") else [])))
        if has("cargo"):
            program = os.path.join(self.prefix, "sbin", "mysql-audit")
            compare(run([program, "--help"])[:18], "usage: mysql-audit")
            with open(os.path.join(self.prefix, audit[1]), encoding="utf-8") as it:
                compare(re.findall(r"^ExecStart=(\S+)", it.read(), re.M), [program])
        os.makedirs(self.folder)
        self.write("program.c", PROGRAM)
        self.write("CMakeLists.txt", CMAKE)

    def write(self, name, text):
        """Writes a file of the program."""
        with open(os.path.join(self.folder, name), "w", encoding="utf-8") as it:
            it.write(text)

    def asked(self, *words):
        """What pkg-config answers, as words."""
        return run(["pkg-config", *words, "mysql_session"], env=self.environment).split()

    def pkg_config(self):
        """A program is linked with either library, and pkg-config knows the version."""
        compare(self.asked("--modversion"), [defined("VERSION")])
        compare(self.asked("--variable=build"), [build_word(self.library)])
        ways = [[*self.asked("--libs"), f"-Wl,-rpath,{self.lib}"],
                self.asked("--variable=archive")]
        for words in ways:
            made = os.path.join(self.folder, "program")
            run([*C99, *self.asked("--cflags"), "program.c", *words, "-o", made], cwd=self.folder)
            compare(run([made]), "1\n")

    def cmake(self):
        """A program is built by CMake, as bindings/c/README.md says."""
        made = os.path.join(self.folder, "made")
        run(["cmake", "-S", self.folder, "-B", made], env=self.environment)
        run(["cmake", "--build", made], env=self.environment)
        compare(run([os.path.join(made, "program")]), "1\n")


def wheel(library, room):
    """The wheel has the module and its extension, which work without the repository."""
    made = os.path.join(room, "wheel")
    os.makedirs(made)
    program = "import make_wheel, sys; print(make_wheel.build_wheel(sys.argv[1]))"
    name = run(["python3", "-c", program, made], env=python_environment(library)).strip()
    if not name.endswith("-cp38-abi3-linux_x86_64.whl"):
        raise Failure(f"its name is {name}")
    with zipfile.ZipFile(os.path.join(made, name)) as it:
        compare(it.testzip(), None)
        it.extractall(made)
    bare = {key: text for key, text in os.environ.items() if not key.startswith("MYSQL_SESSION_")}
    program = "import mysql_session as it; print(it.__file__, it.__version__, it.__build__)"
    said = run(["python3", "-c", program], env={**bare, "PYTHONPATH": made}).split()
    compare(said, [os.path.join(made, "mysql_session", "__init__.py"), defined("VERSION"),
                   build_word(library)])


def lacks_library(words, status, environment, folder):
    """A command fails where its environment names an empty folder, and says what makes the library."""
    said = run(words, status, cwd=folder, env=environment)
    if "Run bindings/build, which makes it" not in said:
        raise Failure(f"it says {said}")


def test_build(report, library, room):
    """Tests what `bindings/build` made, and how it is taken."""
    report.run("libmysql_session.so", shared_object, library)
    report.run("names bound as they are loaded", bound, library)
    report.run("libmysql_session.a", archive, library)
    report.run("mysql_session.build", build_word, library)
    report.run("_native.abi3.so", extension, library)
    report.run("Python without headers or a compiler", without_headers, library, room)
    installed = Installed(library, room)
    if report.run("bindings/build --install", installed.install):
        if has("pkg-config"):
            report.run("a program by pkg-config", installed.pkg_config)
        if has("pkg-config", "cmake", "make"):
            report.run("a program by CMake", installed.cmake)
    report.run("a wheel", wheel, library, room)
    nothing = os.path.join(room, "nothing")
    os.makedirs(nothing)
    report.run("Python without the library", lacks_library, ["python3", "-c", "import mysql_session"],
               1, python_environment(nothing), nothing)
    if has("cargo"):
        report.run("cargo without the library", lacks_library, ["cargo", "build", "--offline"],
                   101, rust_environment(nothing, nothing), os.path.join(BINDINGS, "rust"))
