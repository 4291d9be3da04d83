"""Makes a wheel of the module and its extension, for pip (PEP 517); it needs a C compiler, Python's
headers, and no network.

    pip wheel --no-deps bindings/python

The extension is compiled over the libmysql_session.a of the folder that MYSQL_SESSION_LIBRARY names,
else over the one that `bindings/build` made. Where that isn't proved the wheel's version says so, as
0.1.0+unproved. One wheel is for CPython 3.8 and all later versions, on x86-64 Linux with glibc.
"""

from __future__ import annotations

import base64
import hashlib
import os
import pathlib
import re
import tempfile
import zipfile
from typing import Any, Dict

import make_native

HERE = pathlib.Path(__file__).resolve().parent
LICENSES = ("LICENSE-APACHE", "LICENSE-MIT")

METADATA = """Metadata-Version: 2.1
Name: mysql_session
Version: {version}
Summary: MySQL and MariaDB connections, and parameter sets of queries, as bytes and back
License: MIT OR Apache-2.0
Requires-Python: >=3.8
"""

WHEEL = """Wheel-Version: 1.0
Generator: make_wheel
Root-Is-Purelib: false
Tag: cp38-abi3-linux_x86_64
"""


def library() -> Dict[str, bytes]:
    """The extension, and the file that says whether the library is proved, by their names."""
    folder = pathlib.Path(os.environ.get("MYSQL_SESSION_LIBRARY") or HERE.parent / "out")
    names = ("libmysql_session.a", "mysql_session.build")
    for name in names:
        if not (folder / name).is_file():
            raise SystemExit(f"there is no {folder / name}: run bindings/build, which makes it, or have "
                             "MYSQL_SESSION_LIBRARY name the folder that has it")
    with tempfile.TemporaryDirectory() as room:
        made = pathlib.Path(room) / make_native.NAME
        try:
            make_native.compile_native(folder / names[0], made)
        except make_native.Lacking as error:
            raise SystemExit(str(error)) from None
        return {make_native.NAME: made.read_bytes(), names[1]: (folder / names[1]).read_bytes()}


def record_line(name: str, data: bytes) -> str:
    """A file's line in the wheel's list of files."""
    digest = base64.urlsafe_b64encode(hashlib.sha256(data).digest()).rstrip(b"=").decode()
    return f"{name},sha256={digest},{len(data)}\n"


def build_wheel(wheel_directory: str, config_settings: Any = None,
                metadata_directory: Any = None) -> str:
    """Writes the wheel to a folder, and returns its name."""
    module, found = (HERE / "mysql_session.py").read_bytes(), library()
    version = re.search(r'^__version__ = "(.*)"$', module.decode(), re.M)
    assert version
    word = found["mysql_session.build"].decode().split()[0]
    label = version.group(1) + ("" if word == "proved" else f"+{word}")

    files = {"mysql_session/__init__.py": module, "mysql_session/py.typed": b""}
    files.update({f"mysql_session/{name}": data for name, data in found.items()})
    about = f"mysql_session-{label}.dist-info"
    for name in LICENSES:
        files[f"{about}/licenses/{name}"] = (HERE.parent.parent / name).read_bytes()
    files[f"{about}/METADATA"] = METADATA.format(version=label).encode()
    files[f"{about}/WHEEL"] = WHEEL.encode()
    lines = [record_line(name, data) for name, data in files.items()]
    files[f"{about}/RECORD"] = ("".join(lines) + f"{about}/RECORD,,\n").encode()

    name = f"mysql_session-{label}-cp38-abi3-linux_x86_64.whl"
    with zipfile.ZipFile(os.path.join(wheel_directory, name), "w", zipfile.ZIP_DEFLATED) as wheel:
        for file, data in files.items():
            wheel.writestr(zipfile.ZipInfo(file), data, zipfile.ZIP_DEFLATED)
    return name


def build_sdist(sdist_directory: str, config_settings: Any = None) -> str:
    """There is none: the library is compiled from the whole repository."""
    raise SystemExit("the library is compiled from the whole repository: make a wheel")
