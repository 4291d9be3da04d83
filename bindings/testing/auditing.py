"""The tests of bindings/audit: those of the crate, and the program before a server of our own."""

import glob
import os

from .support import BINDINGS, run, rust_environment, tell

FOLDER = os.path.join(BINDINGS, "audit")
TESTING = os.path.join(BINDINGS, "testing")
# What takes crates from Debian's packages, and what needs none.
WITH = ["--offline", "--config", "debian.toml"]
WITHOUT = ["--offline", "--manifest-path", "without_tls/Cargo.toml"]
# The crate for TLS, of the package librust-openssl-dev.
OPENSSL = "/usr/share/cargo/registry/openssl-[0-9]*"
RECORDINGS = os.path.join(os.path.dirname(BINDINGS), "crates", "connection_conformance", "data")


def build_load(room):
    """Compiles the program that says recorded conversations, and returns its file."""
    made = os.path.join(room, "audit_load")
    run(["rustc", "-O", "--edition", "2021", os.path.join(TESTING, "audit_load.rs"), "-o", made])
    return made


def has_tls():
    """Returns whether the machine has the crate for TLS."""
    return bool(glob.glob(OPENSSL))


def check_program(program, load):
    """Runs the checks, and tells what they measured."""
    words = ["python3", os.path.join(TESTING, "audit.py"), program, RECORDINGS, "--load", load]
    tell(run(words if has_tls() else [*words, "--without-tls"]))


def test_crate(report, library, room):
    """Tests the crate, in a folder aside, since the program is compiled by other flags."""
    environment = rust_environment(library, os.path.join(room, "audit_crate"))
    how = {"cwd": FOLDER, "env": {**environment, "RUSTFLAGS": "-D warnings"}}
    report.run("cargo test of the audit without TLS", run, ["cargo", "test", *WITHOUT], **how)
    if has_tls():
        report.run("cargo test of the audit", run, ["cargo", "test", *WITH], **how)


def test_program(report, library, room):
    """Builds the program, and has connections pass it."""
    how = {"cwd": FOLDER, "env": rust_environment(library, room)}
    built = report.run("cargo build of the audit", run,
                       ["cargo", "build", *(WITH if has_tls() else WITHOUT), "--release"], **how)
    load = report.run("the load for the audit", build_load, room)
    if built and load:
        program = os.path.join(room, "target", "release", "mysql-audit")
        report.run("connections through the audit", check_program, program, load)
