#!/usr/bin/env python3
"""Where the library's time goes: profile.py BUILD WORKLOAD.. (`perf` samples the processor's clock)

A line is WORKLOAD and shares in percent: the library's own code, allocation (`malloc`, `free` and their kin), copying (`memcpy`, `memset`), and the
system, which is nearly all the first touch of pages that were given out. With --functions behind the workloads the largest functions too."""
import os
import re
import subprocess
import sys
import tempfile

BUILD = sys.argv[1]
WORKLOADS = [word for word in sys.argv[2:] if word != "--functions"]
ALLOCATION = re.compile(r"malloc|free|realloc|unlink_chunk|sysmalloc|systrim|alloc_perturb|rattle_(alloc|dealloc|free)")
COPYING = re.compile(r"memmove|memcpy|memset|memchr|memcmp")


def kind(where, name):
    if where == "k":
        return "system"
    if ALLOCATION.search(name):
        return "allocation"
    return "copying" if COPYING.search(name) else "own code"


for workload in WORKLOADS:
    with tempfile.TemporaryDirectory() as folder:
        data = os.path.join(folder, "perf.data")
        record = ["perf", "record", "-q", "-e", "cpu-clock", "-F", "1999", "-o", data, "./library", "inputs", "3", workload]
        subprocess.run(record, cwd=BUILD, check=True, stdout=subprocess.DEVNULL, stderr=subprocess.DEVNULL)
        report = ["perf", "report", "-i", data, "--stdio", "--no-children", "-F", "overhead,symbol"]
        lines = subprocess.run(report, capture_output=True, text=True).stdout.splitlines()
    found = [re.match(r"\s*([\d.]+)%\s+\[(.)\]\s+(.*\S)", line) for line in lines]
    found = [(float(it[1]), it[2], it[3]) for it in found if it]
    shares = {"own code": 0.0, "allocation": 0.0, "copying": 0.0, "system": 0.0}
    for share, where, name in found:
        shares[kind(where, name)] += share
    print(workload, ", ".join(f"{what} {share:.0f}" for what, share in shares.items()), flush=True)
    if "--functions" in sys.argv:
        for share, _, name in found[:12]:
            print(f"    {share:5.1f} {name}")
