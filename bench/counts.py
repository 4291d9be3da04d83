#!/usr/bin/env python3
"""Instructions of the library beside those of the side in Rust: counts.py BUILD [WORKLOAD..] (valgrind's callgrind counts them)

BUILD is a folder of `make counted_by_hand`. A line is WORKLOAD, the instructions of a unit of the library, and that number divided by that of the
side in Rust, or a dash where it has no such workload. Only what is inside the calls counts. No other load of the machine changes it.
With no workloads all of `run.py` that have a side by hand are counted."""
import os
import re
import sys

sys.dont_write_bytecode = True

import beside  # noqa: E402

BUILD = os.path.abspath(sys.argv[1])


def by_hand():
    """The workloads of the runner that have a side by hand."""
    with open(os.path.join(os.path.dirname(os.path.abspath(__file__)), "run.py")) as it:
        rows = re.findall(r'^    "([\w-]+)": (.*),$', it.read(), re.M)
    return [name for name, sides in rows if re.search(r'HAND|LISTS|CLIENTS|"rust"', sides)]


def main():
    for each in sys.argv[2:] or by_hand():
        ours = beside.instructions(BUILD, "counted", each).get("library")
        other = beside.instructions(BUILD, "counted_rust", each).get("hand-rust")
        if ours:
            print(each, beside.written(ours), f"{ours / other:.2f}" if other else "-", flush=True)


if __name__ == "__main__":
    main()
