#!/usr/bin/env python3
"""Instructions of two builds of the library side by side: beside.py OLD NEW [WORKLOAD..]

OLD and NEW are folders of `make counted`, each over the archives of its tree. A line is a row of a table: the workload,
the instructions of a unit in OLD and in NEW, and the second number divided by the first. Callgrind counts inside the
calls alone, so no other load of the machine changes them. With no workloads all of `run.py` are counted, in minutes."""
import os
import pathlib
import re
import subprocess
import sys
import tempfile


def all_workloads():
    """The workloads of the runner."""
    with open(os.path.join(os.path.dirname(os.path.abspath(__file__)), "run.py")) as it:
        return re.findall(r'^    "([\w-]+)": ', it.read().partition("WORKLOADS = {")[2], re.M)


def dumped(build, program, workload):
    """Of each way of a workload the instructions and the units. A process does one workload, so that its heap is fresh."""
    words = ["valgrind", "--tool=callgrind", "--instr-atstart=no", "--callgrind-out-file=counts"]
    found = {}
    with tempfile.TemporaryDirectory(prefix="beside-") as room:
        build = os.path.abspath(build)
        words += [f"{build}/{program}", f"{build}/few", "1", workload]
        ran = subprocess.run(words, cwd=room, capture_output=True, text=True)
        if ran.returncode != 0:
            print(f"# {workload}: {build}/{program} did not do the work", flush=True)
        for file in pathlib.Path(room).glob("counts.*"):
            text = file.read_text(errors="replace")
            said = re.search(r"^desc: Trigger: Client Request: (\S+) (\S+) (\d+)$", text, re.M)
            total = re.search(r"^totals: (\d+)$", text, re.M)
            if said and total:
                found[said[2]] = int(total[1]), int(said[3])
    return found


def instructions(build, program, workload):
    """The instructions of a unit of each way of a workload, by the way's name: those inside the calls alone."""
    ways = dumped(build, program, workload)
    # Of a way that makes what it works on, less what it takes to do all once.
    once = {way: ways.get(f"{way}-once", (0, 0)) for way in ways if not way.endswith("-once")}
    return {way: (ways[way][0] - less[0]) / (ways[way][1] - less[1]) for way, less in once.items()}


def written(count):
    return f"{count:.3g}" if count < 100 else f"{count:.0f}"


if __name__ == "__main__":
    print("| workload | before | after | ratio |\n|---|---|---|---|")
    for each in sys.argv[3:] or all_workloads():
        old, new = (instructions(it, "counted", each) for it in sys.argv[1:3])
        for way in [it for it in old if it in new]:
            name = each if way == "library" else f"{each}, {way}"
            print(f"| {name} | {written(old[way])} | {written(new[way])} | {new[way] / old[way]:.2f} |", flush=True)
