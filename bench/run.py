#!/usr/bin/env python3
"""Runs every side of each workload in turn, some rounds: run.py BUILD [ROUNDS [WORKLOAD..]]

Each round runs each side once, so that a busy machine slows all sides alike. A line of the output is WORKLOAD SIDE MEDIAN LEAST MOST,
nanoseconds of the processor (user and system) a unit. `table.py` makes a table of it. Sides that weren't built are left out."""
import os
import statistics
import subprocess
import sys

BUILD, ROUNDS = sys.argv[1], int(sys.argv[2]) if len(sys.argv) > 2 else 5
HERE = os.path.dirname(os.path.abspath(__file__))
SIDES = {
    "library": ["./library"],
    "c": ["./hand_written"],
    "rust": ["./hand_written_rust"],
    "mariadb": ["./libmariadb"],
    "go": ["./go_side"],
    "python": ["/usr/bin/python3", os.path.join(HERE, "sides", "pymysql_side.py")],
}
HAND = ["library", "c", "rust"]
LISTS = [*HAND, "mariadb"]
CLIENTS = [*LISTS, "go"]
WORKLOADS = {
    "frame-16M": HAND,
    "frame-100": HAND,
    "split-16M": HAND,
    "split-100": HAND,
    "places": ["library"],
    "send-text": [*CLIENTS, "python"],
    "send-text-listed": LISTS,
    "send-text-apart": HAND,
    "send-text-one": ["library"],
    "send-execute-one": ["library"],
    "send-text-kept": CLIENTS,
    "send-text-long": CLIENTS,
    "send-text-plain": [*CLIENTS, "python"],
    "send-text-plain-listed": LISTS,
    "send-text-quotes": [*CLIENTS, "python"],
    "send-text-binary": CLIENTS,
    "send-execute": CLIENTS,
    "send-execute-listed": LISTS,
    "send-execute-kept": CLIENTS,
    "send-execute-plain": CLIENTS,
    "send-execute-plain-listed": LISTS,
    "send-execute-plain-kept": CLIENTS,
    "make-sets": ["library"],
    "send-bulk": HAND,
    "send-bulk-plain": HAND,
    "send-values-text": HAND,
    "send-values-execute": HAND,
    "send-values-bulk": HAND,
    "receive-texts": HAND,
    "receive-executes": HAND,
    "receive-bulks": HAND,
    "receive-texts-taken": ["library"],
    "receive-executes-taken": ["library"],
    "receive-bulks-taken": ["library"],
    "receive-texts-bytewise": HAND,
    "receive-executes-bytewise": HAND,
    "recode-texts": HAND,
    "recode-executes": HAND,
    "recode-bulks": HAND,
    "reply-text": [*HAND, "go", "python"],
    "reply-text-bytewise": HAND,
    "reply-binary": [*HAND, "go"],
    "reply-text-lent": CLIENTS,
    "reply-binary-lent": [*HAND, "go"],
    "reply-text-stored": CLIENTS,
    "reply-binary-stored": [*HAND, "go"],
    "reply-text-taken": ["library"],
    "reply-binary-taken": ["library"],
    "connection-queries": ["library"],
    "connection-executions": ["library"],
    "connection-rows": ["library", "go"],
    "connection-rows-lent": ["library", "go"],
    "put-queries": ["library"],
    "put-executions": ["library"],
    "put-sets-text": ["library"],
    "put-sets-execute": ["library"],
    "put-sets-bulk": ["library"],
    "put-sets-long-data": ["library"],
    "put-rows-text": ["library"],
    "put-rows-binary": ["library"],
    "write-reply-text": ["library", "rust"],
    "write-reply-binary": ["library", "rust"],
    "cells-text-by-number": HAND,
    "cells-text-by-name": HAND,
    "cells-binary-by-number": HAND,
    "cells-binary-by-name": HAND,
    "convert-digits": HAND,
    "convert-numbers": HAND,
}


def is_built(side):
    return side == "python" or os.path.exists(os.path.join(BUILD, SIDES[side][0]))


def once(side, workload):
    """What a side prints of a workload: of each of its ways the processor's nanoseconds a unit."""
    words = [*SIDES[side], "inputs", "1", workload]
    ran = subprocess.run(words, cwd=BUILD, capture_output=True, text=True)
    if ran.returncode:
        # One line alone, since each that isn't a time begins with #; the last one says what failed.
        *_, why = ["", *ran.stderr.strip().splitlines()]
        print(f"# {workload}: {side} failed: {why[-200:]}", flush=True)
    for line in ran.stdout.splitlines():
        _, who, _, processor, check = line.split()
        if check == "0":
            print(f"# {workload}: {who} did not do the work", flush=True)
        else:
            yield who, float(processor)


def run(workload):
    found = {}
    print(f"# {workload}: load {os.getloadavg()[0]:.1f}", flush=True)
    for _ in range(ROUNDS):
        for side in filter(is_built, WORKLOADS[workload]):
            for who, time in once(side, workload):
                found.setdefault(who, []).append(time)
    for who, times in found.items():
        print(f"{workload} {who} {statistics.median(times):.4g} {min(times):.4g} {max(times):.4g}", flush=True)


print(f"# {ROUNDS} rounds, {os.cpu_count()} processors")
for each in sys.argv[3:] or WORKLOADS:
    run(each)
