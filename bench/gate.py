#!/usr/bin/env python3
"""Measures what each crate costs the gate: processor time of its proof, its tests and its must-fail edits.

    bench/gate.py [CRATE ..] [--processor N]

Runs `rt ci CRATE` for one crate after the other, those that others stand on first, on one processor, and prints a row of a
Markdown table for each. On one processor `rt ci` takes the three steps one after the other, and says when each is done; the
time is that of the processes that have ended by then. The crates below one are kept from its predecessors' runs. A crate that
this machine has passed before isn't proved again, and has the row `kept`: measure on an empty machine, or after a change.
It is no part of the gate.
"""

import argparse
import os
import re
import subprocess
import sys

HERE = os.path.dirname(os.path.abspath(__file__))
TICKS = os.sysconf("SC_CLK_TCK")


def lowest_first(lines):
    """The crates of crates.txt, each after those that it stands on."""
    below = {}
    for line in lines:
        line = line.split("#")[0].strip()
        if line:
            name, _, deps = line.partition(":")
            below[name.split()[0]] = deps.split()
    order = []

    def add(name):
        if name in below and name not in order:
            for dep in below[name]:
                add(dep)
            order.append(name)

    for name in below:
        add(name)
    return order


def processor_seconds(pid: int) -> float:
    """User and system time of a process and of those of its children that have ended."""
    with open(f"/proc/{pid}/stat", encoding="utf-8") as file:
        fields = file.read().rsplit(")", 1)[1].split()
    return sum(int(field) for field in fields[11:15]) / TICKS


def measure(crate: str, processor: int):
    """Seconds until the crate is proved, until its edits begin, and in all; and the last line of the run."""
    command = ["taskset", "-c", str(processor), "rt", "ci", crate]
    run = subprocess.Popen(command, cwd=os.path.dirname(HERE), stdout=subprocess.PIPE, stderr=subprocess.STDOUT, text=True)
    proved = edits = None
    now, last = 0.0, ""
    for line in run.stdout:
        now, last = processor_seconds(run.pid), line.rstrip()
        if line.startswith(f"rt: {crate} proved"):
            proved = now
        elif re.match(f"rt: {crate}: trying its must-fail edits", line):
            edits = now
    run.wait()
    return proved, edits, now, last


def row(crate: str, processor: int):
    """A row of the table, and its seconds."""
    proved, edits, whole, last = measure(crate, processor)
    if proved is None:
        return f"| {crate} | kept | | | |", 0.0, last
    edits = whole if edits is None else edits
    parts = [proved, edits - proved, whole - edits, whole]
    return f"| {crate} | " + " | ".join(f"{part / 60:.1f}" for part in parts) + " |", whole, last


def main():
    parser = argparse.ArgumentParser(description=__doc__, formatter_class=argparse.RawDescriptionHelpFormatter)
    parser.add_argument("crates", nargs="*")
    parser.add_argument("--processor", type=int, default=0)
    given = parser.parse_args()
    with open(os.path.join(HERE, "..", "crates.txt"), encoding="utf-8") as file:
        crates = [name for name in lowest_first(file) if not given.crates or name in given.crates]
    print("Processor minutes, from nothing.\n\n| crate | proof | tests | edits | whole |\n|---|---|---|---|---|", flush=True)
    sum_of_all, failed = 0.0, []
    for crate in crates:
        text, seconds, last = row(crate, given.processor)
        sum_of_all += seconds
        if ", 0 failed" not in last:
            failed.append(f"{crate}: {last}")
        print(text, flush=True)
    print(f"| **sum** | | | | {sum_of_all / 60:.1f} |")
    for line in failed:
        print(line, file=sys.stderr)
    return 1 if failed else 0


if __name__ == "__main__":
    sys.exit(main())
