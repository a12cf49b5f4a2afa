#!/usr/bin/env python3
"""Measures `xmp tree` and `xmp get` over hostile and large sidecars, beside other tools.

    bench/measure.py PROGRAM [--sizes 4,8] [--shape NAME] [--runs 5]

PROGRAM is a built `xmp` (crates/xmp/out/xmp after `rt run`). For each shape and size in MiB it
prints the least time of the runs, the peak of memory, and how time grows from one size to the
next. The first lines are of a small sidecar, which is run many times: their time is that of one
run less that of `/bin/true`, which does nothing. `xmllint`, `exempi`, `exiv2` and `exiftool` are
measured where they are installed. Nothing of this is in the gate.

The peak is what `/usr/bin/time` (GNU time) reports, or `-` where it isn't installed. A process that
Python starts itself would report at least Python's own memory.
"""

import argparse
import os
import shutil
import subprocess
import sys
import tempfile
import time

from sidecars import SHAPES

HERE = os.path.dirname(os.path.abspath(__file__))
MIB = 1 << 20
SECONDS = 300
# the status of `timeout` where the time is up
TOO_LONG = 124
SMALL_RUNS = 500
GNU_TIME = shutil.which("time", path="/usr/bin:/bin")
QUIET = {"stdout": subprocess.DEVNULL, "stderr": subprocess.DEVNULL}


def tools(program: str, path: str):
    """The commands to measure, each with its name."""
    yield "xmp tree", [program, "tree", path]
    yield "xmp get", [program, "get", path, "a:p"]
    others = {
        "xmllint": ["xmllint", "--noout", "--huge", path],
        "exempi": ["exempi", "-x", path],
        "exiv2": ["exiv2", "-PX", path],
        "exiftool": ["exiftool", "-XMP:all", path],
    }
    for name, command in others.items():
        if shutil.which(name):
            yield name, command


def seconds_of(command, times: int = 1):
    """Seconds of a run, as a mean of several in one shell; None after too long."""
    loop = f'n=0; while [ $n -lt {times} ]; do "$@" >/dev/null 2>&1; n=$((n+1)); done'
    # Python's own time limit polls, at last every 50 ms, and would round each time up to that.
    limited = ["timeout", str(SECONDS), "sh", "-c", loop, "sh", *command]
    began = time.perf_counter()
    status = subprocess.run(limited, check=False, **QUIET).returncode
    taken = (time.perf_counter() - began) / times
    return None if status == TOO_LONG else taken


def peak_of(command):
    """Kilobytes at the peak and the exit status, or None for what can't be told."""
    if GNU_TIME is None:
        return None, subprocess.run(command, check=False, **QUIET).returncode
    with tempfile.NamedTemporaryFile("r") as told:
        measured = [GNU_TIME, "-q", "-o", told.name, "-f", "%M", *command]
        status = subprocess.run(measured, check=False, **QUIET).returncode
        return int(told.read().split()[-1]), status


def line(shape: str, size: float, name: str, seconds, peak, status, before) -> str:
    """One line of the report."""
    if seconds is None:
        return f"{shape:18} {size:9.4f} MiB  {name:9} too long"
    growth = f"{seconds / before:5.2f}" if before else "    -"
    memory = "-" if peak is None else f"{peak / 1024:.1f}"
    return f"{shape:18} {size:9.4f} MiB  {name:9} {seconds * 1000:10.2f} ms {memory:>9} MB  growth {growth}  exit {status}"


def make(shape: str, size: int, path: str):
    """Writes a sidecar, by a process of its own, which leaves this one small."""
    subprocess.run([sys.executable, os.path.join(HERE, "sidecars.py"), shape, str(size), path], check=True)


def measure(program: str, folder: str, shape: str, sizes, runs: int):
    """One shape at each size."""
    before = {}
    for size in sizes:
        path = os.path.join(folder, f"{shape}-{size}.xmp")
        make(shape, int(size * MIB), path)
        for name, command in tools(program, path):
            taken = [seconds_of(command) for _ in range(runs)]
            seconds = None if None in taken else min(taken)
            peak, status = peak_of(command) if seconds is not None else (None, None)
            print(line(shape, os.path.getsize(path) / MIB, name, seconds, peak, status, before.get(name)), flush=True)
            before[name] = seconds
        os.remove(path)


def measure_start(program: str, folder: str, runs: int):
    """Start-up: a small sidecar, many times."""
    path = os.path.join(folder, "small.xmp")
    make("ordinary", 500, path)
    idle = min(seconds_of(["/bin/true"], SMALL_RUNS) for _ in range(runs))
    for name, command in tools(program, path):
        seconds = min(seconds_of(command, SMALL_RUNS) for _ in range(runs)) - idle
        peak, status = peak_of(command)
        print(line("start-up", os.path.getsize(path) / MIB, name, seconds, peak, status, None), flush=True)


def main():
    parser = argparse.ArgumentParser(description=__doc__, formatter_class=argparse.RawDescriptionHelpFormatter)
    parser.add_argument("program")
    parser.add_argument("--sizes", default="4,8", help="in MiB, the smallest first")
    parser.add_argument("--shape", choices=sorted(SHAPES), help="this shape alone")
    parser.add_argument("--runs", type=int, default=5)
    given = parser.parse_args()
    program = os.path.abspath(given.program)
    sizes = [float(size) for size in given.sizes.split(",")]
    with tempfile.TemporaryDirectory() as folder:
        measure_start(program, folder, given.runs)
        # 20,000 properties in 5 MB, and twice as many.
        if given.shape in (None, "ordinary"):
            measure(program, folder, "ordinary", [5e6 / MIB, 1e7 / MIB], given.runs)
        for shape in [given.shape] if given.shape else SHAPES:
            measure(program, folder, shape, sizes, given.runs)


if __name__ == "__main__":
    sys.exit(main())
