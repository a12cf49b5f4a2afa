#!/usr/bin/env python3
"""Measures `xmp patch` over JPEG, TIFF and BigTIFF files of 50 and 500 MB whose packet has room for the edit.

    bench/patches.py PROGRAM [--runs 200] [--properties 20] [--folder DIR]

PROGRAM is a built `xmp` (crates/xmp/out/xmp after `rt run`). Two scripts take turns, each with another text for
the first property, so that each run writes. Prints the least time of a run less that of a program that does
nothing, and the calls that read and write FILE with their bytes, where `strace` is installed. Nothing of this
is in the gate.
"""

import argparse
import os
import shutil
import subprocess
import sys
import tempfile

import kills
from measure import seconds_of

SIZES = (50_000_000, 500_000_000)


def calls_of(command) -> str:
    """The reads and writes of the patched file, and their bytes."""
    if not shutil.which("strace"):
        return "strace isn't installed"
    told = subprocess.run(["strace", "-e", "trace=openat,read,write", *command], capture_output=True, text=True, check=False).stderr
    # the file and the script are opened after the libraries; the report is the last write
    own = told[told.index(os.path.basename(command[2])) :].splitlines()
    reads = [int(line.rsplit("=", 1)[1]) for line in own if line.startswith("read(")]
    writes = [int(line.rsplit("=", 1)[1]) for line in own if line.startswith("write(") and not line.startswith("write(1,")]
    return f"{len(reads)} reads of {sum(reads)} bytes, {len(writes)} writes of {sum(writes)} bytes"


def measure(program: str, kind: str, size: int, properties: int, folder: str, runs: int):
    """One kind of file of one size."""
    kills.STRIP = size // 2
    photo = os.path.join(folder, "photo")
    packet = kills.sidecar(properties)
    kills.write(photo, kills.KINDS[kind](packet, size) if kind == "jpeg" else kills.KINDS[kind](packet))
    commands = []
    for number in range(2):
        script = os.path.join(folder, f"script{number}")
        kills.write(script, f"set a:p0 text {number}\n".encode())
        commands.append([program, "patch", photo, script])
    start = min(seconds_of(["/bin/true"]) for _ in range(runs))
    least = min(seconds_of(commands[number % 2]) for number in range(runs)) - start
    print(f"{kind:8} {size // 1_000_000:4} MB, packet of {len(packet)} bytes: {least * 1000:.2f} ms, {calls_of(commands[runs % 2])}", flush=True)


def main():
    parser = argparse.ArgumentParser(description=__doc__, formatter_class=argparse.RawDescriptionHelpFormatter)
    parser.add_argument("program")
    parser.add_argument("--runs", type=int, default=200)
    parser.add_argument("--properties", type=int, default=20)
    parser.add_argument("--folder", help="where the files are made")
    given = parser.parse_args()
    program = os.path.abspath(given.program)
    for kind in ("jpeg", "tiff", "bigtiff"):
        for size in SIZES:
            with tempfile.TemporaryDirectory(dir=given.folder) as folder:
                measure(program, kind, size, given.properties, folder, given.runs)


if __name__ == "__main__":
    sys.exit(main())
