#!/usr/bin/env python3
"""Measures `xmp apply` with long scripts, as a user runs it: the tree is made, written and edited again.

    bench/scripts.py PROGRAM [--lines 5000,10000,20000] [--runs 3]

PROGRAM is a built `xmp` (crates/xmp/out/xmp after `rt run`). For each kind of script and number of lines it
prints the least user and system time of the runs; a first script makes what the measured one edits. A script
has at most 1 MiB. Nothing of this is in the gate.
"""

import argparse
import os
import resource
import subprocess
import sys
import tempfile

SPACE = "ns e http://e/\n"
BASE = (
    '<x:xmpmeta xmlns:x="adobe:ns:meta/"><rdf:RDF xmlns:rdf="http://www.w3.org/1999/02/22-rdf-syntax-ns#">'
    '<rdf:Description rdf:about=""/></rdf:RDF></x:xmpmeta>'
)


def mixed(n: int, count: int) -> int:
    """Numbers below the count in a mixed order."""
    return (n * 7919 + 13) % count


def new(line: str):
    return lambda count: "".join(line.format(n) for n in range(count))


def turned(line: str):
    return lambda count: "".join(line.format(mixed(n, count)) for n in range(count))


def all_kinds(count: int) -> str:
    """Lines of most kinds in turn over a tree of properties, deletes and inserts at the front included."""
    lines = ["array e:a bag\nsetlang e:t x-default d\nstruct e:s\n"]
    kinds = [
        "set e:p{0} w\n", "delete e:d{0}\n", "append e:a i\n", "insert e:a 1 i\n", "setlang e:t q-a{0} v\n",
        "qualify e:p{0} e:q w\n", "set e:s/e:f{0} v\n", "seturi e:u{0} urn:a\n", "delete e:a[1]\n", "set e:n{0} v\n",
    ]
    for n in range(count):
        lines.append(kinds[n % len(kinds)].format(n // len(kinds)))
    return "".join(lines)


def properties(count: int) -> str:
    """Two of five lines of the mixed script find a property of these."""
    return "".join(f"set e:p{n} v\nset e:d{n} v\n" for n in range(count // 5))


NONE = lambda count: "struct e:s\nsetlang e:t x-default d\n"
KINDS = {
    "all kinds over as many properties": (properties, all_kinds),
    "setlang of new languages": (NONE, new("setlang e:t q-a{0} v\n")),
    "setlang of each language": (new("setlang e:t q-a{0} v\n"), turned("setlang e:t q-a{0} w\n")),
    "set of new fields": (NONE, new("set e:s/e:f{0} v\n")),
    "set of new qualifiers": (NONE, new("set e:s/?e:q{0} v\n")),
    "set of each qualifier": (lambda count: "struct e:s\n" + new("set e:s/?e:q{0} v\n")(count), turned("set e:s/?e:q{0} w\n")),
    "delete of each qualifier": (lambda count: "struct e:s\n" + new("set e:s/?e:q{0} v\n")(count), turned("delete e:s/?e:q{0}\n")),
}


def seconds_of(command) -> float:
    """User and system time of a run."""
    before = resource.getrusage(resource.RUSAGE_CHILDREN)
    subprocess.run(command, check=True, stdout=subprocess.DEVNULL)
    after = resource.getrusage(resource.RUSAGE_CHILDREN)
    return after.ru_utime - before.ru_utime + after.ru_stime - before.ru_stime


def write(path: str, text: str):
    with open(path, "w", encoding="utf-8") as file:
        file.write(text)


def measure(program: str, name: str, count: int, runs: int, folder: str) -> str:
    """The least time of one kind, and the bytes of its script."""
    base, old, out, script = (os.path.join(folder, part) for part in ("base", "old", "out", "script"))
    first, second = KINDS[name]
    write(base, BASE)
    write(script, SPACE + first(count))
    subprocess.run([program, "apply", base, old, script], check=True, stdout=subprocess.DEVNULL)
    write(script, SPACE + second(count))
    least = min(seconds_of([program, "apply", old, out, script]) for _ in range(runs))
    return f"{least:.2f} s ({os.path.getsize(script) / 1e6:.2f} MB)"


def main():
    parser = argparse.ArgumentParser(description=__doc__, formatter_class=argparse.RawDescriptionHelpFormatter)
    parser.add_argument("program")
    parser.add_argument("--lines", default="5000,10000,20000")
    parser.add_argument("--runs", type=int, default=3)
    given = parser.parse_args()
    program = os.path.abspath(given.program)
    with tempfile.TemporaryDirectory() as folder:
        for name in KINDS:
            times = [measure(program, name, int(count), given.runs, folder) for count in given.lines.split(",")]
            print(f"{name:36} {'  '.join(times)}", flush=True)


if __name__ == "__main__":
    sys.exit(main())
