#!/usr/bin/env python3
"""Measures the reading of resources, datasets and texts, and reconciling, over made blocks and trees.

    bench/blocks.py [--runs 3] [--mib 8,16] [--folder FOLDER]

The two programs of bench/programs are built by `rt run` in a copy of the crates that they stand
on, so they are proved first: that takes minutes. For each shape the least user and system time of
the runs is printed, and the peak of memory, both as GNU time reports them of the whole process, so
with the making of the block; and what the program itself told in its last run. Nothing of this is
in the gate.
"""

import argparse
import os
import shutil
import subprocess
import tempfile

TOP = os.path.dirname(os.path.dirname(os.path.abspath(__file__)))
PROGRAMS = {
    "block_cost": "irb_iptc field_values xmp_values",
    "sources_cost": "mwg_rules exif_fields irb_iptc xmp_tree xmp_values",
}
SHAPES = (
    "resources datasets empty-fields other-fields same-fields fields utf8 latin control".split()
)
# properties of the tree, items of its dc:subject, keywords of the block
TREES = ((20_000, 100_000, 100_000), (20_000, 0, 100_000), (40_000, 200_000, 200_000))


def below(lines, name, found):
    """The crates of the repository that a crate stands on, and itself."""
    if name in lines and name not in found:
        found.append(name)
        for other in lines[name].split():
            below(lines, other, found)
    return found


def made(folder):
    """A repository of the crates and the programs, in a folder of its own."""
    with open(f"{TOP}/crates.txt", encoding="utf-8") as it:
        lines = dict(line.split(":", 1) for line in it if ":" in line and line[0] != "#")
    needed = []
    for uses in PROGRAMS.values():
        for name in uses.split():
            below(lines, name, needed)
    os.makedirs(f"{folder}/crates", exist_ok=True)
    shutil.copy(f"{TOP}/HANDLES", folder)
    for name in needed:
        if not os.path.isdir(f"{folder}/crates/{name}"):
            skipped = shutil.ignore_patterns("out")
            shutil.copytree(f"{TOP}/crates/{name}", f"{folder}/crates/{name}", ignore=skipped)
    with open(f"{folder}/crates.txt", "w", encoding="utf-8") as it:
        it.writelines(f"{name}:{lines[name]}" for name in needed)
        it.writelines(f"{name}: {uses}\n" for name, uses in PROGRAMS.items())
    for name in PROGRAMS:
        source = f"{folder}/crates/{name}/src"
        os.makedirs(source, exist_ok=True)
        shutil.copy(f"{TOP}/bench/programs/{name}.txt", f"{source}/main.rt")


def built(folder, name):
    """The built program."""
    crate = f"{folder}/crates/{name}"
    subprocess.run(["rt", "run", "--jobs", "1"], cwd=crate, check=True, stdout=subprocess.DEVNULL)
    return f"{crate}/out/{name}"


def measured(command, runs):
    """The least seconds of user and system time of the runs, the peak of memory, and the last output."""
    taken, peak = [], 0
    for _ in range(runs):
        timed = ["/usr/bin/time", "-f", "%U %S %M", *command]
        run = subprocess.run(timed, capture_output=True, text=True, check=True)
        user, system, kilobytes = run.stderr.split()[-3:]
        taken.append(float(user) + float(system))
        peak = max(peak, int(kilobytes) / 1024)
    return f"{min(taken):.2f} s, {peak:.0f} MiB, {run.stdout.strip()}"


def main():
    parser = argparse.ArgumentParser(description=__doc__.split("\n", maxsplit=1)[0])
    parser.add_argument("--runs", type=int, default=3)
    parser.add_argument("--mib", default="8,16")
    parser.add_argument("--folder", default=None)
    given = parser.parse_args()
    folder = given.folder or tempfile.mkdtemp(prefix="blocks-")
    made(folder)
    program = built(folder, "block_cost")
    for shape in SHAPES:
        for mib in given.mib.split(","):
            print(f"{shape} {mib}: {measured([program, shape, mib], given.runs)}", flush=True)
    program = built(folder, "sources_cost")
    for numbers in TREES:
        words = [str(number) for number in numbers]
        print(f"{' '.join(words)}: {measured([program, *words], given.runs)}", flush=True)


if __name__ == "__main__":
    main()
