#!/usr/bin/env python3
"""Measures `xmp` over JPEG files: what `get` reads and takes, and what a relocation costs beside `cp`.

    bench/photographs.py PROGRAM [--runs 5] [--folder DIR]

PROGRAM is a built `xmp` (crates/xmp/out/xmp after `rt run`). For each file it prints the least time of the
runs and the peak of memory; for a relocation also the time of `cp`, in turns with it, and the quotient. Reads
are counted by `strace` where it is installed. At last the sample photo.jpg is edited, and `exiftool`, `exiv2`
and `exempi` show the value of the new file where they are installed. Nothing of this is in the gate.
"""

import argparse
import hashlib
import os
import shutil
import subprocess
import sys
import tempfile
import time

from measure import peak_of, seconds_of

HERE = os.path.dirname(os.path.abspath(__file__))
SAMPLE = os.path.join(HERE, "..", "crates", "xmp", "data", "photo.jpg")
MAIN = b"http://ns.adobe.com/xap/1.0/\0"
EXTENSION = b"http://ns.adobe.com/xmp/extension/\0"
HEADER = '<?xpacket begin="\ufeff" id="W5M0MpCehiHzreSzNTczkc9d"?>\n'
TRAILER = '<?xpacket end="w"?>'
RDF = "http://www.w3.org/1999/02/22-rdf-syntax-ns#"
NOTE = "http://ns.adobe.com/xmp/note/"
PART = 65_400
MB = 1_000_000


def segment(marker: int, payload: bytes) -> bytes:
    """A segment, whose length counts itself."""
    return bytes([0xFF, marker]) + (len(payload) + 2).to_bytes(2, "big") + payload


def text(properties: str, namespaces: str) -> str:
    """A tree of these elements."""
    return (
        f'<x:xmpmeta xmlns:x="adobe:ns:meta/">\n<rdf:RDF xmlns:rdf="{RDF}">\n'
        f'<rdf:Description rdf:about="" {namespaces}>\n{properties}</rdf:Description>\n</rdf:RDF>\n</x:xmpmeta>\n'
    )


def packet(inner: str) -> bytes:
    return (HEADER + inner + TRAILER).encode()


def picture(size: int) -> bytes:
    """A scan of so many bytes."""
    return b"\xff\xda" + bytes(size) + b"\xff\xd9"


def plain(path: str, size: int, segments: int = 8):
    """A file with a packet, some other segments and a picture."""
    inner = text("<dc:format>image/jpeg</dc:format>\n", 'xmlns:dc="http://purl.org/dc/elements/1.1/"')
    with open(path, "wb") as file:
        file.write(b"\xff\xd8" + segment(0xE0, b"JFIF\0" + bytes(9)))
        file.write(segment(0xE1, MAIN + packet(inner)))
        file.write(segment(0xDB, bytes(65)) * segments + picture(size))


def many(path: str, count: int):
    """A file of so many segments of 4 bytes."""
    with open(path, "wb") as file:
        file.write(b"\xff\xd8" + segment(0xE2, b"") * count + picture(1000))


def extended(path: str, size: int, properties: int):
    """A file with an extended text of this size and so many properties."""
    length = max(size // properties - 21, 1)
    inner = "".join(f"<a:p{n:06}>{'v' * length}</a:p{n:06}>\n" for n in range(properties))
    rest = text(inner, 'xmlns:a="urn:a"').encode()
    name = hashlib.md5(rest).hexdigest().upper().encode()
    note = f"<xmpNote:HasExtendedXMP>{name.decode()}</xmpNote:HasExtendedXMP>\n<dc:format>image/jpeg</dc:format>\n"
    main = packet(text(note, f'xmlns:xmpNote="{NOTE}" xmlns:dc="http://purl.org/dc/elements/1.1/"'))
    with open(path, "wb") as file:
        file.write(b"\xff\xd8" + segment(0xE1, MAIN + main))
        for at in range(0, len(rest), PART):
            numbers = len(rest).to_bytes(4, "big") + at.to_bytes(4, "big")
            file.write(segment(0xE1, EXTENSION + name + numbers + rest[at : at + PART]))
        file.write(picture(1000))


def reads_of(command):
    """How many reads a run makes of its file, and how many bytes; None without strace."""
    if not shutil.which("strace"):
        return None
    traced = ["strace", "-e", "trace=openat,read", *command]
    told = subprocess.run(traced, capture_output=True, text=True, check=False).stderr
    # the file is opened after the libraries
    own = told[told.rindex("openat(") :].splitlines()[1:]
    counts = [int(line.rsplit("=", 1)[1]) for line in own if line.startswith("read(")]
    return len(counts), sum(counts)


def show(name: str, seconds: float, command, more: str = ""):
    peak, status = peak_of(command)
    memory = "-" if peak is None else f"{peak / 1024:.1f}"
    print(f"{name:44} {seconds * 1000:10.2f} ms {memory:>8} MB  exit {status} {more}", flush=True)


def measure(name: str, command, runs: int, more: str = ""):
    """The least time of some runs."""
    show(name, min(seconds_of(command) for _ in range(runs)), command, more)


def beside_copy(name: str, command, file: str, out: str, runs: int):
    """A run and a copy of its file, in turns."""
    taken, copied = [], []
    for _ in range(runs):
        # A file that is there would be emptied first, which takes as long as the copy.
        for times, made in ((copied, ["cp", file, out]), (taken, command)):
            if os.path.exists(out):
                os.remove(out)
            times.append(seconds_of(made))
    show(name, min(taken), command, f"cp {min(copied) * 1000:.2f} ms, quotient {min(taken) / min(copied):.2f}")


def start_of(program: str, file: str) -> float:
    """Seconds of one `get`, as a mean of many, less those of a program that does nothing."""
    return seconds_of([program, "get", file, "dc:format"], 200) - seconds_of(["/bin/true"], 200)


def edit_sample(program: str, folder: str):
    """The sample edited, and the value that other tools read of it."""
    out = os.path.join(folder, "edited.jpg")
    told = subprocess.run([program, "set", SAMPLE, out, "dc:format", "image/jpeg"], capture_output=True, text=True, check=False)
    print("sample:", told.stdout.strip() or told.stderr.strip())
    others = {
        "exiftool": ["exiftool", "-XMP-dc:Format", out],
        "exiv2": ["exiv2", "-PXkt", out],
        "exempi": ["exempi", "-x", out],
    }
    for name, command in others.items():
        if shutil.which(name):
            print(name, subprocess.run(command, capture_output=True, text=True, check=False).stdout.strip())
        else:
            print(name, "isn't installed")


def main():
    parser = argparse.ArgumentParser(description=__doc__, formatter_class=argparse.RawDescriptionHelpFormatter)
    parser.add_argument("program")
    parser.add_argument("--runs", type=int, default=5)
    parser.add_argument("--folder", help="where the files are made: not in memory, for `cp`")
    given = parser.parse_args()
    program = os.path.abspath(given.program)
    with tempfile.TemporaryDirectory(dir=given.folder) as folder:
        file, out = os.path.join(folder, "a.jpg"), os.path.join(folder, "b.jpg")
        for size in (50 * MB, 500 * MB):
            plain(file, size)
            show(f"get, {size // MB} MB", start_of(program, file), [program, "get", file, "dc:format"], f"reads {reads_of([program, 'get', file, 'dc:format'])}")
            command = [program, "set", file, out, "dc:format", "image/x-raw"]
            beside_copy(f"set that relocates, {size // MB} MB", command, file, out, given.runs)
        many(file, 4_000_000)
        measure("tree, four million segments of 4 bytes", [program, "tree", file], given.runs)
        measure("set, the same", [program, "set", file, out, "dc:format", "x"], given.runs)
        extended(file, 5 * MB, 20_000)
        measure("get, extended text of 5 MB, 20,000 properties", [program, "get", file, "dc:format"], given.runs)
        measure("set, the same", [program, "set", file, out, "dc:format", "image/x-raw"], given.runs)
        edit_sample(program, folder)


if __name__ == "__main__":
    sys.exit(main())
