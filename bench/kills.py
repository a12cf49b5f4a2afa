#!/usr/bin/env python3
"""Kills `xmp patch` at random moments, and looks at what it leaves of the file.

    bench/kills.py PROGRAM [--runs 1000] [--properties 20000] [--seed 1] [--kind sidecar]

PROGRAM is a built `xmp` (crates/xmp/out/xmp after `rt run`). Each run patches a sidecar with a
packet that has room for the edit, or a file of 50 MB with such a packet, of the kind jpeg, tiff or bigtiff,
and is killed after a random part of the time that a whole run takes. Of each file that is left there are four kinds: the old bytes, the new ones, a closed packet
(a space, then the new bytes up to some place and the old ones after it) which `xmp tree` refuses,
and anything else, which is an error. Nothing of this is in the gate.
"""

import argparse
import collections
import os
import random
import signal
import struct
import subprocess
import sys
import tempfile
import time
from struct import pack

HEADER = '<?xpacket begin="\ufeff" id="W5M0MpCehiHzreSzNTczkc9d"?>\n'
TRAILER = '<?xpacket end="w"?>'
RDF = "http://www.w3.org/1999/02/22-rdf-syntax-ns#"
SIGNATURE = b"http://ns.adobe.com/xap/1.0/\0"
REFUSED = 3
STRIP = 25_000_000
QUIET = {"stdout": subprocess.DEVNULL, "stderr": subprocess.DEVNULL}


def sidecar(properties: int) -> bytes:
    """A packet of so many properties, with room for a longer value of the first one."""
    inside = "".join(f"<a:p{n}>value of number {n}</a:p{n}>\n" for n in range(properties))
    text = (
        f'<x:xmpmeta xmlns:x="adobe:ns:meta/">\n<rdf:RDF xmlns:rdf="{RDF}">\n'
        f'<rdf:Description rdf:about="" xmlns:a="urn:a">\n{inside}</rdf:Description>\n</rdf:RDF>\n</x:xmpmeta>\n'
    )
    return (HEADER + text + " " * 4096 + TRAILER).encode()


def photograph(packet: bytes, size: int = 50_000_000) -> bytes:
    """A JPEG file with this packet, and a scan of so many bytes."""
    payload = SIGNATURE + packet
    return b"\xff\xd8\xff\xe1" + (len(payload) + 2).to_bytes(2, "big") + payload + b"\xff\xda" + bytes(size) + b"\xff\xd9"


def image(packet: bytes, wide: bool) -> bytes:
    """A TIFF or BigTIFF file of two strips of 25 MB, and after them the packet."""
    head, number, entry = ("<HHH", "Q", "<HHQQ") if wide else ("<H", "I", "<HHII")
    first = pack(head, 43, 8, 0) if wide else pack(head, 42)
    at = 16 if wide else 8
    count = pack("<Q" if wide else "<H", 3)
    tables = at + len(count) + 3 * struct.calcsize(entry) + struct.calcsize(number)
    strips = tables + 16
    behind = strips + 2 * STRIP
    entries = [(273, 4, 2, tables), (279, 4, 2, tables + 8), (700, 1, len(packet), behind)]
    if wide:
        # two numbers of 32 bits stand in their entry
        entries[0] = (273, 4, 2, strips | (strips + STRIP) << 32)
        entries[1] = (279, 4, 2, STRIP | STRIP << 32)
    directory = count + b"".join(pack(entry, *one) for one in entries) + pack("<" + number, 0)
    numbers = pack("<IIII", strips, strips + STRIP, STRIP, STRIP)
    return b"II" + first + pack("<" + number, at) + directory + numbers + bytes(2 * STRIP) + packet


KINDS = {
    "sidecar": lambda packet: packet,
    "jpeg": photograph,
    "tiff": lambda packet: image(packet, False),
    "bigtiff": lambda packet: image(packet, True),
}


def patch(program: str, photo: str, script: str) -> subprocess.Popen:
    """A run that patches the file."""
    return subprocess.Popen([program, "patch", photo, script], **QUIET)


def write(path: str, data: bytes) -> None:
    with open(path, "wb") as file:
        file.write(data)


def read(path: str) -> bytes:
    with open(path, "rb") as file:
        return file.read()


def is_closed(old: bytes, new: bytes, now: bytes) -> bool:
    """Whether a closed packet holds the new bytes up to some place, and the old ones after it."""
    first = old.index(b"<?xpacket")
    if len(now) != len(old) or now[:first] != old[:first] or now[first : first + 1] != b" ":
        return False
    end = old.index(TRAILER.encode(), first) + len(TRAILER)
    place = next((n for n in range(first + 1, end) if now[n] != new[n]), end)
    return now[place:] == old[place:]


def kind_of(program: str, photo: str, old: bytes, new: bytes) -> str:
    """What a run that was killed has left."""
    now = read(photo)
    if now == old:
        return "old"
    if now == new:
        return "new"
    if not is_closed(old, new, now):
        return "other bytes"
    status = subprocess.run([program, "tree", photo], check=False, **QUIET).returncode
    return "refused" if status == REFUSED else "read although closed"


def run_killed(program: str, photo: str, script: str, after: float) -> None:
    """Patches the file, and kills the run after some seconds."""
    process = patch(program, photo, script)
    time.sleep(after)
    process.send_signal(signal.SIGKILL)
    process.wait()


def main() -> int:
    parser = argparse.ArgumentParser(description=__doc__.splitlines()[0])
    parser.add_argument("program")
    parser.add_argument("--runs", type=int, default=1000)
    parser.add_argument("--properties", type=int, default=20000)
    parser.add_argument("--seed", type=int, default=1)
    parser.add_argument("--kind", choices=KINDS, default="sidecar")
    arguments = parser.parse_args()
    program = os.path.abspath(arguments.program)
    moments = random.Random(arguments.seed)
    old = KINDS[arguments.kind](sidecar(arguments.properties))
    with tempfile.TemporaryDirectory() as folder:
        photo, script = os.path.join(folder, "photo.xmp"), os.path.join(folder, "script")
        write(script, b"set a:p0 another value\n")
        write(photo, old)
        began = time.perf_counter()
        if patch(program, photo, script).wait() != 0:
            print("the patch without a kill failed", file=sys.stderr)
            return 1
        whole = time.perf_counter() - began
        new = read(photo)
        counts = collections.Counter()
        for _ in range(arguments.runs):
            write(photo, old)
            run_killed(program, photo, script, moments.random() * whole * 1.2)
            counts[kind_of(program, photo, old, new)] += 1
    print(f"{len(old)} bytes, {whole * 1000:.1f} ms a run:", ", ".join(f"{n} {kind}" for kind, n in counts.items()))
    return 0 if set(counts) <= {"old", "new", "refused"} else 1


if __name__ == "__main__":
    sys.exit(main())
