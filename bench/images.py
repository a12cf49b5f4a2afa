#!/usr/bin/env python3
"""Measures `xmp` over TIFF files, and asks other tools whether an edited file has its old pages.

    bench/images.py PROGRAM [--runs 5] [--folder DIR] [--pages FILE ..]

PROGRAM is a built `xmp` (crates/xmp/out/xmp after `rt run`). Files of two sizes are made as `tiffs.py` makes
its usual one; the time of a `set` that relocates is told beside that of `cp`, in turns with it. Each FILE, and
each that `convert` of ImageMagick makes (pages, compressed pages, a BigTIFF file, and one to which `exiftool`
adds what a camera writes), is edited twice: without an entry of a packet, and then with one. ImageMagick, which
reads TIFF by libtiff, tells the pages before and after by the digests of their pixels, and the packet that it
finds; where they are installed `tiffinfo` must tell the same directories of both, and `exiftool` the same
values beside the packet's, and the new one. IDENTIFY and CONVERT name ImageMagick's programs. Nothing of this
is in the gate.
"""

import argparse
import json
import os
import shutil
import subprocess
import sys
import tempfile

from photographs import MB, beside_copy, reads_of, show, start_of
from tiffs import usual

IDENTIFY = os.environ.get("IDENTIFY", "identify")
CONVERT = os.environ.get("CONVERT", "convert")

# What a camera writes beside its picture: a directory of Exif, one of GPS, and a block of IPTC.
CAMERA = [
    "-Make=Example",
    "-Model=Camera 1",
    "-ExifIFD:ExposureTime=1/125",
    "-ExifIFD:FNumber=5.6",
    "-ExifIFD:DateTimeOriginal=2024:05:06 07:08:09",
    "-GPSLatitude=47.5",
    "-GPSLatitudeRef=N",
    "-GPSLongitude=8.5",
    "-GPSLongitudeRef=E",
    "-IPTC:Keywords=alpha",
]


def said(command) -> str:
    """What a command says, in its two streams."""
    ran = subprocess.run(command, capture_output=True, text=True, check=False)
    return ran.stdout + ran.stderr


def pages_of(file: str) -> str:
    """Each page's size, and the digest of its pixels."""
    return said([IDENTIFY, "-quiet", "-format", "%[width]x%[height] %#\n", file])


def packet_of(file: str) -> str:
    """The packet that ImageMagick finds in the first page."""
    return said([CONVERT, "-quiet", file + "[0]", "xmp:-"])


def made(folder: str):
    """Files that ImageMagick makes."""
    kinds = {
        "pages.tif": [],
        "packed.tif": ["-compress", "lzw"],
        "tiled.tif": ["-define", "tiff:tile-geometry=32x32"],
        "big-endian.tif": ["-endian", "MSB"],
    }
    for name, options in kinds.items():
        path = os.path.join(folder, name)
        said([CONVERT, "-seed", "1", "-size", "96x64", "plasma:", "plasma:", "gradient:red-blue", *options, path])
        yield path
    path = os.path.join(folder, "big.tif")
    said([CONVERT, "-seed", "2", "-size", "96x64", "plasma:", "plasma:", "TIFF64:" + path])
    yield path
    if shutil.which("exiftool"):
        path = os.path.join(folder, "camera.tif")
        said([CONVERT, "-seed", "3", "-size", "640x480", "plasma:", "-depth", "8", path])
        said(["exiftool", "-q", "-overwrite_original", *CAMERA, path])
        yield path


def directories_of(file: str) -> str:
    """What `tiffinfo` says of each directory, less the packet and the places of the first directory and of its head."""
    shown, inside = [], False
    for line in said(["tiffinfo", "-D", file]).splitlines():
        if line.startswith("  XMLPacket"):
            inside = True
        elif inside:
            inside = not line.startswith("<?xpacket end")
        elif line.strip() and not line.startswith(("TIFF Directory at offset", "TIFFReadDirectory: Warning")):
            shown.append(line)
    return "\n".join(shown)


def values_of(file: str) -> dict:
    """All values that `exiftool` reads, but those of the file itself and of its packet."""
    told = json.loads(said(["exiftool", "-j", "-a", "-G1", "-s", file]))[0]
    # of a BigTIFF file the packet is shown as an entry too
    apart = ("SourceFile", "ExifTool:", "System:", "File:", "XMP", "IFD0:ApplicationNotes")
    return {name: value for name, value in told.items() if not name.startswith(apart)}


def source_of(file: str) -> str:
    return said(["exiftool", "-s3", "-XMP-dc:Source", file]).strip()


def others_agree(old: str, new: str, value: str) -> str:
    """What other tools say of an edited file, of those that are installed; DIFFERS where they don't agree."""
    told = []
    if shutil.which("tiffinfo"):
        same = directories_of(old) == directories_of(new) != ""
        told.append("tiffinfo same" if same else "tiffinfo DIFFERS")
    if shutil.which("exiftool"):
        same = values_of(old) == values_of(new) and source_of(new) == value
        told.append("exiftool same" if same else "exiftool DIFFERS")
    return ", ".join(told) if told else "tiffinfo and exiftool aren't installed"


def edit(program: str, old: str, new: str, value: str) -> bool:
    """Whether an edited file has the old pages and the value, as others read it."""
    report = said([program, "set", old, new, "dc:source", value]).strip()
    same = pages_of(old) == pages_of(new) != ""
    found = f"<dc:source>{value}</dc:source>" in packet_of(new)
    shown = said([program, "get", new, "dc:source"]).strip() == value
    others = others_agree(old, new, value)
    pages, packet = "same" if same else "DIFFER", "found" if found else "NOT FOUND"
    print(f"{os.path.basename(old):16} {report:28} pages {pages}, packet {packet}, {others}", flush=True)
    return same and found and shown and "DIFFERS" not in others


def edit_twice(program: str, file: str, folder: str) -> bool:
    """A file whose first directory has no packet, and what comes of it, which has one that a longer text doesn't fit."""
    first, second = os.path.join(folder, "first.tif"), os.path.join(folder, "second.tif")
    return edit(program, file, first, "short") and edit(program, first, second, "long" * 1000)


def costs(program: str, folder: str, runs: int):
    file, out = os.path.join(folder, "a.tif"), os.path.join(folder, "b.tif")
    for pages in (2, 20):
        with open(file, "wb") as written:
            written.write(usual(pages))
        size = os.path.getsize(file) // MB
        get = [program, "get", file, "dc:format"]
        show(f"get, {size} MB, {pages} pages", start_of(program, file), get, f"reads {reads_of(get)}")
        beside_copy(f"set that relocates, {size} MB", [program, "set", file, out, "dc:format", "image/tiff"], file, out, runs)
        os.remove(out)


def main():
    parser = argparse.ArgumentParser(description=__doc__, formatter_class=argparse.RawDescriptionHelpFormatter)
    parser.add_argument("program")
    parser.add_argument("--runs", type=int, default=5)
    parser.add_argument("--folder", help="where the files are made: not in memory, for `cp`")
    parser.add_argument("--pages", nargs="*", default=[], help="TIFF files to edit beside those that are made")
    given = parser.parse_args()
    program = os.path.abspath(given.program)
    with tempfile.TemporaryDirectory(dir=given.folder) as folder:
        files = list(given.pages)
        if shutil.which(IDENTIFY) and shutil.which(CONVERT):
            files += made(folder)
            print("all as before" if all([edit_twice(program, file, folder) for file in files]) else "a file DIFFERS")
        else:
            print("ImageMagick isn't installed")
        costs(program, folder, given.runs)


if __name__ == "__main__":
    sys.exit(main())
