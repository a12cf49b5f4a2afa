#!/usr/bin/env python3
"""Sidecars for the measurements: hostile shapes and large ordinary ones.

    bench/sidecars.py SHAPE BYTES FILE

Each function gives the bytes of a sidecar of about `size` bytes. `SHAPES` names them.
"""

import sys

RDF = "http://www.w3.org/1999/02/22-rdf-syntax-ns#"
HEAD = f'<rdf:RDF xmlns:rdf="{RDF}">\n<rdf:Description rdf:about="" xmlns:a="urn:a"'
FOOT = "\n</rdf:Description>\n</rdf:RDF>\n"


def document(inside: str, attributes: str = "") -> bytes:
    """One description with these attributes and this content."""
    return f"{HEAD}{attributes}>{inside}{FOOT}".encode()


def numbered(unit, size: int) -> str:
    """unit(0), unit(1) and so on, as many as make up the size."""
    parts, length, count = [], 0, 0
    while length < size:
        part = unit(count)
        parts.append(part)
        length += len(part)
        count += 1
    return "".join(parts)


def many_attributes(size: int) -> bytes:
    """One tag with as many attributes as fit."""
    return document("", numbered(lambda n: f' a:p{n}=""', size))


def many_namespaces(size: int) -> bytes:
    """Declarations of namespaces on one tag, and a use of each."""
    count = max(1, size // 40)
    declared = "".join(f' xmlns:n{n}="urn:{n}"' for n in range(count))
    return document("".join(f"<n{n}:p/>" for n in range(count)), declared)


def many_elements(size: int) -> bytes:
    """Empty elements, each of another name."""
    return document(numbered(lambda n: f"<a:p{n}/>", size))


def references(size: int) -> bytes:
    """One text of references alone."""
    return document("<a:p>" + "&#65;" * (size // 5) + "</a:p>")


def brackets(size: int) -> bytes:
    """One text of closing brackets alone."""
    return document("<a:p>" + "]" * size + "</a:p>")


def long_names(size: int) -> bytes:
    """Names of a megabyte each, or of a quarter of the size where that is less."""
    length = min(1_000_000, size // 4)
    count = max(1, size // (2 * length))
    inside = ""
    for n in range(count):
        name = f"a:p{n}" + "x" * length
        inside += f"<{name}></{name}>"
    return document(inside)


def long_namespaces(size: int) -> bytes:
    """Two namespaces of a quarter of the size each that differ at their ends, and a few properties in each."""
    front = "urn:" + "x" * (size // 4)
    declared = f' xmlns:b="{front}1" xmlns:c="{front}2"'
    return document("".join(f"<b:p{n}/><c:p{n}/>" for n in range(100)), declared)


def owned_namespace(size: int) -> bytes:
    """A namespace of 64 KiB, one of its characters as a reference, and as many properties in it as fit."""
    declared = ' xmlns:b="urn:&amp;' + "x" * min(65_536, size // 2) + '"'
    return document(numbered(lambda n: f"<b:p{n}/>", size), declared)


def deep_declarations(size: int) -> bytes:
    """98 levels, each with many declarations. The text is XML; as RDF it goes too deep."""
    count = max(1, size // (98 * 24))
    text, levels = "", []
    for level in range(98):
        declared = "".join(f' xmlns:n{n}="urn:{level}:{n}"' for n in range(count))
        text += f"<n0:e{level}{declared}>"
        levels.append(f"</n0:e{level}>")
    return document(text + "".join(reversed(levels)))


def ordinary(size: int) -> bytes:
    """Properties of about 250 bytes each: 20,000 of them in 5 MB."""
    text = "x" * 220
    return document(numbered(lambda n: f"<a:p{n:05}>{text}</a:p{n:05}>\n", size))


def one_bag(size: int) -> bytes:
    """One Bag: 126,211 items at 4 MiB."""
    items = max(1, size * 126_211 // 4_194_304)
    return document("<a:p><rdf:Bag>" + "".join(f"<rdf:li>item {n:06}xx</rdf:li>\n" for n in range(items)) + "</rdf:Bag></a:p>")


def one_struct(size: int) -> bytes:
    """One structure of fields."""
    return document('<a:p rdf:parseType="Resource">' + numbered(lambda n: f"<a:f{n}>v</a:f{n}>", size) + "</a:p>")


SHAPES = {
    "many-attributes": many_attributes,
    "many-namespaces": many_namespaces,
    "many-elements": many_elements,
    "references": references,
    "brackets": brackets,
    "long-names": long_names,
    "long-namespaces": long_namespaces,
    "owned-namespace": owned_namespace,
    "deep-declarations": deep_declarations,
    "ordinary": ordinary,
    "one-bag": one_bag,
    "one-struct": one_struct,
}


if __name__ == "__main__":
    with open(sys.argv[3], "wb") as file:
        file.write(SHAPES[sys.argv[1]](int(sys.argv[2])))
