#!/usr/bin/env python3
"""Holds the resolver's call for C against an independent reading of the rules (docs/RULES.md), on random addresses.

usage: compare.py [SEED [COUNT]]      after tools/host/run.sh, which builds the static library
"""
import ctypes
import os
import random
import re
import subprocess
import sys
from collections import Counter

TOP = os.path.dirname(os.path.dirname(os.path.dirname(os.path.abspath(__file__))))
ARCHIVE = os.path.join(TOP, "target", "staticlib", "libaddress.a")
LIBRARY = os.path.join(TOP, "target", "libberth.so")


class Answer(ctypes.Structure):
    _fields_ = [
        ("number", ctypes.c_uint32),
        ("layer", ctypes.c_uint32),
        ("events", ctypes.c_uint64),
        ("place", ctypes.c_uint64),
        ("linked", ctypes.c_uint32),
        ("length", ctypes.c_uint64),
    ]


def resolver():
    """The call for C, as a function from address, base, directory and room to bytes, None or (number, place)."""
    subprocess.run(
        ["gcc", "-shared", "-o", LIBRARY, "-Wl,--whole-archive", ARCHIVE, "-Wl,--no-whole-archive"], check=True
    )
    library = ctypes.CDLL(LIBRARY)

    def call(address, base, directory, room):
        before = b"\xaa" * (room + 1)
        out = ctypes.create_string_buffer(before, room + 1)
        answer = Answer()
        size = ctypes.c_size_t
        library.berth_resolve(
            address, size(len(address)), base, size(len(base)), directory, size(len(directory)),
            out, size(room), ctypes.byref(answer),
        )
        used = answer.length if answer.linked else 0
        assert out.raw[used:] == before[used:], "bytes beyond the answer were changed"
        if answer.number:
            assert answer.layer == 1 and answer.events == 0 and used == 0
            return (answer.number, answer.place)
        return out.raw[:used] if answer.linked else None

    return call


def first_bad(text):
    """The place of the first byte that starts no well-formed character, or a control character."""
    place = 0
    while place < len(text):
        for width in (1, 2, 3, 4):
            try:
                char = text[place : place + width].decode("utf-8")
                break
            except UnicodeDecodeError:
                continue
        else:
            return place
        if ord(char) < 32 or 127 <= ord(char) <= 159:
            return place
        place += width
    return None


def below(address, base, directory):
    """A relative address: below the base, and below the directory unless it starts with a slash."""
    rest, mark, anchor = address.partition(b"#")
    anchor = mark + anchor
    path, mark, query = rest.partition(b"?")
    query = mark + query
    segments = [] if address.startswith(b"/") else [part for part in directory.split(b"/") if part]
    *leading, last = path.split(b"/")
    slash = True
    if last in (b"index.md", b"."):
        last = b""
    for part in leading + [last]:
        if part in (b"", b"."):
            continue
        if part == b"..":
            if not segments:
                return None
            segments.pop()
        else:
            segments.append(part)
    if last not in (b"", b".."):
        if last.endswith(b".md"):
            segments[-1] = last[:-3]
        else:
            slash = False
    return base + b"".join(b"/" + segment for segment in segments) + (b"/" if slash else b"") + query + anchor


def rules(address, base, directory, room):
    for text in (address, base, directory):
        place = first_bad(text)
        if place is not None:
            return (4, place)
    if re.match(rb"[A-Za-z][A-Za-z0-9+.-]*:", address):
        found = address
    elif address == b"" or address.startswith(b"#"):
        found = None
    elif address.startswith(b"//"):
        found = (base.partition(b"//")[0] if b"//" in base else b"") + address
    else:
        found = below(address, base, directory)
        if found is None:
            return (7, 0)
    if len(base) > 128:
        return (8, 0)
    if found is None:
        return None
    if sum(1 if 32 <= byte <= 126 else 3 for byte in found) > 512:
        return (8, 0)
    return found if len(found) <= room else (13, 0)


def text(rng, weights, most):
    return b"".join(rng.choices(list(weights), list(weights.values()), k=rng.randint(0, most)))


ADDRESS = {
    b"a": 6, b"b": 4, b".": 5, b"..": 12, b"/": 24, b".md": 6, b"index.md": 4, b"x.md": 4, b"?": 3, b"#": 3, b":": 2,
    b"//": 2, b"http:": 1, b"1": 1, b"+": 1, b"-": 1, b" ": 1, b"%": 1, b"\xc3\xa9": 2, b"a" * 150: 0.5,
    b"\t": 0.1, b"\x7f": 0.1, b"\xff": 0.1, b"\xc2\x85": 0.1,
}
DIRECTORY = {b"a": 4, b"docs": 4, b"/": 10, b"..": 1, b".": 1, b"index.md": 1, b"\xc3\xa9": 1, b"\x7f": 0.05}
BASE = {
    b"https://nexte.st": 20, b"http://a": 10, b"": 3, b"b": 3, b"x:y//z": 3, b"//h": 2, b"a" * 128: 2, b"a" * 129: 1,
    b"mailto:x": 2, b"s:/\xc3\xa9": 2, b"\xff": 0.2,
}


def main():
    seed = int(sys.argv[1]) if len(sys.argv) > 1 else 1
    count = int(sys.argv[2]) if len(sys.argv) > 2 else 100000
    rng = random.Random(seed)
    call = resolver()
    seen = Counter()
    for _ in range(count):
        address, directory = text(rng, ADDRESS, 9), text(rng, DIRECTORY, 6)
        base = rng.choices(list(BASE), list(BASE.values()))[0]
        room = rng.choice([512, 512, 512, rng.randint(0, 60)])
        expected = rules(address, base, directory, room)
        got = call(address, base, directory, room)
        if got != expected:
            sys.exit(f"{address!r} from {base!r} and {directory!r} into {room}: {got!r}, and the rules say {expected!r}")
        seen["refused %d" % expected[0] if isinstance(expected, tuple) else "none" if expected is None else "address"] += 1
    print(f"{count} addresses from seed {seed}, no difference:", ", ".join(f"{n} {k}" for k, n in seen.most_common()))


main()
