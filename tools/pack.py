#!/usr/bin/env python3
"""pack.py LISTING > EVENTS

Packs a listing of events: for each a tag byte (1 begin, 2 end, 3 token, 4
error), the length 10 in two bytes, the kind's number or the message in two, the
start and the end in four each, the higher byte first; at the end three zeros.

A line that is no event is refused with its number, and nothing is written.
"""
import re
import struct
import sys

from syntax_kinds import NUMBER

TAGS = {b"begin": 1, b"end": 2, b"token": 3, b"error": 4}


def number(word, largest):
    """A decimal number up to the largest; anything else is a ValueError."""
    if not re.fullmatch(rb"[0-9]+", word) or int(word) > largest:
        raise ValueError
    return int(word)


def packed(line):
    """The packed event of a line, or no bytes if the line is passed over."""
    words = [word for word in re.split(rb"[ \t]+", line.removesuffix(b"\r")) if word]
    if not words or words[0].startswith(b"#"):
        return b""
    name, what, start, end = words
    tag = TAGS[name]
    value = number(what, 65535) if tag == 4 else NUMBER[what.decode("ascii")]
    return struct.pack(">BHHII", tag, 10, value, number(start, 0xFFFFFFFF), number(end, 0xFFFFFFFF))


def pack(listing):
    """The packed events of a whole listing."""
    out = []
    for count, line in enumerate(listing.split(b"\n"), 1):
        try:
            out.append(packed(line))
        except (ValueError, KeyError):
            sys.exit("line %d of the listing is no event: %r" % (count, line))
    return b"".join(out) + bytes(3)


if __name__ == "__main__":
    if len(sys.argv) != 2:
        sys.exit("usage: pack.py LISTING > EVENTS")
    with open(sys.argv[1], "rb") as file:
        sys.stdout.buffer.write(pack(file.read()))
