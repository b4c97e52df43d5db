#!/usr/bin/env python3
"""expected_record.py SOURCE EVENTS > RECORD

Prints the record of a packed stream of events over its source: a line for each
event, a line for the close, and four lines of totals. It is written from the
description of the record alone, to hold the program's own print against.
"""
import sys

from literal_values import told
from syntax_kinds import KINDS

FAULTS = {1: "Cut", 2: "UnknownTag", 3: "WrongLength", 4: "UnknownKind"}
TRIVIA = ("WHITESPACE", "NEWLINE", "COMMENT")
WORDS = {1: "begin", 2: "end", 3: "token", 4: "error"}
SHOWN = 40


def unpack(packed):
    """The events as (tag, kind or message, start, end), then the number of the
    fault (0 for the end) and the offset at which reading stopped."""
    events, at = [], 0

    def number(offset, size):
        return int.from_bytes(packed[at + offset:at + offset + size], "big")

    while True:
        left = len(packed) - at
        if left < 3:
            return events, 1, at
        tag, length = number(0, 1), number(1, 2)
        if tag > 4:
            return events, 2, at
        if length != (10 if tag else 0):
            return events, 3, at
        if tag == 0:
            return events, 0, at
        if left < 13:
            return events, 1, at
        if tag != 4 and number(3, 2) >= len(KINDS):
            return events, 4, at
        events.append((tag, number(3, 2), number(5, 4), number(9, 4)))
        at += 13


def shown(byte):
    """One byte of a token's text as it is printed."""
    if byte in b'"\\':
        return "\\" + chr(byte)
    if byte in b"\n\r\t":
        return {10: "\\n", 13: "\\r", 9: "\\t"}[byte]
    return chr(byte) if 0x20 <= byte <= 0x7E else "\\x%02x" % byte


def quoted(text):
    """A token's text between quotes; of a long one the first bytes and its length."""
    line = '"' + "".join(map(shown, text[:SHOWN])) + '"'
    return line + " .. %d bytes" % len(text) if len(text) > SHOWN else line


def record(source, packed):
    events, fault, stopped = unpack(packed)
    lines, open_nodes = [], []
    count = {tag: 0 for tag in WORDS}
    trivia = gaps = reach = conditions = deepest = is_reversed = is_outside = 0

    for place, (tag, value, start, end) in enumerate(events):
        count[tag] += 1
        name = str(value) if tag == 4 else KINDS[value]
        notes = ""
        if end < start:
            is_reversed += 1
            notes = " (reversed)"
        elif end > len(source):
            is_outside += 1
            notes = " (outside the source)"
        good_span = not notes

        if tag == 2:
            if not open_nodes:
                notes += " (nothing open)"
            else:
                inner = open_nodes.pop()
                if inner != name:
                    notes += " (open: %s)" % inner

        text = ""
        if tag == 3:
            if name in TRIVIA:
                trivia += 1
                notes = " trivia" + notes
            if good_span:
                token = source[start:end]
                text = " " + quoted(token) + told(name, token, start, quoted)
                gaps += max(0, start - reach)
                reach = max(reach, end)

        indent = "  " * len(open_nodes)
        lines.append("%6d  %s%s %s %d..%d%s%s" % (place, indent, WORDS[tag], name, start, end, text, notes))

        if tag == 1:
            if name == "BOOLEAN_EXPR" and "BOOLEAN_EXPR" not in open_nodes:
                conditions += 1
            open_nodes.append(name)
            deepest = max(deepest, len(open_nodes))

    gaps += len(source) - reach
    lines.append("closed: %s at byte %d" % ("fault %d %s" % (fault, FAULTS[fault]) if fault else "end", stopped))
    lines.append("events: %d (%d begin, %d end, %d token, %d error)"
                 % (len(events), count[1], count[2], count[3], count[4]))
    lines.append("tokens: %d trivia, %d other; gaps %d bytes of %d"
                 % (trivia, count[3] - trivia, gaps, len(source)))
    lines.append("nodes: %d conditions, %d deepest, %d open at the close"
                 % (conditions, deepest, len(open_nodes)))
    lines.append("spans: %d reversed, %d outside the source" % (is_reversed, is_outside))
    return "".join(line + "\n" for line in lines)


if __name__ == "__main__":
    if len(sys.argv) != 3:
        sys.exit("usage: expected_record.py SOURCE EVENTS > RECORD")
    with open(sys.argv[1], "rb") as source, open(sys.argv[2], "rb") as events:
        sys.stdout.write(record(source.read(), events.read()))
