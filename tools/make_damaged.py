#!/usr/bin/env python3
"""make_damaged.py FOLDER

Writes the damaged streams for tests into the folder: the source `damaged.yar`,
the listing `damaged.listing` with `damaged.events` (spans and nesting at fault,
packing in order), and `damaged-*.events` (packing at fault, over the same
source, one over `empty.yar`), each with its expected record. `damaged.txt` says
what each one shows.
"""
import os
import sys

from expected_record import record
from pack import pack

# Not a file that any parser would take: the last comment has every kind of byte
# that the record shows in its own way.
SOURCE = (b'rule Short : t {\n'
          b'\tcondition: "a\\"b" == x // forty bytes, as the record shows them\r\n'
          b'}\n'
          b'/* \x00\x1f\x7f\x80\xff~ \\ " */')

LISTING = b"""# An end before anything is open, then a sound begin
end SOURCE_FILE 0 0
end RULE_DECL 9 3
begin SOURCE_FILE 0 101

# indentation, tabs and a carriage return are blanks
   begin   RULE_DECL 0 84\r
\ttoken\tRULE_KW 0 4
\ttoken WHITESPACE 4 5
  token IDENT 5 10  \t
  # bytes 10 to 15 have no token: a gap; then one that overlaps, and an empty one
  token L_BRACE 15 16
  token NEWLINE 16 17
  token UNKNOWN 5 17
  token INVALID_UTF8 17 17
  token WHITESPACE 17 18
  begin CONDITION_BLK 18 41
  token CONDITION_KW 18 27
  token COLON 27 28
  token WHITESPACE 28 29
  error 0 29 29
  error 65535 0 4294967295
  begin BOOLEAN_EXPR 29 41
    begin BOOLEAN_TERM 29 41
      token STRING_LIT 29 35
      begin BOOLEAN_EXPR 36 38
      token EQ 36 38
      # closes the inner BOOLEAN_EXPR, and is told so
      end EXPR 36 38
      token IDENT 39 40
      # closes BOOLEAN_TERM: from here on every end is one off
    end BOOLEAN_EXPR 29 41
    # still inside the outer BOOLEAN_EXPR, so this is no condition of its own
    begin BOOLEAN_EXPR 40 40
    end BOOLEAN_EXPR 40 40
  end CONDITION_BLK 18 41
  # a second condition, for both of the first are closed
  begin BOOLEAN_EXPR 40 40
  end BOOLEAN_EXPR 40 40
  token COMMENT 41 82
  token COMMENT 41 81
  token NEWLINE 81 83
  # reversed, outside, both at once (told as reversed), and the border
  begin TERM 84 83
  end TERM 84 83
  begin TERM 0 4294967295
  end EXPR 102 101
  token IDENT 84 83
  token WHITESPACE 84 83
  token COMMENT 85 102
  token IDENT 4294967295 4294967295
  token IDENT 4294967295 0
  token IDENT 102 102
  token HEX_BYTE 101 101
  error 7 5 4
  error 127 101 102
  token COMMENT 85 101
  token R_BRACE 83 84
  begin ERROR 86 86
  end ERROR 86 86
  # a begin that is left open, besides three that are open already
  begin FUNC_CALL 86 86
"""

HEAD = b"""begin SOURCE_FILE 0 101
begin BOOLEAN_EXPR 29 41
token STRING_LIT 29 35
error 65535 35 35
"""
EVENTS = pack(HEAD)[:-3]        # without its end record
GOOD = pack(b"token EQ 36 38")[:-3]

# name, packed bytes, the close that is expected, what it shows
STREAMS = [
    ("empty", b"", "fault 1 Cut at byte 0", "no bytes at all"),
    ("only-end", bytes(3), "end at byte 0", "an end record alone"),
    ("no-end", EVENTS, "fault 1 Cut at byte 52", "no end record"),
    ("cut-head", EVENTS + GOOD[:2], "fault 1 Cut at byte 52", "two bytes of a record's head"),
    ("cut-head-tag", EVENTS + b"\x09", "fault 1 Cut at byte 52", "a cut head goes before its unknown tag"),
    ("cut-payload", EVENTS + GOOD[:12], "fault 1 Cut at byte 52", "the last byte of a record is missing"),
    ("cut-payload-kind", EVENTS + b"\x01\x00\x0a\xff\xff", "fault 1 Cut at byte 52",
     "a cut payload goes before its unknown kind"),
    ("cut-head-end", EVENTS + b"\x00\x00", "fault 1 Cut at byte 52", "two bytes of the end record"),
    ("tag", EVENTS + b"\x05" + GOOD[1:] + bytes(3), "fault 2 UnknownTag at byte 52", "tag 5"),
    ("tag-length", EVENTS + b"\xff\x00\x00", "fault 2 UnknownTag at byte 52",
     "an unknown tag goes before its wrong length"),
    ("length", EVENTS + b"\x03\x00\x09" + GOOD[3:] + bytes(3), "fault 3 WrongLength at byte 52", "length 9"),
    ("length-swapped", EVENTS + b"\x03\x0a\x00" + GOOD[3:] + bytes(3), "fault 3 WrongLength at byte 52",
     "length 10 with its bytes swapped"),
    ("length-end", EVENTS + b"\x00\x00\x0a" + GOOD[3:], "fault 3 WrongLength at byte 52",
     "an end record with length 10"),
    ("length-cut", EVENTS + b"\x01\x00\x00", "fault 3 WrongLength at byte 52",
     "a wrong length goes before a cut payload"),
    ("kind", EVENTS + b"\x03\x00\x0a\x00\x7f" + GOOD[5:] + bytes(3), "fault 4 UnknownKind at byte 52", "kind 127"),
    ("kind-last", EVENTS + b"\x02\x00\x0a\x00\x7e" + GOOD[5:] + b"\x01\x00\x0a\x01\x00" + GOOD[5:],
     "fault 4 UnknownKind at byte 65", "kind 126 is the last one; 256 is none"),
    ("first", b"\x04\x00\x0b", "fault 3 WrongLength at byte 0", "the very first record is at fault"),
    ("behind", EVENTS + bytes(3) + GOOD + b"\xff\xff", "end at byte 52", "bytes behind the end record"),
]


def main():
    if len(sys.argv) != 2:
        sys.exit("usage: make_damaged.py FOLDER")

    def write(name, content):
        with open(os.path.join(sys.argv[1], name), "wb") as file:
            file.write(content)

    told = ["Each NAME.events has its expected record in NAME.record. The source is damaged.yar,\n"
            "for damaged-no-source the empty file empty.yar.\n\n"]

    def stream(name, packed, close, shows, source=SOURCE):
        printed = record(source, packed)
        assert "\nclosed: %s\n" % close in "\n" + printed, (name, printed)
        write(name + ".events", packed)
        write(name + ".record", printed.encode("ascii"))
        told.append("%-26s %-32s %s\n" % (name, close, shows))

    write("damaged.yar", SOURCE)
    write("damaged.listing", LISTING)
    packed = pack(LISTING)
    stream("damaged", packed, "end at byte %d" % (len(packed) - 3),
           "spans and nesting at fault; packed from damaged.listing")
    for name, packed, close, shows in STREAMS:
        stream("damaged-" + name, packed, close, shows)
    write("empty.yar", b"")
    stream("damaged-no-source", pack(b"token IDENT 0 0\ntoken IDENT 0 1\nerror 1 0 0\n"), "end at byte 39",
           "a source without bytes", b"")
    write("damaged.txt", "".join(told).encode("ascii"))


if __name__ == "__main__":
    main()
