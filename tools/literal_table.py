#!/usr/bin/env python3
"""Makes the table of literals that the program literal_table replays.

    literal_table.py ORACLE_FOLDER OUT

ORACLE_FOLDER holds dsl.py and target/checked/oracle: the original's condition builder, built to answer streams of events.
Each case is a condition of one literal, some blanks before it. A line of the table is

    KIND BLANKS BYTES MARK ANSWER

with the token's bytes in hexadecimal (`-` for none) and the answer in words joined by `:`. The mark is `=` where the answer
is the original's, and `!` where ours differs on purpose; then the original's answer follows behind `|`.
"""
import os, re, struct, subprocess, sys, random

oracle = sys.argv[1]
sys.path.insert(0, oracle)
import dsl

random.seed(7)
cases = []          # (kind, token bytes, ours or None)


def add(kind, text, ours=None):
    cases.append((kind, text if isinstance(text, bytes) else text.encode("utf-8"), ours))


# ---- integers
for n in [0, 1, 7, 8, 9, 10, 63, 64, 100, 255, 1023, 1024, 65535, 2**31, 2**32, 2**53, 2**62, 2**63 - 1, 2**63, 2**63 + 1, 2**64 - 1, 2**64, 2**64 + 1, 10**19, 10**20]:
    for t in [str(n), "0x%x" % n, "0x%X" % n, "0o%o" % n, "%d" % n + "KB", "%d" % n + "MB"]:
        add("i", t)
for n in [2**53 - 1, 2**53, 2**53 + 1, 2**54 - 1, 2**54]:
    add("i", "%dKB" % n)
for n in [8796093022207, 8796093022208, 17592186044415, 17592186044416]:
    add("i", "%dMB" % n)
for t in ["", "_", "__", "0_", "_0", "1_000", "_1_0_", "0x", "0x_", "0_x", "0_x1F", "_0x1F", "0__x__1_f_", "0o", "0o_", "0o8", "0o17", "0_o17", "_0o17", "0o1_7", "0o_17_",
          "0X1F", "0O17", "0b101", "1F", "0xG", "0x1G", "12a", "a", "KB", "MB", "_KB", "0KB", "0xKB", "0oMB", "0x10KB", "0x10MB", "0o17KB", "0o17MB", "1kb", "1Kb", "1kB", "1GB", "1K", "1B",
          "1KBMB", "1MBKB", "1KBKB", "1_KB", "1K_B", "00", "007", "0_0", "08", "0x00000000000000000000ff", "0x0123456789abcdefABCDEF", "9" * 40, "0" * 40 + "1", "0o" + "7" * 21, "0o1" + "7" * 21, "0o2" + "0" * 21,
          "0x" + "f" * 16, "0x1" + "0" * 16, "1KB1", "KB1", "BK", "B", "K", "1MK"]:
    add("i", t)
for _ in range(60):
    n = random.getrandbits(random.randint(1, 66))
    t = random.choice(["%d", "0x%x", "0x%X", "0o%o"]) % n
    for _ in range(random.randint(0, 4)):
        p = random.randint(0, len(t)); t = t[:p] + "_" + t[p:]
    add("i", t + random.choice(["", "", "KB", "MB"]))
for t in ["é", "1é", b"1\xff", b"\xff", b"12\xc3", b"1\xed\xa0\x80", b"1\xf0\x9f\x98\x80"]:
    add("i", t)
# signs: the original takes them inside a token
for t in ["+5", "-5", "0x+5", "0x-5", "0o+7", "+0x5", "_+5", "-0", "+", "-", "--1", "+_5", "-9223372036854775808"]:
    add("i", t, "refused:6")

# ---- a minus sign before an integer literal
for n in [0, 1, 2, 2**62, 2**63 - 1, 2**63, 2**63 + 1, 2**64 - 1, 2**64]:
    for t in [str(n), "0x%x" % n, "0o%o" % n]:
        add("m", t)
for t in ["8796093022207MB", "8796093022208MB", "8796093022209MB", "0x8000000000000KB", "1KB", "0KB", "0_x1F", "0_o17", "_1", "00", "9007199254740992KB", "9007199254740993KB"]:
    add("m", t)

# ---- names
for t in ["a", "abc", "é", "a_1", "ü" * 10, "\U0001f600", b"", b"\xff", b"a\xff", b"ab\xc3\x28", b"\xc0\x80", b"\xe0\x80\x80", b"\xed\xa0\x80", b"\xed\x9f\xbf", b"\xee\x80\x80", b"\xf0\x8f\xbf\xbf", b"\xf0\x90\x80\x80",
          b"\xf4\x8f\xbf\xbf", b"\xf4\x90\x80\x80", b"\xf5\x80\x80\x80", b"\xc2", b"\xe2\x82", b"\xf0\x9f\x98", b"\x80", b"a\x80b", b"\xc2\xa2\xe2\x82\xac\xf0\x90\x8d\x88\xff", b"\xe1\x80\xc0", b"\xf1\x80\x80\xc0", b"\xdf\xbf", b"\xef\xbf\xbf", b"\xc1\xbf", b"\xe0\xa0\x80", b"\xe0\x9f\xbf", b"\x00", b"\x7f"]:
    add("n", t)

# ---- floats
for t in ["0.0", "1.5", "0.1", "0.2", "0.3", "3.14159", "2.5", "1.", ".5", ".", "", "_", "_._", "1_0.2_5", "_1.5", "1.5_", "1_.5", "1._5", "..", "1..5", "1.5.2", ".5.", "0", "7", "123", "00.50", "0.000000000000001", "0.999999999999999",
          "900719925474099.2", "9007199254740992", "9007199254740991", "9007199254740992.", "1.000000000000000", "0.123456789012345", "4.35", "0.07", "1e", "a", "1a", "1.5a", "1 5", "é", b"1.\xff", "0x1.8", "1,5",
          "1e_", "e", "1ee5", "1.5f", "infx", "nanx", "0.30000000000000", "17.0000000000001", "99.99", "123456789.123456", "0000000000000000000001.5", "1.0"]:
    add("f", t)
for _ in range(60):
    k = random.randint(0, 15); d = random.randint(0, 10 ** random.randint(1, 15))
    s = str(d).rjust(k + 1, "0"); t = s[:len(s) - k] + "." + s[len(s) - k:]
    for _ in range(random.randint(0, 2)):
        p = random.randint(0, len(t)); t = t[:p] + "_" + t[p:]
    add("f", t)
for t in ["900719925474099.3", "9007199254740991.0", "9007199254740993", "9007199254740993.0", "0.0000000000000001", "1.0000000000000000", "0.1234567890123456", "9" * 20, "9" * 30 + ".5", "18446744073709551616", "184467440737095516160.0"]:
    add("f", t, "refused:15")
for t in ["1e5", "1.5e3", "1E5", "1e-5", "+1.5", "-1.5", "inf", "nan", "infinity", "NaN", "-inf", "1.e2", ".5e1", "_1e5", "i_nf"]:
    add("f", t, "refused:7")

# ---- strings
for t in ['""', '"a"', '"abc"', '"é"', '"\\n"', '"\\r"', '"\\t"', '"\\0"', '"\\\\"', '"\\""', '"a\\nb"', '"\\x41"', '"\\x4a\\x4B"', '"\\xff"', '"\\x00"', '"\\x4g"', '"\\xg4"', '"\\x4"', '"\\x"', '"\\x4é"', '"\\xé4"', '"\\é"', '"\\a"', '"\\X41"', '"\\u0041"', '"\\ "', '"\\1"',
          '"a\\qb\\n"', '"\\n\\q"', '"\\q\\', '"a\\"', '"\\"', '"', '"a', 'a"', 'a', "", "'a'", '"""', '""""', '"""""', '""""""', '"""a"""', '"""a"', '"""a""', '"""a""""', '"a"b"', '"a""b"', '""a""', '""a"', '"a""', '"""a"b"""', '"""a\\nb"""', '"""\\"""', '"""\\q"""',
          '"""\\x41"""', '"""é\\é"""', '"\\\U0001f600"', '"x\\\U0001f600y"', '"€\\n€"', '"\\x4\\x41"', '"\\x\\x41"', '"\\\\\\"', '"\\\\\\\\"', '"a\\x20b\\x09c"', '"\\x7f\\x80\\xfe"', '"\\nn"', '"\\rr"', '"\\tt"', '"\\00"', '"\n"', '"a\tb"', '"\\\n"', '"""\n"""', '"/"', '"//"', '"\\/"',
          b'"\xff"', b'"a\xc3"', b'"\\\xff"', b'\xff', b'"\\q\xff"', b'"\xed\xa0\x80"', b'a\xff"', '"\\xaB"', '"\\xAb"', '"\\x0"', '"\\x0 "', '"\\xfF\\xFf"', '"a\\\\nb"', '"\\"\\""', '"\\b"', '"\\f"', '"\\v"', '"\\\'"']:
    add("s", t)
for _ in range(70):
    body = "".join(random.choice(["a", "Z", "é", " ", "\\n", "\\t", "\\r", "\\0", "\\\\", '\\"', "\\x%02x" % random.randint(0, 255), "\\x%02X" % random.randint(0, 255), "€"]) for _ in range(random.randint(0, 12)))
    if random.random() < 0.25:
        body += random.choice(["\\q", "\\xz1", "\\x1", "\\€", "\\x1z"]) + random.choice(["", "b", "\\n"])
    q = random.choice(['"', '"', '"""'])
    add("s", q + body + q)

# ---- regular expressions
for t in ["/a/", "/a/i", "/a/s", "/a/is", "/a/si", "/a/ii", "/a/sss", "//", "//i", "/a/b/", "/a/b/i", "/a\\/b/", "/[a/]/s", "/é/i", "/a/x", "/a/ix", "/a/xi", "/a/I", "/a/S", "/a/é", "/a/isé", "/a/\U0001f600", "/a/i ", "/a/ i", "/a/€i", "///", "////", "/a//", "/ /i",
          "/a/ism", "/a/isis", "/\n/s", "/a/0", "/a/\n"]:
    add("r", t)
for t in ["", "a", "/", "a/", "i", "a/i", "ab/is"]:
    add("r", t)
for t in ["/a", "/i", "/is", "/ab"]:
    add("r", t, "refused:10")
for t in [b"/\xff/", b"/a/\xff", b"/a/i\xc3", b"\xff", b"/\xed\xa0\x80/i", b"a\xff"]:
    add("r", t)


def answer(kind, blanks, line):
    m = re.search(r"ref=(\d+)@(\d+)\.\.(\d+)", line)
    if m:
        return "refused:%s:%s..%s" % m.groups()
    if kind == "n":
        return "name"
    m = re.search(r"\(Minus ", line)
    if m:
        return "minus"
    m = re.search(r"\(LiteralInteger \d+\.\.\d+ n=(\d+)\.\.(\d+) i=(-?\d+) u=([01])\)", line)
    if m:
        return "integer:%s:%s:%s..%s" % (m.group(3), "unsigned" if m.group(4) == "1" else "signed", m.group(1), m.group(2))
    m = re.search(r"\(LiteralFloat \d+\.\.\d+ f=([0-9a-f]{16})\)", line)
    if m:
        return "float:" + m.group(1)
    m = re.search(r"\(LiteralString \d+\.\.\d+ ([nt])=(\d+)\.\.(\d+) v=([0-9a-f]*)\)", line)
    if m:
        return "source:%s..%s" % (m.group(2), m.group(3)) if m.group(1) == "n" else "decoded:" + (m.group(4) or "-")
    m = re.search(r"\(Regexp \d+\.\.\d+ n=(\d+)\.\.(\d+)(?: m=([is]+))?\)", line)
    if m:
        return "regexp:%s..%s:%s" % (m.group(1), m.group(2), m.group(3) or "-")
    sys.exit("answer? " + line)


kinds = {"i": "INTEGER_LIT", "m": "INTEGER_LIT", "n": "IDENT", "f": "FLOAT_LIT", "s": "STRING_LIT", "r": "REGEXP"}
K = dsl.K
seen = set(); rows = []
for kind, token, ours in cases:
    if (kind, token) not in seen:
        seen.add((kind, token)); rows.append((kind, len(rows) % 4, token, ours))
bundle = b""
for n, (kind, blanks, token, ours) in enumerate(rows):
    src = b" " * blanks; ev = []
    term = [[1, K["TERM"], 0, 0]]
    if kind == "m":
        at = len(src); src += b"-"
        inner = [[3, K["MINUS"], at, at + 1], [1, K["TERM"], at + 1, at + 1], [3, K[kinds[kind]], at + 1, at + 1 + len(token)], [2, K["TERM"], at + 1, at + 1 + len(token)]]
    elif kind == "n":
        at = len(src)
        inner = [[1, K["PRIMARY_EXPR"], at, at], [3, K["IDENT"], at, at + len(token)], [2, K["PRIMARY_EXPR"], at, at + len(token)]]
    else:
        at = len(src); inner = [[3, K[kinds[kind]], at, at + len(token)]]
    src += token; end = len(src)
    blanks_ev = [[3, K["WHITESPACE"], i, i + 1] for i in range(blanks)]
    wrap = ["BOOLEAN_EXPR", "BOOLEAN_TERM", "EXPR", "TERM"]
    ev = [[1, K[w], 0, end] for w in wrap] + blanks_ev + inner + [[2, K[w], 0, end] for w in reversed(wrap)]
    packed = b"".join(struct.pack(">BHHII", e[0], 10, e[1], e[2], e[3]) for e in ev) + b"\0\0\0"
    bundle += dsl.frame(n, src, packed)
path = sys.argv[2] + ".bundle"
open(path, "wb").write(bundle)
out = subprocess.run([os.path.join(oracle, "target/checked/oracle"), "bundle", path], capture_output=True, check=True).stdout.decode("utf-8", "replace").splitlines()
os.remove(path)
lines = []
for (kind, blanks, token, ours), line in zip(rows, out):
    theirs = answer(kind, blanks, line)
    text = "%s %d %s " % (kind, blanks, token.hex() or "-")
    if ours is None:
        lines.append(text + "= " + theirs)
    else:
        whole = ours + ":%d..%d" % (blanks, blanks + len(token))
        lines.append(text + ("= " + theirs if whole == theirs else "! " + whole + " | " + theirs))
open(sys.argv[2], "w").write("\n".join(lines) + "\n")
print(len(lines), "cases,", sum(" ! " in l for l in lines), "on which we differ")
