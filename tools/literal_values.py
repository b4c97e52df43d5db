"""What a name or a literal token stands for, as the record of events shows it.

Written from the description of literals alone; `told` answers the words behind
the token's text, or nothing for a token of another kind.
"""
import re
from fractions import Fraction

NAMES = ("IDENT", "PATTERN_IDENT", "PATTERN_COUNT", "PATTERN_OFFSET", "PATTERN_LENGTH")
ESCAPES = {0x5C: 0x5C, 0x6E: 10, 0x72: 13, 0x74: 9, 0x30: 0, 0x22: 0x22}


class Refused(Exception):
    """A refusal's number, word and place in the token."""


def check_utf8(text):
    try:
        return text.decode("utf-8")
    except UnicodeDecodeError as error:
        raise Refused(5, "InvalidUTF8", error.start, error.start + 1)


def integer(text):
    literal = check_utf8(text)
    factor = {"KB": 1024, "MB": 1048576}.get(literal[-2:], 1)
    digits = literal[:-2] if factor > 1 else literal
    plain = digits.replace("_", "")
    if plain.startswith("0x"):
        form, base, plain = "[0-9a-fA-F]+", 16, plain[2:]
    elif digits.startswith("0o"):
        form, base, plain = "[0-7]+", 8, plain[2:]
    else:
        form, base = "[0-9]+", 10
    value = int(plain, base) * factor if re.fullmatch(form, plain) else 1 << 64
    if value >= 1 << 64:
        raise Refused(6, "InvalidInteger", 0, len(text))
    return "%s %d" % ("integer" if value < 1 << 63 else "unsigned integer", value)


def decimal(text):
    plain = check_utf8(text).replace("_", "")
    if not re.fullmatch(r"[0-9]+\.?[0-9]*|\.[0-9]+", plain):
        raise Refused(7, "InvalidFloat", 0, len(text))
    digits, places = int(plain.replace(".", "")), len(plain.partition(".")[2])
    if digits > 1 << 53 or places > 15:
        raise Refused(15, "FloatTooLong", 0, len(text))
    shown = repr(float(Fraction(digits, 10 ** places)))
    return "float " + (shown[:-2] if shown.endswith(".0") else shown)


def character(text, at):
    """The length of the character at a place of well-formed text."""
    byte = text[at]
    return 1 if byte < 0x80 else 2 if byte < 0xE0 else 3 if byte < 0xF0 else 4


def string(text, quoted):
    check_utf8(text)
    triple = text.startswith(b'"""')
    quotes = 3 if triple else 1
    if len(text) < 2 * quotes or not text.startswith(b'"' * quotes) or not text.endswith(b'"' * quotes):
        raise Refused(10, "BadToken", 0, len(text))
    inner, out, at = text[quotes:len(text) - quotes], bytearray(), 0
    while at < len(inner):
        if inner[at] != 0x5C:
            out.append(inner[at])
            at += 1
        elif at + 1 == len(inner):
            raise Refused(10, "BadToken", 0, len(text))
        elif inner[at + 1] in ESCAPES:
            out.append(ESCAPES[inner[at + 1]])
            at += 2
        elif re.fullmatch(rb"x[0-9a-fA-F]{2}", inner[at + 1:at + 4]):
            out.append(int(inner[at + 2:at + 4], 16))
            at += 4
        else:
            start = quotes + at
            raise Refused(8, "InvalidEscape", start, start + 1 + character(inner, at + 1))
    return "string " + quoted(bytes(out))


def regexp(text, quoted):
    check_utf8(text)
    end = text.rfind(b"/")
    if not text.startswith(b"/") or end == 0:
        raise Refused(10, "BadToken", 0, len(text))
    at = end + 1
    while at < len(text):
        if text[at] not in b"is":
            raise Refused(9, "InvalidModifier", at, at + character(text, at))
        at += 1
    letters = "".join(" " + m for m in "is" if m.encode() in text[end + 1:])
    return "regexp " + quoted(text[1:end]) + letters


def told(kind, text, start, quoted):
    try:
        if kind in NAMES:
            check_utf8(text)
            return " = name"
        if kind == "INTEGER_LIT":
            return " = " + integer(text)
        if kind == "FLOAT_LIT":
            return " = " + decimal(text)
        if kind == "STRING_LIT":
            return " = " + string(text, quoted)
        if kind == "REGEXP":
            return " = " + regexp(text, quoted)
        return ""
    except Refused as refusal:
        number, word, first, behind = refusal.args
        return " = refused %d %s at %d..%d" % (number, word, start + first, start + behind)
