#!/usr/bin/env python3
"""yara_events.py RULES > LISTING

Reads a file of YARA rules and writes the listing of its syntax events: a begin
and an end for each node of the syntax, and a token for each piece of text.
Blanks, line ends and comments (trivia) are tokens too, so that the texts of all
tokens, one behind the other, are the file.

A node goes from its first token to its last, trivia aside; trivia that precede
a node stand in front of its begin. SOURCE_FILE alone also encloses the trivia
behind its last token, since no token may follow its end.

What cannot be read is refused with its line number, and nothing is written.
"""
import re
import sys
from collections import namedtuple

# A token, or a node if it has parts.
Piece = namedtuple("Piece", "kind start end parts")

# ------------------------------------------------------------------- tokens

TRIVIA = ("WHITESPACE", "NEWLINE", "COMMENT")

KEYWORDS = set(b"""all and any ascii at base64 base64wide condition contains
    defined endswith entrypoint false filesize for fullword global icontains
    iendswith iequals import in include istartswith matches meta nocase none not
    of or private rule startswith strings them true wide xor with""".split())

PUNCTUATION = {
    b"==": "EQ", b"!=": "NE", b"<=": "LE", b">=": "GE", b"<<": "SHL", b">>": "SHR",
    b"<": "LT", b">": "GT", b"=": "EQUAL", b"&": "AMPERSAND", b"*": "ASTERISK",
    b"^": "CARET", b":": "COLON", b",": "COMMA", b"\\": "BACKSLASH", b".": "DOT",
    b"-": "HYPHEN", b"%": "PERCENT", b"|": "PIPE", b"+": "PLUS", b"~": "TILDE",
    b"{": "L_BRACE", b"}": "R_BRACE", b"[": "L_BRACKET", b"]": "R_BRACKET",
    b"(": "L_PAREN", b")": "R_PAREN"}

SPACING = rb"""
    (?P<NEWLINE> \r\n | \n | \r )
  | (?P<WHITESPACE> [ \t\v\f]+ )
  | (?P<COMMENT> //[^\r\n]* | /\*.*?\*/ )
"""

# A slash that opens no comment opens a regexp, for division is written `\`.
PLAIN = re.compile(SPACING + rb"""
  | (?P<FLOAT_LIT> [0-9][0-9_]*\.[0-9][0-9_]* (?![A-Za-z0-9_]) )
  | (?P<INTEGER_LIT> (?: 0x[0-9A-Fa-f_]+ | 0o[0-7_]+ | [0-9][0-9_]* )
                     (?: KB | MB )? (?![A-Za-z0-9_]) )
  | (?P<IDENT> [A-Za-z_][A-Za-z0-9_]* )
  | (?P<PATTERN_IDENT> \$[A-Za-z0-9_]* )
  | (?P<PATTERN_COUNT> \#[A-Za-z0-9_]* )
  | (?P<PATTERN_OFFSET> @[A-Za-z0-9_]* )
  | (?P<PATTERN_LENGTH> !(?!=)[A-Za-z0-9_]* )
  | (?P<STRING_LIT> "{3} (?: [^\\] | \\. )*? "{3}
                  | "(?!"") (?: [^"\\\r\n] | \\[^\r\n] )* " )
  | (?P<REGEXP> /(?![/*]) (?: [^/\\\r\n] | \\[^\r\n] )+ / [A-Za-z]* )
  | (?P<PUNCTUATION> [=!<>]= | << | >> | [<>=&*^:,\\.%|+~{}\[\]()-] )
""", re.X | re.S)

# Between the braces of a hex pattern, where only its jumps are plain again.
HEX = re.compile(SPACING + rb"""
  | (?P<HEX_BYTE> ~?[0-9A-Fa-f?]{2} )
  | (?P<PUNCTUATION> [\[()|}] )
""", re.X | re.S)


def tokens(text, refuse):
    """All tokens of the text in order. Signs have their neutral kind here
    (HYPHEN, not SUB or MINUS); the grammar gives them the one that is meant."""
    row, at, last, inside, jump = [], 0, None, False, False
    while at < len(text):
        match = (HEX if inside and not jump else PLAIN).match(text, at)
        if not match:
            refuse(at, "cannot read %r" % text[at:at + 12])
        kind, word, at = match.lastgroup, match.group(), match.end()
        if kind == "PUNCTUATION":
            kind = PUNCTUATION[word]
        elif kind == "IDENT" and word in KEYWORDS:
            kind = word.decode().upper() + "_KW"
        row.append(Piece(kind, match.start(), at, None))
        if kind not in TRIVIA:
            # A brace behind `=` opens a hex pattern, a bracket in it a jump.
            inside = (inside or kind == "L_BRACE" and last == "EQUAL") and kind != "R_BRACE"
            jump = (jump or inside and kind == "L_BRACKET") and kind != "R_BRACKET"
            last = kind
    return row


# ------------------------------------------------------------------ grammar

# KIND[ .. ] is a node; KIND alone a token, and A>B a token A that is meant as
# B; small letters name another line. `|` parts alternatives, of which the first
# that fits is taken; `?`, `*` and `+` follow what may be left out, repeated, or
# both; `&` precedes what has to come next but is not taken.
GRAMMAR = """
file       = SOURCE_FILE[ (import | include | rule)* ]
import     = IMPORT_STMT[ IMPORT_KW STRING_LIT ]
include    = INCLUDE_STMT[ INCLUDE_KW STRING_LIT ]
rule       = RULE_DECL[ rulemods? RULE_KW IDENT ruletags? L_BRACE
               meta? patterns? condition R_BRACE ]
rulemods   = RULE_MODS[ (GLOBAL_KW | PRIVATE_KW)+ ]
ruletags   = RULE_TAGS[ COLON IDENT+ ]
meta       = META_BLK[ META_KW COLON metadef+ ]
metadef    = META_DEF[ IDENT EQUAL (STRING_LIT | TRUE_KW | FALSE_KW
               | HYPHEN>MINUS? (INTEGER_LIT | FLOAT_LIT)) ]
patterns   = PATTERNS_BLK[ STRINGS_KW COLON pattern+ ]
pattern    = PATTERN_DEF[ PATTERN_IDENT EQUAL (STRING_LIT | REGEXP | hex) modifiers? ]
modifiers  = PATTERN_MODS[ modifier+ ]
modifier   = PATTERN_MOD[ ASCII_KW | WIDE_KW | PRIVATE_KW | FULLWORD_KW | NOCASE_KW
               | XOR_KW (L_PAREN INTEGER_LIT (HYPHEN INTEGER_LIT)? R_PAREN)?
               | (BASE64_KW | BASE64WIDE_KW) (L_PAREN STRING_LIT R_PAREN)? ]
hex        = HEX_PATTERN[ L_BRACE hexparts R_BRACE ]
hexparts   = HEX_SUB_PATTERN[ (HEX_BYTE | hexchoice | hexjump)+ ]
hexchoice  = HEX_ALTERNATIVE[ L_PAREN hexparts (PIPE hexparts)* R_PAREN ]
hexjump    = HEX_JUMP[ L_BRACKET (INTEGER_LIT? HYPHEN INTEGER_LIT? | INTEGER_LIT) R_BRACKET ]

condition  = CONDITION_BLK[ CONDITION_KW COLON boolean ]
boolean    = BOOLEAN_EXPR[ boolterm ((AND_KW | OR_KW) boolterm)* ]
boolterm   = BOOLEAN_TERM[ TRUE_KW | FALSE_KW | (NOT_KW | DEFINED_KW) boolterm
               | PATTERN_IDENT anchor? | for | with | of
               | expr (comparison expr)* | L_PAREN boolean R_PAREN ]
comparison = EQ | NE | LT | LE | GT | GE | CONTAINS_KW | ICONTAINS_KW
               | STARTSWITH_KW | ISTARTSWITH_KW | ENDSWITH_KW | IENDSWITH_KW
               | IEQUALS_KW | MATCHES_KW
anchor     = AT_KW expr | IN_KW range
range      = RANGE[ L_PAREN expr DOT DOT expr R_PAREN ]
for        = FOR_EXPR[ FOR_KW quantifier (OF_KW set
               | IDENT (COMMA IDENT)* IN_KW iterable) body ]
of         = OF_EXPR[ quantifier OF_KW (set | booltuple) anchor? ]
with       = WITH_EXPR[ WITH_KW withdecls body ]
withdecls  = WITH_DECLS[ withdecl (COMMA withdecl)* ]
withdecl   = WITH_DECL[ IDENT EQUAL expr ]
body       = COLON L_PAREN boolean R_PAREN
quantifier = QUANTIFIER[ ALL_KW | ANY_KW | NONE_KW
               | term PERCENT &(OF_KW | IDENT (COMMA | IN_KW)) | expr ]
set        = THEM_KW | PATTERN_IDENT_TUPLE[ L_PAREN setitem (COMMA setitem)* R_PAREN ]
setitem    = PATTERN_IDENT ASTERISK?
booltuple  = BOOLEAN_EXPR_TUPLE[ L_PAREN boolean (COMMA boolean)* R_PAREN ]
iterable   = ITERABLE[ range | exprtuple &COLON | expr ]
exprtuple  = EXPR_TUPLE[ L_PAREN expr (COMMA expr)* R_PAREN ]

expr       = EXPR[ term (operator term)* ]
operator   = PLUS>ADD | HYPHEN>SUB | ASTERISK>MUL | BACKSLASH>DIV | PERCENT>MOD
               | AMPERSAND>BITWISE_AND | PIPE>BITWISE_OR | CARET>BITWISE_XOR | SHL | SHR
term       = TERM[ FLOAT_LIT | INTEGER_LIT | STRING_LIT | REGEXP
               | FILESIZE_KW | ENTRYPOINT_KW | PATTERN_COUNT (IN_KW range)?
               | (PATTERN_OFFSET | PATTERN_LENGTH) index? | TILDE>BITWISE_NOT term
               | HYPHEN>MINUS term | L_PAREN expr R_PAREN | primary (DOT primary)* ]
index      = L_BRACKET expr R_BRACKET
primary    = PRIMARY_EXPR[ (call | IDENT) index? ]
call       = FUNC_CALL[ IDENT L_PAREN (boolean (COMMA boolean)*)? R_PAREN ]
"""


def alternatives(words):
    """The grammar's words up to a closing bracket or the end, as a list of
    alternatives; each is a list of items (what, its content)."""
    ways = [[]]
    while words and words[0] not in ")]":
        word = words.pop(0)
        if word == "|":
            ways.append([])
            continue
        ahead = word == "&"
        if ahead:
            word = words.pop(0)
        if word == "(":
            item = "group", alternatives(words)
            words.pop(0)
        elif words and words[0] == "[":
            words.pop(0)
            item = "node", (word, alternatives(words))
            words.pop(0)
        elif word.isupper():
            item = "token", (word + ">" + word).split(">")[:2]
        else:
            item = "line", word
        if ahead:
            item = "&", item
        elif words and words[0] in "?*+":
            item = words.pop(0), item
        ways[-1].append(item)
    return ways


LINES = {name: alternatives(re.findall(r"[\w>]+|\S", text))
         for name, text in re.findall(r"^(\w+) += (.*?)(?=^\w|\Z)", GRAMMAR, re.M | re.S)}


class Reader:
    """Reads a row of tokens without trivia by the grammar. Each method answers
    the pieces that it read from a place on and the place behind them, or None."""

    def __init__(self, row, length):
        self.row = row + [Piece("the end of the file", length, length, None)]
        self.furthest = 0       # the last token that was looked at
        self.known = {}         # what a line gave at a place: nothing is read twice

    def line(self, name, at):
        if (name, at) not in self.known:
            self.known[name, at] = self.choose(LINES[name], at)
        return self.known[name, at]

    def choose(self, ways, at):
        for way in ways:
            pieces, here = [], at
            for item in way:
                found = self.item(item, here)
                if found is None:
                    break
                pieces.extend(found[0])
                here = found[1]
            else:
                return pieces, here
        return None

    def item(self, item, at):
        what, content = item
        if what == "token":
            self.furthest = max(self.furthest, at)
            token = self.row[at]
            return ([token._replace(kind=content[1])], at + 1) if token.kind == content[0] else None
        if what == "line":
            return self.line(content, at)
        if what == "group":
            return self.choose(content, at)
        if what == "node":
            found = self.choose(content[1], at)
            if found is None:
                return None
            start = self.row[at].start
            end = found[0][-1].end if found[0] else start
            return [Piece(content[0], start, end, found[0])], found[1]
        found = self.item(content, at)
        if what == "&":
            return found and ([], at)
        if what == "?" or found is None:
            return found or (None if what == "+" else ([], at))
        pieces, here = list(found[0]), found[1]
        while (found := self.item(content, here)) is not None:
            pieces.extend(found[0])
            here = found[1]
        return pieces, here


# ------------------------------------------------------------------ listing

def listing(root, trivia):
    """The lines of the listing, indented by the nodes that are open."""
    waiting, lines = trivia[::-1], []

    def line(word, piece, depth):
        lines.append("%s%s %s %d %d\n" % ("  " * depth, word, piece.kind, piece.start, piece.end))

    def walk(piece, depth):
        while waiting and waiting[-1].start < piece.start:
            line("token", waiting.pop(), depth)
        if piece.parts is None:
            line("token", piece, depth)
            return
        line("begin", piece, depth)
        for part in piece.parts:
            walk(part, depth + 1)
        while piece is root and waiting:
            line("token", waiting.pop(), depth + 1)
        line("end", piece, depth)

    walk(root, 0)
    return lines


def main():
    if len(sys.argv) != 2:
        sys.exit("usage: yara_events.py RULES > LISTING")
    with open(sys.argv[1], "rb") as file:
        text = file.read()

    def refuse(at, why):
        sys.exit("%s:%d: %s" % (sys.argv[1], text.count(b"\n", 0, at) + 1, why))

    sys.setrecursionlimit(1000000)      # nesting in the rules is nesting here
    row = tokens(text, refuse)
    reader = Reader([piece for piece in row if piece.kind not in TRIVIA], len(text))
    (root,), behind = reader.line("file", 0)
    if behind < len(reader.row) - 1:
        bad = reader.row[reader.furthest]
        refuse(bad.start, "did not expect "
               + (text[bad.start:bad.end].decode("utf-8", "backslashreplace") or bad.kind))
    sys.stdout.writelines(listing(root, [piece for piece in row if piece.kind in TRIVIA]))


if __name__ == "__main__":
    main()
