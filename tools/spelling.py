#!/usr/bin/env python3
"""Brings the repository's own names to today's spelling, after the toolchain's port script has turned the rest.

usage: python3 tools/spelling.py [--dry]        at the top of the repository

A name that specs/ or a lemma file of proofs/ declares is turned: types and facts to upper camel case, everything else to
snake case. A dash stays where it joins a name to a symbol of the grammar or to an operator, as in spell-BE and opens-++.
Goals' names, which the toolchain makes, stay; so do the functions of src/, strings, and every file that is not of Rattle,
but for the names that docs/ and README.md cite. It stops if two names would fall together.
"""

import os
import re
import sys

NAME = r"[^\s(){}\[\],;.«»|\"`]+"
LOCAL = re.compile(r"\blet (" + NAME + r") (?:=|:)")
HEAD = re.compile(r"\s*(?:pub |abbrev |unfoldable )*(?:(data|record) )?(?:pub )?((?:" + NAME + r" )*?" + NAME + r")\s*(?:\(|\{|:(?=\s|$))")
TOKEN = re.compile(NAME)
ALIAS = re.compile(r" as (" + NAME + r")(?=[,}]|$)", re.M)
# Where two names would fall together: a lemma named after what it is about gets _lem, the others another word.
BY_HAND = {
    "getD-append-at": "slice_index_or_append_at",
    "One-grouping": "AlwaysOneGrouping",
    "from-left": "from_left_lem",
    "push-digit": "push_digit_lem",
    "layout-holds": "layout_holds_lem",
    "one-tree": "one_tree_lem",
    "reached-once": "reached_once_lem",
    "one-grouping": "one_grouping_lem",
    "itemTree": "item_choice_tree",
    "tooDeep": "is_past_depth",
    "spell_L": "spell-L",
    "leaf-at": "leaf_pending_at",
}


def files(endings, below="crates"):
    for folder, dirs, names in os.walk(below):
        dirs[:] = sorted(d for d in dirs if d != "out")
        for name in sorted(names):
            if name.endswith(endings):
                yield os.path.join(folder, name)


def read(path):
    with open(path, encoding="utf-8") as f:
        return f.read()


def is_made(path):
    """Whether the file answers goals, whose names the toolchain makes."""
    return path.split(os.sep)[2] == "proofs" and len(path.split(os.sep)) > 4


def snake(part):
    return re.sub(r"(?<=[a-z0-9])([A-Z])", lambda m: "_" + m.group(1).lower(), part) if part[0].islower() else part


def turned(name):
    if name in BY_HAND:
        return BY_HAND[name]
    parts = name.replace("′", "'").split("-")
    if not all(parts):
        return name
    if parts[0][0].isupper():
        known = len(parts[0]) == 1
        return name if known else "".join(p[0].upper() + p[1:] for p in parts)
    out = snake(parts[0])
    for before, part in zip(parts, parts[1:]):
        joins = not part[0].isalpha() and not part[0].isdigit() or part[0].isupper() or before[0].isupper()
        out += ("-" if joins else "_") + snake(part)
    return out


def declared():
    """The names that specs/ and lemma files declare or bring in as another, each with the files that do."""
    found = {}
    for path in files((".antt", ".rt")):
        for alias in ALIAS.findall(read(path)):
            found.setdefault(alias, set()).add(path)
        if path.endswith(".rt") or is_made(path) or os.path.basename(path) == "Lib.antt":
            continue
        for name in LOCAL.findall(read(path)):
            found.setdefault(name, set()).add(path)
        for line in read(path).splitlines():
            m = HEAD.match(line)
            if m and not line.lstrip().startswith(("--", "use ", "let ", "λ", "in ", "record {", "open ", "unfolding")):
                for name in m.group(2).split():
                    found.setdefault(name, set()).add(path)
    return found


def brought_in(text):
    """The names that a file takes from elsewhere than this repository's crates."""
    own = tuple("Rattle." + crate + "." for crate in os.listdir("crates"))
    lists = re.findall(r"^\s*(?:pub )?(?:ghost )?use ([^\s{]+)\.\{([^}]*)\}", text, re.M)
    return {word.strip() for path, words in lists if not path.startswith(own) for word in words.split(",")}


def turn_text(text, names, made, fields):
    def one(m):
        word = m.group(0)
        new = names.get(word)
        behind_dot = m.start() > 0 and m.string[m.start() - 1] == "."
        if new is None or (made and behind_dot and word not in fields):
            return word
        return new

    def in_comment(m):
        return m.group(0) if "-" in m.group(0) else one(m)

    out = []
    for line in text.split("\n"):
        code = not line.lstrip().startswith(("--", "//"))
        for piece in re.split(r'("(?:[^"\\]|\\.)*")', line):
            out.append(piece if piece.startswith('"') else TOKEN.sub(one if code else in_comment, piece))
        out.append("\n")
    return "".join(out[:-1])


def main(argv):
    found = declared()
    names = {n: turned(n) for n in found if turned(n) != n}
    tokens = set()
    for path in files((".antt", ".rt")):
        tokens |= set(TOKEN.findall(read(path)))
    bad = 0
    news = {}
    for old, new in names.items():
        news.setdefault(new, []).append(old)
    for new, olds in sorted(news.items()):
        if len(olds) > 1 or new in tokens:
            print("falls together:", new, olds, "used already" if new in tokens else "", file=sys.stderr)
            bad += 1
    if "--dry" in argv:
        for old, new in sorted(names.items()):
            print(old, new)
        return bad
    fields = set(names)
    for path in files((".antt", ".rt")):
        text = read(path)
        outside = brought_in(text)
        own = {old: new for old, new in names.items() if old not in outside}
        new = turn_text(text, own, is_made(path), fields)
        if new != text:
            with open(path, "w", encoding="utf-8") as f:
                f.write(new)
    turn_pages(names)
    return 0


def turn_pages(names):
    """In README.md and docs/ the names between backticks, those too that the port script turned."""
    now = set(declared())

    def word(m):
        new = names.get(m.group(0), turned(m.group(0)))
        return new if new in now else m.group(0)

    for path in ["README.md", *files((".md",), "docs")]:
        text = read(path)
        new = re.sub(r"`[^`\n]+`", lambda m: TOKEN.sub(word, m.group(0)), text)
        if new != text:
            with open(path, "w", encoding="utf-8") as f:
                f.write(new)


if __name__ == "__main__":
    raise SystemExit(main(sys.argv[1:]))
