#!/usr/bin/env python3
"""Spells the definitions and lemmas of this repository as the newer Rattle spells its own: words in snake case.

usage: python3 tools/port/rename.py [FOLDER]

Run it once, in the commit behind the one in which the newer Rattle's own script ran. names.tsv, beside this file, has an old and a new name in each
line. Where a definition and a lemma about it would fall together, the lemma gets `_lem`. Functions, exported names, strings and recorded files keep
their names: of a .rt file only clauses, `ghost use` items and names between backticks in comments are read, of a page only names between backticks.
"""
import os
import re
import sys

HERE = os.path.dirname(os.path.abspath(__file__))
ROOT = sys.argv[1] if len(sys.argv) > 1 else os.path.dirname(os.path.dirname(HERE))
TOKEN = re.compile(r"[^\s.(){}\[\];,:`\"\\⌜⌝]+")


def table():
    with open(os.path.join(HERE, "names.tsv"), encoding="utf-8") as f:
        return dict(line.rstrip("\n").split("\t") for line in f)


NAMES = table()
# These stood in snake case already, and are lemmas only in .antt files.
LEMMAS = {old for old in NAMES if "-" not in old and old.lower() == old}


def turned(text, lemmas=True):
    def new(found):
        old = found[0]
        return old if old in LEMMAS and not lemmas else NAMES.get(old, old)

    return TOKEN.sub(new, text)


def quoted(text):
    return re.sub(r"`[^`\n]*`", lambda found: turned(found[0], lemmas=False), text)


def use_line(line):
    head, brace, rest = line.partition(".{")
    if brace:
        return head + brace + turned(rest)
    head, alias, rest = line.partition(" as ")
    return head + alias + turned(rest)


def antt(text):
    lines = []
    for line in text.split("\n"):
        code, dashes, comment = line, "", ""
        found = re.search(r"(?:^|(?<=\s))--(?=\s|$)", line)
        if found:
            code, dashes, comment = line[: found.start()], "--", line[found.end() :]
        code = use_line(code) if re.match(r"\s*(pub )?use ", code) else turned(code)
        lines.append(code + dashes + quoted(comment))
    return "\n".join(lines)


def rust(text):
    def item(found):
        return use_line(found[0])

    def clause(found):
        return found[1] + turned(found[2], lemmas=False) + found[3]

    text = re.sub(r"(?m)^ghost use .*;$", item, text)
    text = re.sub(r"(?s)(\b(?:requires|ensures)\b[* \w]*\{)(.*?)(\}\n)", clause, text)
    return re.sub(r"(?m)//.*$", lambda found: quoted(found[0]), text)


def edit(text):
    lines = []
    for line in text.split("\n"):
        lines.append(turned(line, lemmas=False) if re.match(r"(old|new): ", line) else line)
    return "\n".join(lines)


def rewrite(path, by):
    with open(path, encoding="utf-8") as f:
        old = f.read()
    new = by(old)
    if new != old:
        with open(path, "w", encoding="utf-8") as f:
            f.write(new)


def main():
    for folder, folders, files in os.walk(ROOT):
        folders[:] = sorted(d for d in folders if d not in (".git", "out", "target", "port"))
        for name in sorted(files):
            path = os.path.join(folder, name)
            inside = os.path.relpath(path, ROOT).startswith("crates" + os.sep)
            if inside and name.endswith(".antt"):
                rewrite(path, antt)
            elif inside and name.endswith(".rt"):
                rewrite(path, rust)
            elif inside and name.endswith(".edit"):
                rewrite(path, edit)
            elif name.endswith(".md"):
                rewrite(path, quoted)


main()
