#!/usr/bin/env python3
"""Spells this repository's definitions, lemmas and fields as today's Rattle does: words in snake case, by tools/respelled.tsv.

usage: tools/respell.py [FOLDER]

Run once, after port.py, at the top of the repository (or in FOLDER). Each row of the table has a name and its new spelling. Whole words turn, in
.antt and .rt files, in must-fail edits and in their twins; a word stays in a file that imports it from a library. In a comment a name with a dash turns only between backquotes, since it may be prose.
In a function's own Proof.antt a word behind a dot turns only where a record of the repository has such a field: the others are labels that
Rattle makes.
"""
import os
import re
import sys

HERE = os.path.dirname(os.path.realpath(__file__))
WORD = re.compile(r'[^\s(){}.;,@"«»`]+')
FIELDS = re.compile(r"(?ms)^(?:pub )?record [^\n]*?where\n((?:  [^\n]*\n|\n)*)")
FIELD = re.compile(r"(?m)^  +(?:pub )?([^\s:]+) :")
USE = re.compile(r"(?m)^(?:ghost )?use ([^\s{;]+)\.\{([^}]*)\}")


def table():
    with open(os.path.join(HERE, "respelled.tsv"), encoding="utf-8") as f:
        return dict(line.rstrip("\n").split("\t") for line in f)


def texts(root):
    for folder, dirs, files in os.walk(os.path.join(root, "crates")):
        dirs[:] = [d for d in dirs if d != "out"]
        for name in sorted(files):
            if name.endswith((".antt", ".rt", ".edit", ".twin")):
                yield os.path.join(folder, name)


def fields(root):
    found = set()
    for path in texts(root):
        if path.endswith(".antt"):
            with open(path, encoding="utf-8") as f:
                for block in FIELDS.findall(f.read()):
                    found.update(FIELD.findall(block))
    return found


def imported(text, crates):
    """The words that the file imports from a library."""
    found = set()
    for module, items in USE.findall(text):
        steps = module.split(".")
        if steps[0] != "Rattle" or len(steps) > 1 and steps[1] not in crates:
            found.update(item.split(" as ")[0].strip() for item in items.split(","))
    return found


def code(text, turned, own, is_proof):
    def turn(m):
        word = m[0]
        if word not in turned:
            return word
        if is_proof and m.start() > 0 and text[m.start() - 1] == "." and word not in own:
            return word
        return turned[word]

    return WORD.sub(turn, text)


def comment(text, turned):
    parts = text.split("`")
    for i, part in enumerate(parts):
        sure = i % 2 == 1

        def turn(m):
            bare = m[0].strip(":*'’")
            return m[0].replace(bare, turned[bare]) if bare in turned and (sure or "-" not in bare) else m[0]

        parts[i] = WORD.sub(turn, part)
    return "`".join(parts)


def turn_line(line, mark, turned, own, is_proof):
    at = line.find(mark)
    while at > 0 and line[at - 1] not in " \t":
        at = line.find(mark, at + 1)
    if at < 0:
        return code(line, turned, own, is_proof)
    return code(line[:at], turned, own, is_proof) + comment(line[at:], turned)


def main(root):
    turned = table()
    own = fields(root)
    crates = set(os.listdir(os.path.join(root, "crates")))
    for path in texts(root):
        with open(path, encoding="utf-8") as f:
            before = f.read()
        mark = "//" if path.endswith(".rt") else "--"
        is_proof = path.endswith("/Proof.antt")
        stays = imported(before, crates)
        here = {old: new for old, new in turned.items() if old not in stays}
        after = "\n".join(turn_line(line, mark, here, own, is_proof) for line in before.split("\n"))
        if after != before:
            with open(path, "w", encoding="utf-8") as f:
                f.write(after)


if __name__ == "__main__":
    main(sys.argv[1] if len(sys.argv) > 1 else ".")
