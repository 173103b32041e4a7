#!/usr/bin/env python3
"""Brings the repository's own names in proofs and definitions to the spelling of today's Rattle: words in snake case.

usage: tools/respell.py [FOLDER]        in the repository's top, once, after the kit's own port.py

The names and their new spelling are the rows of respelled.tsv, beside this file. Names of functions in Rust, exported names, strings, inputs
and outputs are not touched. A lemma keeps its dash where with a `_` it would fall together with a definition.
"""

import os
import re
import sys

HERE = os.path.dirname(os.path.realpath(__file__))
WORD = re.compile(r"[^\s(){}.;,@\"«»\[\]\\`]+")
# Lemmas that the kit's script gave the name which a definition now gets: the lemma's name has a dash again, in these files.
DASHED = {
    "traces/proofs/Theory/TraceLaws.antt": ["letter_at"],
    "report/proofs/Theory/Packed.antt": ["letter_at"],
    "layout_theory/proofs/Theory/Spaced.antt": ["first_byte"],
    "window/proofs/Theory/Lines.antt": ["cleared_at"],
    "window/proofs/Theory/Applying.antt": ["cleared_at"],
    "slots/proofs/Theory/Tables.antt": ["cleared_at"],
    "blocks/proofs/Theory/TableLaws.antt": ["each_from"],
    "layout_writer/proofs/Theory/Declaring.antt": ["first_function"],
}


def table():
    with open(os.path.join(HERE, "respelled.tsv"), encoding="utf-8") as f:
        return dict(line.rstrip("\n").split("\t") for line in f)


def respelled(text, names):
    """The text with each word that is a name respelled; the holes of an operator stay."""

    def one(found):
        word = found.group()
        if text.endswith("Memᴰ.", 0, found.start()):
            return word  # a name of the library
        core = word.strip("◌")
        return word.replace(core, names[core]) if core in names else word

    return WORD.sub(one, text)


def code_and_comment(text, mark, names):
    """Respells code; in comments only names with a capital inside, since a dash there is mostly English."""
    capitals = {old: new for old, new in names.items() if re.search("[A-Z]", old)}
    lines = []
    for line in text.split("\n"):
        at = line.find(mark)
        if at < 0:
            lines.append(respelled(line, names))
        else:
            lines.append(respelled(line[:at], names) + respelled(line[at:], capitals))
    return "\n".join(lines)


def quoted(text, names):
    """Respells what stands between backticks."""
    return re.sub(r"`[^`\n]+`", lambda m: respelled(m.group(), names), text)


def dashed(text, words):
    for word in words:
        text = re.sub(r"(?<![\w.'-])" + word + r"(?![\w'-])", word.replace("_", "-"), text)
    return text


def turn(path, inside, names):
    with open(path, encoding="utf-8") as f:
        old = f.read()
    if path.endswith(".antt"):
        text = code_and_comment(dashed(old, DASHED.get(inside, [])), "--", names)
    elif path.endswith(".rt"):
        text = code_and_comment(old, "//", names)
    elif path.endswith(".edit"):
        text = respelled(old, names)
    else:
        text = quoted(old, names)
    if text != old:
        with open(path, "w", encoding="utf-8") as f:
            f.write(text)


def main(root):
    names = table()
    for folder, inner, files in os.walk(root):
        inner[:] = sorted(d for d in inner if d not in ("out", "data", "target", ".git"))
        for file in sorted(files):
            path = os.path.join(folder, file)
            if file.endswith((".antt", ".rt", ".edit", ".md")):
                turn(path, os.path.relpath(path, os.path.join(root, "crates")), names)


if __name__ == "__main__":
    main(sys.argv[1] if len(sys.argv) > 1 else ".")
