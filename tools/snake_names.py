#!/usr/bin/env python3
"""Gives this repository's own definitions and lemmas the spelling of its Rattle: words in snake case, types in upper camel case.

usage: tools/snake_names.py [FOLDER]

FOLDER is the top of the repository, or of another checkout of it. tools/names.tsv has a row for each name: old, a tab, new. Whole words turn,
and nothing else: in specs and proofs, in the clauses and imports of sources (functions, types and constants of sources keep their names), in
must-fail edits, and in the code spans of README.md and docs/. The names of tools/names_turned.tsv were turned in the crates by the kit's
port.py, and turn here where it does not look: in edits and papers. In comments a word with a dash turns only inside a code span, since prose
has words of the same spelling. A second run writes nothing more.
"""

import os
import re
import sys

HERE = os.path.dirname(os.path.abspath(__file__))
WORD = re.compile(r'[^\s(){}.;,@"«»`]+')
SPAN = re.compile(r"`[^`\n]+`")
STRING = re.compile(r'b?"(?:[^"\\\n]|\\.)*"')


def table(name):
    with open(os.path.join(HERE, name), encoding="utf-8") as rows:
        return dict(line.rstrip("\n").split("\t") for line in rows)


def turn(text, names):
    return WORD.sub(lambda m: names.get(m[0], m[0]), text)


def comment(text, names):
    """Prose: names with no dash turn anywhere, those with one in code spans."""
    plain = {old: new for old, new in names.items() if "-" not in old}
    return SPAN.sub(lambda m: turn(m[0], names), turn(text, plain))


def outside_strings(text, names):
    done, at = [], 0
    for m in STRING.finditer(text):
        done += [turn(text[at : m.start()], names), m[0]]
        at = m.end()
    return "".join(done) + turn(text[at:], names)


def line(text, mark, names):
    code, found, prose = text.partition(mark)
    if code.count('"') % 2:
        return outside_strings(text, names)
    return outside_strings(code, names) + found + comment(prose, names)


def edit(text, names):
    if re.match(r"(?:old|new): ", text):
        return text[:5] + line(text[5:], "-- ", names)
    return text if text.startswith("file:") else comment(text, names)


def turned(name, text, names):
    if name.endswith(".antt"):
        return "".join(line(l, "-- ", names) for l in text.splitlines(True))
    if name.endswith(".rt"):
        return "".join(line(l, "// ", names) for l in text.splitlines(True))
    if name.endswith(".edit"):
        return "".join(edit(l, names) for l in text.splitlines(True))
    return SPAN.sub(lambda m: turn(m[0], names), text)


def files(top):
    for folder in ("crates", "docs"):
        for base, folders, names in os.walk(os.path.join(top, folder)):
            folders[:] = sorted(f for f in folders if f != "out")
            for name in sorted(names):
                if name.endswith((".antt", ".rt", ".edit", ".md")):
                    yield os.path.join(base, name)
    yield os.path.join(top, "README.md")


def main():
    top = sys.argv[1] if len(sys.argv) > 1 else os.path.join(HERE, "..")
    names = table("names.tsv")
    everywhere = names | table("names_turned.tsv")
    for path in files(top):
        with open(path, encoding="utf-8") as stream:
            before = stream.read()
        after = turned(path, before, names if path.endswith((".antt", ".rt")) else everywhere)
        if after != before:
            with open(path, "w", encoding="utf-8") as stream:
                stream.write(after)


if __name__ == "__main__":
    main()
