#!/usr/bin/env python3
"""Spells this repository's own names as today's Rattle does, by spelling.tsv: words in snake case, facts in camel case.

usage: tools/respell.py [FOLDER]    the repository's top, or this one; run once, after the toolchain's port.py

Sources, definitions, proofs and edits below crates/: whole words alone, wherever they stand, since a name in camel case that
begins small is no word of Rust's or English. A lemma that would then have the name of a definition gets `_lem` first.
"""
import os
import re
import sys

HERE = os.path.dirname(os.path.realpath(__file__))
WORD = re.compile(r"(?<![\w'-])[A-Za-z][\w'-]*")

# lemmas that would meet a definition: the crates whose proofs have them
LEMMAS = {
    "bad_sum": ["trace"],
    "goes_on": ["cells", "deciding", "sides", "trace_promises"],
    "in_one": ["components"],
    "in_order": ["telephone", "trace_promises"],
    "is_one": ["promises"],
    "last_line": ["cells", "trace_promises"],
    "no_room": ["deciding"],
    "no_value": ["table"],
    "of_two": ["codes"],
    "one_more": ["cells", "printing", "reports"],
    "rest_part": ["octets", "elements", "parameters", "places", "components", "messages", "deciding", "answers", "words", "writing", "cells", "telephone", "trace", "records", "promises", "trace_lines"],
    "table_is": ["telephone"],
    "then_id": ["promises"],
    "too_long": ["calling", "deciding"],
}


def main():
    top = sys.argv[1] if len(sys.argv) > 1 else os.path.dirname(HERE)
    with open(os.path.join(HERE, "spelling.tsv"), encoding="utf-8") as f:
        table = dict(line.rstrip("\n").split("\t") for line in f)
    for folder, dirs, files in os.walk(os.path.join(top, "crates")):
        dirs[:] = [d for d in dirs if d != "out"]
        crate = os.path.relpath(folder, os.path.join(top, "crates")).split(os.sep)[0]
        for name in files:
            if not name.endswith((".rt", ".antt", ".edit")):
                continue
            path = os.path.join(folder, name)
            with open(path, encoding="utf-8") as f:
                text = f.read()
            lemmas = {} if name.endswith(".rt") else {a: a + "_lem" for a, where in LEMMAS.items() if crate in where}
            new = WORD.sub(lambda m: table.get(m[0], lemmas.get(m[0], m[0])), text)
            if new != text:
                with open(path, "w", encoding="utf-8") as f:
                    f.write(new)


main()
