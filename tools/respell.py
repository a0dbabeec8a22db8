#!/usr/bin/env python3
"""Spells the definitions and lemmas of the crates as today's Rattle spells names, by respell.tsv beside this file.

usage: python3 tools/respell.py [FOLDER]      (the top of a checkout; run once, after port.py)

Words of a name are joined by underscores, types and facts are in camel case, and a dash is left where it joins
two names, as in length-append. Functions and strings keep their names.
"""
import os
import re
import sys

HERE = os.path.dirname(os.path.realpath(__file__))
TOP = sys.argv[1] if len(sys.argv) > 1 else os.path.dirname(HERE)
NAME = re.compile(r"(?<![\w'’«»-])[A-Za-z][\w'’]*(?:-[\w'’]+)+(?![\w'’»])")


def table():
    with open(os.path.join(HERE, "respell.tsv"), encoding="utf-8") as rows:
        return dict(row.rstrip("\n").split("\t") for row in rows)


def respelt(text, rows):
    return NAME.sub(lambda found: rows.get(found.group(0), found.group(0)), text)


def main():
    rows = table()
    for folder, folders, files in os.walk(os.path.join(TOP, "crates")):
        folders[:] = [f for f in folders if f != "out"]
        for file in files:
            if not file.endswith((".antt", ".rt", ".edit")):
                continue
            path = os.path.join(folder, file)
            with open(path, encoding="utf-8") as f:
                text = f.read()
            new = respelt(text, rows)
            if new != text:
                with open(path, "w", encoding="utf-8") as f:
                    f.write(new)


main()
