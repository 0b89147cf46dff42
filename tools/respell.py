#!/usr/bin/env python3
"""Gives the definitions and lemmas of this repository the spelling that Rattle uses by now.

usage: python3 tools/respell.py      at the top of a repository in the older spelling, once, right after the kit's port.py

tools/respell.names has a line for each name, the old and the new: definitions in camel case go to snake case, and the
dash of a lemma, a constructor or a field becomes an underscore, except where it joins the names of two definitions.
`result` is a word of clauses by now, so what an operation makes of two words is `result_of`. Functions of src/,
comments, inputs and outputs keep their names. Two names of one crate that would fall together end the script before
anything is written.
"""

import glob
import os
import re
import sys

NAMES = os.path.join(os.path.dirname(os.path.abspath(__file__)), "respell.names")
HEAD = re.compile(r"\s*(?:(?:abbrev|unfoldable|pub|data|record|ruleset)\s+)*([^\s:(){}=]+)(?:\s+[^:]*)?\s*:\s")
WORD = r"A-Za-z0-9_'\-"
TOKEN = re.compile(rf"(?<![{WORD}])[{WORD}]+(?![{WORD}])")
RESULT = re.compile(rf"(?<![.{WORD}])result(?![{WORD}]|\s*=)")
COMMENT = re.compile(r"\s*(?:--|//)")


def files():
    for ending in ("antt", "rt"):
        for path in sorted(glob.glob(f"crates/**/*.{ending}", recursive=True)):
            if "/out/" not in path:
                yield path


def lines_of(path):
    with open(path, encoding="utf-8") as file:
        return file.read().split("\n")


def defined():
    """The names that each crate's .antt files introduce."""
    crates = {}
    for path in files():
        for line in lines_of(path) if path.endswith(".antt") else ():
            if (found := HEAD.match(line)) and not COMMENT.match(line):
                crates.setdefault(path.split("/")[1], set()).add(found.group(1))
    return crates


def refuse_twins(names):
    for crate, own in defined().items():
        news = [names.get(name, name) for name in own]
        twins = sorted({new for new in news if news.count(new) > 1})
        if twins:
            sys.exit(f"{crate}: two names fall together in each of {twins}")


def turn(line, path, names):
    if COMMENT.match(line):
        return line
    line = TOKEN.sub(lambda m: names.get(m.group(0), m.group(0)), line)
    if path.endswith(".antt"):
        return RESULT.sub("result_of", line)
    return line.replace("Word, result}", "Word, result_of}").replace("(result op", "(result_of op")


def main():
    with open(NAMES, encoding="utf-8") as file:
        names = dict(line.split() for line in file)
    refuse_twins(names)
    for path in files():
        lines = lines_of(path)
        turned = [turn(line, path, names) for line in lines]
        if turned != lines:
            with open(path, "w", encoding="utf-8") as file:
                file.write("\n".join(turned))


if __name__ == "__main__":
    main()
