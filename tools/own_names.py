#!/usr/bin/env python3
"""Gives the repository's own definitions and lemmas today's spelling: words in snake case, a dash only between two names.

usage: own_names.py FOLDER      once, at the top of a checkout in which port.py has run

The names stand in own_names.tsv beside this file, old and new. Sources, proofs and edits are rewritten in place, and in documents what
stands in backticks. Rust, strings, inputs and outputs stay as they are.
"""
import glob
import os
import re
import sys

HERE = os.path.dirname(os.path.realpath(__file__))
ROWS = [line.rstrip("\n").split("\t") for line in open(os.path.join(HERE, "own_names.tsv"), encoding="utf-8")]
NAMES = {row[0]: row[1] for row in ROWS}
FIELDS = {row[0] for row in ROWS if row[2:] == ["field"]}
# A name as antt cuts it; behind a dot only a field's.
TOKEN = re.compile(r"""(?<![^\s(){}.;,@"«»`])[^\s(){}.;,@"«»`]+""")
QUOTED = re.compile(r"`[^`\n]*`")
STRING = re.compile(r'b?"(?:[^"\\]|\\.)*"')


def renamed(text):
    def name(m):
        if m.start() and text[m.start() - 1] == "." and m[0] not in FIELDS:
            return m[0]
        return NAMES.get(m[0], m[0])

    return TOKEN.sub(name, text)


def quoted(text):
    return QUOTED.sub(lambda m: renamed(m[0]), text)


def line_of(line, comment):
    """Code before the comment by its names, the comment where it quotes."""
    at = comment.search(line)
    code, rest = (line[: at.start()], line[at.start() :]) if at else (line, "")
    return renamed(code) + quoted(rest)


def antt(text):
    return "\n".join(line_of(line, re.compile(r"(?:^|(?<=\s))--")) for line in text.split("\n"))


def rt(text):
    """A name that Rust could have too is turned in imports alone."""
    def of(line):
        if line.startswith("ghost use"):
            return renamed(line)
        at = line.find("//")
        code, rest = (line[:at], line[at:]) if at >= 0 else (line, "")
        return TOKEN.sub(lambda m: renamed(m[0]) if re.search(r"[A-Z-]", m[0]) and text_before(code, m) != "." else m[0], code) + quoted(rest)

    return "\n".join(of(line) for line in text.split("\n"))


def text_before(text, m):
    return text[m.start() - 1] if m.start() else ""


def edit(text):
    return "\n".join(renamed(line) if line.startswith(("old:", "new:")) else quoted(line) for line in text.split("\n"))


def main():
    if len(sys.argv) != 2:
        sys.exit(__doc__)
    os.chdir(sys.argv[1])
    turns = [("crates/**/*.antt", antt), ("crates/**/*.rt", rt), ("crates/*/must-fail/*.edit", edit), ("docs/**/*.md", quoted), ("*.md", quoted)]
    for pattern, turn in turns:
        for path in sorted(glob.glob(pattern, recursive=True)):
            if "/out/" in path or os.path.basename(path) in ("PORT.md", "CHANGELOG.md"):
                continue
            text = open(path, encoding="utf-8").read()
            new = turn(text)
            if new != text:
                open(path, "w", encoding="utf-8").write(new)


main()
