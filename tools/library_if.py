#!/usr/bin/env python3
"""Writes the library's choice by a test in place of the repository's own, which had its name: a chain `else if` is in brackets, `else (if ..)`.

usage: tools/library_if.py        rewrites the .antt files below crates/, once; crates/octets/specs/Choice.antt, which had the own one, goes
"""
import glob
import os
import re

OWN = "use Rattle.octets.specs.Choice.{if◌then◌else◌}\n"
PRELUDE = re.compile(r"(use Rattle\.std\.specs\.Prelude\.\{)([^}]*)\}")


def indent(line):
    return len(line) - len(line.lstrip(" "))


def end_of_chain(text, start):
    """Where the expression ends that begins at start: at a bracket that closes an outer one, a separator, or the end of its lines."""
    begin = text.rfind("\n", 0, start) + 1
    head = text[begin:start]
    least = indent(text[begin:]) + (0 if head.strip() == "else" else 1)
    depth, at = 0, start
    while at < len(text):
        c = text[at]
        if c in "([{":
            depth += 1
        elif c in ")]}":
            if depth == 0:
                return at
            depth -= 1
        elif c in ",;" and depth == 0:
            return at
        elif c == "\n":
            after = text[at + 1:text.find("\n", at + 1) if "\n" in text[at + 1:] else len(text)]
            if depth == 0 and (not after.strip() or indent(after) < least):
                return at
        at += 1
    return at


def bracketed(text):
    while True:
        at = text.rfind("else if ")
        if at < 0:
            return text
        start = at + len("else ")
        end = end_of_chain(text, start)
        text = text[:start] + "(" + text[start:end] + ")" + text[end:]


def main():
    os.chdir(os.path.join(os.path.dirname(os.path.abspath(__file__)), ".."))
    for path in sorted(glob.glob("crates/*/specs/**/*.antt", recursive=True) + glob.glob("crates/*/proofs/**/*.antt", recursive=True)):
        with open(path, encoding="utf-8") as f:
            text = f.read()
        new = text
        if OWN in new:
            prelude = PRELUDE.search(new) if "/specs/" in path else None
            if prelude:
                new = new.replace(OWN, "").replace(prelude.group(), prelude.group(1) + prelude.group(2) + ", if◌then◌else◌}", 1)
            else:
                new = new.replace(OWN, "use Rattle.std.specs.Prelude.{if◌then◌else◌}\n")
            new = bracketed(new)
        if new != text:
            with open(path, "w", encoding="utf-8") as f:
                f.write(new)


main()
