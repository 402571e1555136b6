#!/usr/bin/env python3
"""Brings the names of definitions and lemmas to snake case: `bodyOf` is `body_of`, `is-full` is `is_full`.

usage: tools/snake_case.py           rewrites every .antt file, and the clauses and imports of every .rt file, below crates/
       tools/snake_case.py --list    changes nothing: tells the names of one file that would fall together

Types and modules stay in camel case, and so do the library's names, which are those that some file imports from it. In comments only what stands in
backticks is a name. Strings stay as they are.
"""
import collections
import glob
import os
import re
import sys

WORD = re.compile(r"[A-Za-z_][A-Za-z0-9_']*(?:-[A-Za-z0-9_']+)*")
SKIPPED = re.compile(r'b?"(?:\\.|[^"\\])*"')
# Names that would fall together with another of their scope, and what they are called in its place, by file.
APART = {
    "crates/cache/proofs/Records.antt": {"is-record": "record_is"},
    "crates/demands/proofs/Latest.antt": {"clock-fits": "clock_fits_within"},
    "crates/demands/proofs/Outcomes.antt": {"third-mic": "kind_of_mic", "third-akm": "kind_of_akm"},
    "crates/demands/proofs/Telling.antt": {"no-group": "told_of_no_group"},
    "crates/opening/proofs/Steps.antt": {"pmkid-chosen": "choice_of_pmkid"},
    "crates/state/proofs/Places.antt": {"address-at": "address_stands"},
    "crates/state/proofs/of_at/Proof.antt": {"address-at": "address_stands"},
}


LIBRARYS = set()


def read_imports(path):
    with open(path, encoding="utf-8") as f:
        for m in re.finditer(r"use ([^\s;{]+)\.\{([^}]*)\}", f.read()):
            words = m.group(1).split(".")
            if words[0] != "Rattle" or not os.path.isdir(os.path.join("crates", words[1])):
                LIBRARYS.update(name.strip() for name in m.group(2).split(","))


def snake(word):
    if not word[0].islower() or word in LIBRARYS:
        return word
    word = word.replace("-", "_")
    return re.sub(r"(?<=[a-z0-9])[A-Z]", lambda m: "_" + m.group().lower(), word)


def renamed(text, names):
    return WORD.sub(lambda m: names.get(m.group(), snake(m.group())), text)


def line_parts(line, mark):
    """The code of a line and its comment."""
    place = 0
    while True:
        at = line.find(mark, place)
        if at < 0:
            return line, ""
        if line[:at].count('"') % 2 == 0:
            return line[:at], line[at:]
        place = at + 1


def turned_line(line, mark, names):
    code, comment = line_parts(line, mark)
    pieces, last = [], 0
    for m in SKIPPED.finditer(code):
        pieces += [renamed(code[last:m.start()], names), m.group()]
        last = m.end()
    pieces.append(renamed(code[last:], names))
    comment = re.sub(r"`[^`]*`", lambda m: renamed(m.group(), names), comment)
    return "".join(pieces) + comment


def files():
    for ending in ("antt", "rt"):
        for path in sorted(glob.glob(f"crates/*/**/*.{ending}", recursive=True)):
            if "/out/" not in path:
                yield path, "--" if ending == "antt" else "//"


def fall_together(path, text, mark):
    seen = collections.defaultdict(set)
    for line in text.splitlines():
        for word in WORD.findall(SKIPPED.sub("", line_parts(line, mark)[0])):
            seen[snake(word)].add(word)
    for new, words in sorted(seen.items()):
        if len(words) > 1:
            print(path, new, *sorted(words))


def main():
    os.chdir(os.path.join(os.path.dirname(os.path.abspath(__file__)), ".."))
    for path, _ in files():
        read_imports(path)
    for path, mark in files():
        with open(path, encoding="utf-8") as f:
            text = f.read()
        if sys.argv[1:] == ["--list"]:
            fall_together(path, text, mark)
            continue
        names = APART.get(path, {})
        new = "".join(turned_line(line, mark, names) for line in text.splitlines(keepends=True))
        if new != text:
            with open(path, "w", encoding="utf-8") as f:
                f.write(new)


main()
