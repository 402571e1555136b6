#!/usr/bin/env python3
"""Counts the places in crates/*/src that each point of docs/DESIGN-PASS.md speaks of.

usage: tools/places.py [-v] [POINT..]    from the top of a checkout; -v lists the places"""
import collections
import glob
import re
import sys

TOKEN = re.compile(r"[A-Za-z_]\w*|\d\w*|\S")
KEYWORDS = set("fn let mut if else match for in while loop return as true false self Self pub struct enum impl trait const ref move".split())
NOTHING = r"Absent|Ill|Nothing|NoBody|Nowhere|NotInTable|Otherwise|Unasked|Refused|Failed|Passed|Other|None|Missing|Free"


def sources():
    for path in sorted(glob.glob("crates/*/src/**/*.rt", recursive=True)):
        text = re.sub(r"//[^\n]*", "", open(path, encoding="utf-8").read())
        yield path.removeprefix("crates/").replace("/src/", ":").removesuffix(".rt"), text


def body_from(text, at):
    start = text.index("{", at)
    depth = 0
    for i in range(start, len(text)):
        depth += {"{": 1, "}": -1}.get(text[i], 0)
        if depth == 0:
            return text[start + 1:i]
    return ""


def items(kind):
    for where, text in sources():
        for m in re.finditer(r"\b%s (\w+)" % kind, text):
            yield where, m.group(1), text, m.end()


def variants(body):
    body = re.sub(r"\{[^}]*\}", "(fields)", body)
    return re.findall(r"(\w+)\s*(\([^)]*\))?\s*,", body)


def functions():
    for where, name, text, end in items("fn"):
        opens = re.compile(r"[{;]\n").search(text, end)
        if opens and opens.group()[0] == "{":
            yield where, name, text[end:opens.start()], body_from(text, opens.start())


def point1():
    for where, name, text, end in items("enum"):
        vs = variants(body_from(text, end))
        holds = [v for v, content in vs if content]
        bare = [v for v, content in vs if not content]
        if len(vs) == 2 and holds:
            yield where, "enum %s { %s }" % (name, ", ".join(v for v, _ in vs))
        elif holds and any(re.fullmatch(NOTHING, v) for v in bare):
            yield where, "enum %s { %s }: one says that there is nothing" % (name, ", ".join(v for v, _ in vs))
    for where, name, text, end in items("struct"):
        for field in re.findall(r"(\w+): bool,", body_from(text, end) if text[end:end + 3].strip().startswith(("{", "<")) else ""):
            yield where, "struct %s, flag %s" % (name, field)
    for where, name, head, body in functions():
        if re.search(r"-> u(8|16)\b", head) and re.search(r"\bmatch\b", body):
            yield where, "fn %s: numbers for an enum" % name


def point2():
    shapes = collections.defaultdict(list)
    for where, name, head, body in functions():
        tokens = TOKEN.findall(body)
        if len(tokens) < 6:
            continue
        shape = " ".join(t if t in KEYWORDS or not re.match(r"\w", t) else ("0" if t[0].isdigit() else "x") for t in tokens)
        shapes[shape].append((where, name))
    for group in shapes.values():
        if len(group) > 1:
            for where, name in group:
                yield where, "fn %s, as %s" % (name, ", ".join("%s %s" % g for g in group if g != (where, name)))
    names = collections.defaultdict(set)
    for where, name, head, body in functions():
        if len(TOKEN.findall(body)) > 20:
            names[name.removeprefix("galebeacon_")].add(where)
    for name, places in sorted(names.items()):
        for one, other in (("peers", "state"), ("platform", "unit"), ("list", "replay")):
            if {one, other} <= {p.split(":")[0] for p in places}:
                yield one + " " + other, "fn %s in each" % name


def point3():
    for where, text in sources():
        for m in re.finditer(r"\bwhile [^{]*|\bfor \w+ in 0\.\.[^{]*|\bloop\b", text):
            yield where, m.group().strip()


def point4():
    for where, text in sources():
        for m in re.finditer(r"[\w.]+\.0 (?:<|<=|==|!=|>|>=) [\w.]+\.0\b|[\w.]+\.0 (?:<|<=|==|!=|>|>=) octets::le8", text):
            yield where, m.group()
    for where, name, head, body in functions():
        if name.endswith("_number") or name in ("same", "copy_in", "zero", "in_tu", "settings_of", "brought_of", "is_yes", "phase_of"):
            yield where, "fn " + name


def point5():
    clauses = collections.defaultdict(list)
    groups = collections.defaultdict(set)
    for where, name, head, body in functions():
        m = re.search(r"requires (?:\w+ )?\{(.*?)\}\n", head, re.S)
        for fact in re.split(r"×", m.group(1)) if m else []:
            fact = re.sub(r"\.(now|old)\b", "", fact.strip())
            clauses[re.sub(r"^\((.*)\)$", r"\1", fact)].append((where, name))
        parameters = re.findall(r"(\w+): ", head.split(")")[0])
        for i, a in enumerate(parameters):
            for b in parameters[i + 1:]:
                for c in parameters[parameters.index(b) + 1:]:
                    groups[(a, b, c)].add((where, name))
    for fact, places in sorted(clauses.items()):
        if len(places) > 2:
            for where, name in places:
                yield where, "fn %s requires %s" % (name, fact)
    listed = set()
    for group, places in sorted(groups.items(), key=lambda g: -len(g[1])):
        if len(places) > 2:
            for place in sorted(places - listed):
                yield place[0], "fn %s takes %s" % (place[1], ", ".join(group))
            listed |= places


def point6():
    for where, text in sources():
        for m in re.finditer(r"\[(?:start|\w+\.start)\.\.(?:end|\w+\.end)\]|\[0\.\.\w+\]", text):
            yield where, "cut by hand: " + m.group()
    for where, name, text, end in items("struct"):
        body = body_from(text, end) if text[end:end + 3].strip().startswith(("{", "<")) else ""
        if where.startswith("replay") and re.search(r"\b(cache|key|mic): u(8|16)", body):
            for field in re.findall(r"\b(cache|key|mic|room): u\d+", body):
                yield where, "struct %s, length %s beside its buffer" % (name, field)


def point7():
    for where, text in sources():
        for m in re.finditer(r"\bmatch (tag|kind|op|step)\b|\bfn\(|\bdyn\b", text):
            yield where, m.group()


def point8():
    for path in sorted(glob.glob("crates/*/proofs/**/Answers.antt", recursive=True)):
        for m in re.finditer(r"^pub ([\w-]+) : goal\.", open(path, encoding="utf-8").read(), re.M):
            yield path.split("/")[1], path.split("proofs/")[1].removesuffix("/Answers.antt") + ": " + m.group(1)


def main():
    words = sys.argv[1:]
    verbose = "-v" in words
    points = [w for w in words if w != "-v"] or list("12345678")
    for point in points:
        places = list(globals()["point" + point]())
        print("point %s: %d" % (point, len(places)))
        if verbose:
            for where, what in places:
                print("    %s: %s" % (where, what))


main()
