#!/usr/bin/env python3
"""Counts the places of the design pass (docs/DESIGN-PASS.md) in crates/*/src of a checkout.

    tools/count_places.py [FOLDER] [--list]

For each point it prints how many places there are, and with --list each of them.
"""
import re
import sys
from glob import glob
from collections import defaultdict

args = [a for a in sys.argv[1:] if a != "--list"]
LIST = "--list" in sys.argv
TOP = args[0] if args else "."


def strip(text):
    text = re.sub(r"//[^\n]*", "", text)
    return text


def sources():
    for path in sorted(glob(TOP + "/crates/*/src/*.rt")):
        yield path[len(TOP) + 8 :], strip(open(path).read())


def items(text, word):
    for m in re.finditer(r"^(?:pub(?:\(crate\))? )?%s (\w+)[^\n{]*\{\n(.*?)^\}" % word, text, re.M | re.S):
        yield m.group(1), m.group(2)


def functions(text):
    pattern = r"^( *)(?:pub(?:\(crate\))? )?(?:extern \"C\" )?fn (\w+)(<[^(]*>)?\((.*?)\)(?: -> ([^\n{]+?))?\s*?(?=\n|\{)(.*?)^\1\}"
    for m in re.finditer(pattern, text, re.M | re.S):
        rest = m.group(6)
        at = rest.find("\n" + m.group(1) + "{\n")
        body = rest[at:] if at >= 0 else rest
        clauses = rest[:at] if at >= 0 else ""
        params = [p.strip() for p in re.split(r",\s*(?![^<\[(]*[>\])])", m.group(4)) if p.strip()]
        yield m.group(2), params, (m.group(5) or "").strip(), clauses, body


found = defaultdict(list)


def put(point, path, name):
    found[point].append("%s %s" % (path, name))


shapes = defaultdict(list)
for path, text in sources():
    for name, body in items(text, "enum"):
        variants = [v.strip().rstrip(",") for v in body.split("\n") if v.strip()]
        held = [v for v in variants if "(" in v or "{" in v]
        if held:
            put("1a enums that hold a value", path, name)
    for name, body in items(text, "struct"):
        fields = dict(re.findall(r"(\w+): ([^\n]+),", body))
        flags = [f for f, t in fields.items() if t == "bool"]
        if flags and len(flags) < len(fields):
            put("1b structs with a flag beside values", path, "%s (%s)" % (name, ", ".join(flags)))
    for name in re.findall(r"^\s*pub const (\w+): (?:u64|usize|u8) = \d+;", text, re.M):
        put("1c numbered constants", path, name)
    for name, params, result, clauses, body in functions(text):
        arms = len(re.findall(r"^\s*(?:\w+::)?\w+::\w+(?:\(\w*\))? => \w*\(?\d+\)?,", body, re.M))
        back = len(re.findall(r"^\s*\d+ => \S", body, re.M)) + len(re.findall(r"== \d+ \{\s*return \w+::", body))
        if arms >= 2:
            put("1d and 4: a kind to a number, by hand", path, name)
        if back >= 2:
            put("1d and 4: a number to a kind or word, by hand", path, name)
        if re.search(r"if (\w+) < (\w+) \{\s*(return )?(\1|\2|0);?\s*\}", body) or re.search(r"if (\w+) == 0 \{ 0 \} else", body):
            put("4 min, max or a difference by hand", path, name)
        shape = re.sub(r"\d[\d_]*", "N", body)
        shape = re.sub(r"[A-Za-z_]\w*", lambda m: m.group(0) if m.group(0) in (
            "if", "else", "for", "in", "while", "loop", "match", "let", "mut", "return", "continue", "break", "as") else "I", shape)
        shape = re.sub(r"\s+", " ", shape)
        if len(shape) >= 30:
            shapes[shape].append("%s %s" % (path, name))
        for line in body.split("\n"):
            s = line.strip()
            if re.match(r"(while|loop)\b", s):
                put("3a while and loop", path, "%s: %s" % (name, s))
            m = re.match(r"(?:'\w+: )?for (\w+) in (.*) \{", s)
            if m and ".." in m.group(2) and "step_by" not in m.group(2):
                if re.search(r"\[[^\]]*\b%s\b[^\]]*\]" % m.group(1), body) or re.search(r"(entry|number_at)\(\w+, %s\)" % m.group(1), body):
                    put("3b for over numbers that index", path, "%s: %s" % (name, s))
                else:
                    found["3c for over numbers that index nothing"].append("%s %s: %s" % (path, name, s))
        if len(params) >= 6:
            put("5 functions of six parameters or more", path, "%s (%d)" % (name, len(params)))
        if any("&mut [" in p for p in params) and (any(re.search(r": (usize)$", p) for p in params) or result == "usize"):
            put("6 a lent buffer with a place or count beside it", path, name)
        calls = re.findall(r"^\s*(?:\w+::)?\w+::\w+ => (\w+)\(", body, re.M) + re.findall(r"^\s*\d+ => (\w+)\(", body, re.M)
        if len(set(calls)) >= 2:
            put("7 a match whose arms call different steps", path, name)
for shape, names in shapes.items():
    if len(names) > 1:
        found["2 functions of one shape"].append("%d: %s" % (len(names), "; ".join(names)))

for point in sorted(found):
    places = found[point]
    if point.startswith("2"):
        print("%-55s %d groups, %d functions" % (point, len(places), sum(int(p.split(":")[0]) for p in places)))
    else:
        print("%-55s %d" % (point, len(places)))
    if LIST:
        for p in places:
            print("    " + p)
