#!/usr/bin/env python3
"""Brings this repository's own names to today's spelling: words in snake case, types and modules in camel case.

usage: python3 tools/respell.py [FOLDER]     in FOLDER (here: the repository's top), after port.py has run there

It goes by tools/respell.tsv, a row a name: old, a tab, new. Whole words turn: in .antt files and must-fail edits; in .rt files
what no Rust name is spelled like; in pages what stands between back quotes. A dashed name in a comment turns between back quotes alone.
A row with a third part, the beginning of a path, turns in .antt files there alone, and never beside a dot: it parts a lemma from its function.
A second run changes nothing. With --conflicts it writes nothing and lists the files in which two names would fall together.
"""

import os
import re
import sys

HERE = os.path.dirname(os.path.realpath(__file__))
WORD = re.compile(r'[^\s(){}.;,@"«»`]+')
SPAN = re.compile(r"`[^`\n]*`")
FIELDS = re.compile(r"^(old|new|file): ")


def table():
    rows, there = {}, []
    with open(os.path.join(HERE, "respell.tsv"), encoding="utf-8") as f:
        for line in f:
            old, new, *path = line.rstrip("\n").split("\t")
            if path:
                there.append((re.compile(rf"(?<![\w.◌'-]){re.escape(old)}(?![\w.◌'-])"), new, path[0]))
            else:
                rows[old] = new
    return rows, there


def words(text, rows):
    return WORD.sub(lambda m: rows.get(m[0], m[0]), text)


def antt(text, rows):
    """Code turns whole. In a comment a name with a capital turns, as no English word is spelled so, and what stands between back quotes."""
    plain = {old: new for old, new in rows.items() if "-" not in old}
    out = []
    for line in text.splitlines(keepends=True):
        m = re.search(r"(?:(?<=\s)|^)--(?=\s)", line)
        if not m:
            out.append(words(line, rows))
        else:
            said = SPAN.sub(lambda s: words(s[0], rows), line[m.start() :])
            out.append(words(line[: m.start()], rows) + words(said, plain))
    return "".join(out)


def program(text, rows):
    return words(text, {old: new for old, new in rows.items() if re.search("[A-Z]", old)})


def edit(text, rows):
    code = program if re.search(r"(?m)^file: \S+\.rt\s*$", text) else antt
    out = []
    for line in text.splitlines(keepends=True):
        m = FIELDS.match(line)
        out.append(line[: m.end()] + code(line[m.end() :], rows) if m and m[1] != "file" else line)
    return "".join(out)


def page(text, rows):
    return SPAN.sub(lambda s: words(s[0], rows), text)


def kind(path):
    if "/crates/" in path:
        return {".antt": antt, ".rt": program, ".edit": edit}.get(os.path.splitext(path)[1])
    return page if path.endswith(".md") and "/landings/" not in path else None


def main(argv):
    conflicts = "--conflicts" in argv
    argv = [a for a in argv if a != "--conflicts"]
    root = os.path.realpath(argv[0] if argv else ".")
    rows, there = table()
    changed = 0
    for folder, dirs, files in os.walk(root):
        dirs[:] = sorted(d for d in dirs if d not in (".git", "out", "target"))
        for name in sorted(files):
            path = os.path.join(folder, name)
            turn = kind(path)
            if not turn:
                continue
            with open(path, encoding="utf-8") as f:
                was = text = f.read()
            for old, new, beginning in there:
                if path.endswith(".antt") and os.path.relpath(path, root).startswith(beginning) and new not in text:
                    text = old.sub(new, text)
            if conflicts and path.endswith((".antt", ".rt")):
                said = {}
                for w in set(WORD.findall(text)):
                    said.setdefault(rows.get(w, w), set()).add(w)
                for new, olds in sorted(said.items()):
                    if len(olds) > 1:
                        print(os.path.relpath(path, root), new, sorted(olds))
                continue
            new = turn(text, rows)
            if new != was:
                changed += 1
                with open(path, "w", encoding="utf-8") as f:
                    f.write(new)
    if not conflicts:
        print(f"respell: {changed} files changed")


if __name__ == "__main__":
    main(sys.argv[1:])
