#!/usr/bin/env python3
"""Spells the lemmas of a function's own proof files in snake case, as tools/respell.py does those of whole crates.

usage: python3 tools/respell_answers.py     at the repository's top, after Proof.antt has become Answers.antt and Invariants.antt

A goal's name stays, and so does what stands behind a dot, since Rattle makes both. An edit of such a file turns along with it.
A second run changes nothing.
"""

import os
import re

NAME = r"[\w'-]+"
DECLARED = re.compile(rf"(?m)^(?:abbrev )?({NAME}-{NAME}) :")


def turned(text, rows):
    for old, new in rows.items():
        text = re.sub(rf"(?<![\w.'◌-]){re.escape(old)}(?![\w'◌-])", new, text)
    return text


def rows_of(text):
    rows = {}
    for old in DECLARED.findall(text):
        new = old.replace("-", "_")
        if re.search(rf"(?<![\w'-]){re.escape(new)}(?![\w'-])", text):
            new += "_lem"
        rows[old] = new
    return rows


def main():
    changed = 0
    for folder, dirs, files in os.walk("crates"):
        dirs[:] = sorted(d for d in dirs if d != "out")
        crate = os.path.join(*folder.split(os.sep)[:2]) if os.sep in folder else None
        for name in sorted(set(files) & {"Answers.antt", "Invariants.antt"}):
            path = os.path.join(folder, name)
            with open(path, encoding="utf-8") as f:
                text = f.read()
            rows = rows_of(text)
            if not rows:
                continue
            changed += 1
            with open(path, "w", encoding="utf-8") as f:
                f.write(turned(text, rows))
            edits = os.path.join(crate, "must-fail")
            for edit in sorted(os.listdir(edits)) if os.path.isdir(edits) else []:
                with open(os.path.join(edits, edit), encoding="utf-8") as f:
                    said = f.read()
                if f"file: {os.path.relpath(path, crate)}" in said:
                    with open(os.path.join(edits, edit), "w", encoding="utf-8") as f:
                        f.write(turned(said, rows))
    print(f"respell_answers: {changed} files changed")


if __name__ == "__main__":
    main()
