#!/usr/bin/env python3
"""Brings the repository's own names to today's spelling, once, after port.py: words in snake case, as port_names.tsv lists them (old, tab, new).

usage: python3 tools/port_names.py [FOLDER]      the folder of a checkout that port.py has turned; this one if none is given

By text: a name is a whole token, in specs/, proofs/, clauses, must-fail edits and pages. What a file imports from outside the repository keeps its
spelling there. A lemma that would fall together with the function that it is about ends in _lem. The names in LEFT were turned by port.py in one file alone and fall together there."""

import os
import re
import sys

HERE = os.path.dirname(os.path.realpath(__file__))
TOKEN = re.compile(r"[^\s(){}\[\],;.⌜⌝`\"]+")
USE = re.compile(r"^\s*(?:pub )?(?:ghost )?use ([^\s{;]+?)\.?\{(.*)\}")
LEFT = {
    ("verdict/specs/Walk.antt", "end_after"): "end_after_lem",
    ("records/specs/RowForm.antt", "is_digit"): "is_digit_lem",
    ("quick/proofs/Walking.antt", "first_found"): "first_found_lem",
}


def table():
    with open(os.path.join(HERE, "port_names.tsv"), encoding="utf-8") as f:
        return dict(l.rstrip("\n").split("\t") for l in f)


def foreign(text, crates):
    out = set()
    for l in text.split("\n"):
        m = USE.match(l)
        if m and not (m[1].startswith("Rattle.") and m[1].split(".")[1] in crates):
            out |= {x.strip().split(" as ")[-1] for x in m[2].split(",")}
    return out


def turned(text, names, kept, comment=None):
    def one(m):
        t = m[0]
        return t if t in kept else names.get(t, t)

    lines = []
    for l in text.split("\n"):
        head, tail = l, ""
        if comment:
            at = re.search(r"(^|\s)" + comment + r"(\s|$)", l)
            if at:
                head, tail = l[: at.start()], l[at.start() :]
        lines.append(TOKEN.sub(one, head) + TOKEN.sub(lambda m: one(m) if re.search(r"[a-z][A-Z]", m[0]) else m[0], tail))
    return "\n".join(lines)


def main(root):
    names = table()
    inside = os.path.join(root, "crates")
    crates = set(os.listdir(inside))
    changed = 0
    for folder, dirs, files in os.walk(inside):
        dirs[:] = sorted(d for d in dirs if d != "out")
        for f in sorted(files):
            path = os.path.join(folder, f)
            comment = {".antt": "--", ".rt": "//"}.get(os.path.splitext(f)[1])
            if not comment and not f.endswith(".edit"):
                continue
            with open(path, encoding="utf-8") as it:
                text = it.read()
            own = names | {n: to for (p, n), to in LEFT.items() if os.path.relpath(path, inside) == p}
            new = turned(text, own, foreign(text, crates), comment)
            if new != text:
                changed += 1
                with open(path, "w", encoding="utf-8") as it:
                    it.write(new)
    pages = [os.path.join(root, "README.md")] + [os.path.join(root, "docs", f) for f in sorted(os.listdir(os.path.join(root, "docs"))) if f.endswith(".md") and not f.startswith("PORT")]
    for path in pages:
        with open(path, encoding="utf-8") as it:
            text = it.read()
        new = re.sub(r"`[^`\n]+`", lambda m: turned(m[0], names, ()), text)
        if new != text:
            changed += 1
            with open(path, "w", encoding="utf-8") as it:
                it.write(new)
    print(f"{changed} files changed")


if __name__ == "__main__":
    main(sys.argv[1] if len(sys.argv) > 1 else os.path.join(HERE, ".."))
