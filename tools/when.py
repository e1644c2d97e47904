#!/usr/bin/env python3
"""Renames this repository's own `if t then x else y` to `when t then x else y`, since the library has an operator of the first name. Run twice, it changes nothing."""

import glob
import re

OWN = "Rattle.framed.specs.Common"
COMMENT = re.compile(r'(--(?=[ \n-])[^\n]*|"(?:[^"\\]|\\.)*")')


def turn(text):
    out = []
    for i, part in enumerate(COMMENT.split(text)):
        out.append(part if i % 2 else re.sub(r"(?<![\w.'-])if(?=\s)", "when", part))
    return "".join(out)


def main():
    mine = set()
    for p in glob.glob("crates/*/specs/*.antt") + glob.glob("crates/*/proofs/**/*.antt", recursive=True):
        t = open(p).read()
        if "if◌then◌else◌" in t and (OWN in t or p.endswith("framed/specs/Common.antt")):
            new = turn(t.replace("if◌then◌else◌", "when◌then◌else◌"))
            open(p, "w").write(new)
        if "when◌then◌else◌" in open(p).read():
            mine.add(p)
    for p in glob.glob("crates/*/src/*.rt"):
        t = open(p).read()
        if "if◌then◌else◌" not in t or OWN not in t:
            continue
        lines = t.replace("if◌then◌else◌", "when◌then◌else◌").split("\n")
        for i, l in enumerate(lines):
            if re.match(r"\s*(requires|ensures)\b.*\{", l):
                lines[i] = turn(l)
        open(p, "w").write("\n".join(lines))
    for p in glob.glob("crates/*/must-fail/*.edit"):
        file, out, change = None, [], False
        for l in open(p).read().split("\n"):
            if l.startswith("file: "):
                file = "/".join(p.split("/")[:2]) + "/" + l[6:].strip()
            if file in mine and l.startswith(("old: ", "new: ")):
                n = l[:5] + turn(l[5:]).replace("if◌then◌else◌", "when◌then◌else◌")
                change |= n != l
                l = n
            out.append(l)
        if change:
            open(p, "w").write("\n".join(out))


main()
