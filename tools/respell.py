#!/usr/bin/env python3
"""Spells the names that this repository declares in snake case, after port.py: all-below is all_below.

usage: tools/respell.py [--dry] [ROOT]

It goes over specs/, proofs/ and the clauses of src/. A name that a library declares, or that Rattle makes, stays as it is, and so
does a name in a file that imports it from a library. Names that would fall together are in APART, with the name they get.
Comments, strings and Rust code stay. It is run once, after port.py.
"""

import collections
import glob
import os
import re
import sys

NAME = r'[^\s(){}.;,@"«»\[\]\\]+'
TOKEN = re.compile(r'--(?=[ \n-])[^\n]*|"(?:[^"\\]|\\.)*"|«[^»]*»|' + NAME)
DECLARED = re.compile(
    r"^\s*(?:let )?((?:pub |abbrev |unfoldable |record |data |module |mutual )*)(" + NAME + r"(?: " + NAME + r")*)"
    r"(?: \{[^{}\n]*\}| \([^()\n]*\))* :(?=\s|$)"
)
LET = re.compile(r"\blet (" + NAME + r") [:=]")
BINDER = re.compile(r"[({](" + NAME + r"(?: " + NAME + r")*) :(?=\s)")
USE = re.compile(r"^\s*(?:pub )?(?:ghost )?use ([^\s{;]+?)\.?\{([^}]*)\}|^\s*(?:pub )?(?:ghost )?use ([^\s{;]+)")
# what Rattle makes for the proof of a function, and the proof itself
MADE = re.compile(r": (?:tie|goal)\.|statement M$")
RUST = re.compile(r'//[^\n]*|b?"(?:[^"\\]|\\.)*"|' + NAME)

# kebab name -> its new name, where its snake form is another's (none is)
APART = {}

# types with a small first letter: the crates that speak of each, its name and its new name
TYPES = [
    (("framed",), "rewrites", "Rewrites"),
    (("framed",), "compares", "Compares"),
    (("lent_machine", "demands", "printed_run"), "formed", "Formed"),
]


def snake(name):
    return APART.get(name) or name.replace("-", "_")


def files(root):
    for p in sorted(glob.glob(os.path.join(root, "crates/*/*/**/*"), recursive=True)):
        parts = os.path.relpath(p, root).split(os.sep)
        if "out" in parts or parts[2] not in ("specs", "proofs", "src"):
            continue
        if p.endswith((".antt", ".rt")) and os.path.isfile(p):
            yield p


def has_dash(name):
    return "-" in name and re.match(r"[^\W\d_]", name) and not name.endswith("-")


def main(argv):
    dry = "--dry" in argv
    rest = [a for a in argv if a != "--dry"]
    root = rest[0] if rest else "."
    texts = {p: open(p, encoding="utf-8").read() for p in files(root)}
    everywhere, here = set(), collections.defaultdict(set)
    kept = collections.defaultdict(set)
    snakes = collections.defaultdict(set)
    for p, t in texts.items():
        own_file = os.path.relpath(p, root).split(os.sep)[2] == "proofs" and p.endswith("/Proof.antt")
        if p.endswith(".antt"):
            lines = t.split("\n")
            for i, l in enumerate(lines):
                m = DECLARED.match(l)
                names = m[2].split() if m else []
                if m and (MADE.search(l) or (i + 1 < len(lines) and l.rstrip().endswith(":") and MADE.search(": " + lines[i + 1].strip()))):
                    kept[p].update(names)
                    continue
                for bound in LET.findall(l) + [n for b in BINDER.findall(l) for n in b.split()]:
                    if has_dash(bound):
                        here[p].add(bound)
                for n in names:
                    if has_dash(n):
                        (here[p] if own_file else everywhere).add(n)
                    elif "_" in n and not n.startswith("_"):
                        snakes[n].add(p)
        for l in t.split("\n"):
            m = USE.match(l)
            if m and m[1] and not re.match(r"Rattle\.(?!std\b|core\b|std_|libc\b|io\b|os\b)", m[1]):
                for it in m[2].split(","):
                    words = it.split()
                    if words:
                        kept[p].add(words[-1] if "as" in words else words[0])
    report = []
    for p, t in texts.items():
        mine = (everywhere | here[p]) - kept[p]
        tokens = set()

        crate = os.path.relpath(p, root).split(os.sep)[1]
        types = {old: new for crates, old, new in TYPES if crate in crates}

        def turn(m, mine=mine, tokens=tokens, types=types):
            w = m[0]
            if w.startswith(("--", "//", '"', 'b"', "«")):
                return w
            tokens.add(w)
            if w in types and m.string[m.start() - 1 : m.start()] != ".":
                return types[w]
            return snake(w) if w in mine else w

        new = (RUST if p.endswith(".rt") else TOKEN).sub(turn, t)
        for w in sorted(tokens & mine):
            if w.replace("-", "_") in tokens and w not in APART:
                report.append(f"both: {os.path.relpath(p, root)}: {w} and {w.replace('-', '_')}")
        new = new.replace("Paths.in-code", "Paths.in_code")
        if new != t and not dry:
            with open(p, "w", encoding="utf-8") as f:
                f.write(new)
    for n in sorted(everywhere):
        s = n.replace("-", "_")
        if s in snakes and n not in APART:
            report.append(f"declared: {n} in this form, and {s} in {', '.join(os.path.relpath(q, root) for q in sorted(snakes[s])[:3])}")
    print("\n".join(report))
    print(f"{len(everywhere)} names of all files, {sum(map(len, here.values()))} of one; {len(report)} reports")


if __name__ == "__main__":
    main(sys.argv[1:])
