#!/usr/bin/env python3
"""Turns each proofs/F/Proof.antt of the older form into Invariants.antt and Answers.antt.

usage: tools/to_answers.py NAMES CRATE..

NAMES is a folder with CRATE/names.json, as rt names writes it. A goal that the old proof left to `search rules` or `omega arith` is left
out, since the check finds it. Lines 'look:' name what a person has to read. Functions of a cycle are left as they are.
"""

import glob
import json
import os
import re
import sys

NAME = r'[^\s(){}.;,@"«»\[\]\\]+'
TOKEN = re.compile(NAME)
PATH = re.compile(r"(?<![^\s(){}\[\],;])(" + NAME + r")((?:\." + NAME + r")+)")
plain = lambda s: s.replace("_", "-")
TRIVIAL = {"search rules", "omega arith", "search (rules)", "refl"}


def find(root, crate):
    for p in (f"{root}/{crate}/names.json", f"{root}/{crate}/crates/{crate}/names.json"):
        if os.path.exists(p):
            return json.load(open(p))
    return None


def blocks(text):
    """The file's top-level pieces: each a list of lines, comments and blank lines with what follows."""
    out, cur = [], []
    for l in text.split("\n"):
        if l and not l[0].isspace() and not l.startswith("--"):
            m = re.match(r"((?:pub |abbrev |unfoldable |record |data |module )*)(" + NAME + ")", l)
            head = m[2] if m else l
            same = cur and cur_head and (head == cur_head or l.startswith("unfolding "))
            if not same:
                lead = []
                while cur and (not cur[-1].strip() or cur[-1].startswith("--")):
                    lead.insert(0, cur.pop())
                if cur:
                    out.append((cur_head, cur))
                cur = [x for x in lead if x.strip()]
                cur_head = head
        elif not cur:
            cur_head = None
        cur.append(l)
    if cur:
        out.append((cur_head, cur))
    return out


def split_args(s):
    """The arguments of `tie.spec ...` at depth 0."""
    out, depth, cur = [], 0, ""
    for ch in s:
        if ch in "([{":
            depth += 1
        if ch in ")]}":
            depth -= 1
        if ch.isspace() and depth == 0:
            if cur:
                out.append(cur)
            cur = ""
        else:
            cur += ch if not ch.isspace() else " "
    if cur:
        out.append(cur)
    return out


class Fn:
    def __init__(self, crate, folder, data, clauses):
        self.crate, self.f, self.d, self.clauses = crate, folder, data, clauses
        self.looks = []
        self.parent = {p[0]: (p[1], p[2], p[3]) for p in data["places"]}
        self.new_place = {}
        for p, n in zip(data["places"], data["places_by_name"]):
            self.new_place[p[0]] = n
        self.arm_at = {}
        for p, a in zip(data["places"], data["arms"]):
            if a:
                self.arm_at[p[0]] = a

    def chain(self, place):
        while place is not None and place in self.parent:
            yield place
            place = self.parent[place][0]

    def turn_path(self, place, segs):
        segs = [s for s in segs]
        while segs and segs[0] == "before":
            segs = segs[1:]
        if not segs:
            return "c"
        first = segs[0]
        if first in ("requires", "args", "ranges"):
            return "c." + ".".join(self.turn_clause(segs, "requires" if first == "requires" else None, None))
        # what an arm of a match binds
        for q in self.chain(place):
            a = self.arm_at.get(q)
            if not a:
                continue
            for new, step, path in a[2]:
                if plain(step) == plain(first) and path and segs[1 : 1 + len(path)] == path:
                    return "c." + ".".join([a[0], new] + segs[1 + len(path) :])
        for q in self.chain(place):
            old, new = self.parent[q][1]
            if plain(old) == plain(first):
                callee = self.parent[q][2]
                return "c." + ".".join(self.turn_clause([new] + segs[1:], "ensures", callee))
        self.looks.append("no step " + ".".join(segs))
        return "c." + ".".join(segs)

    def turn_clause(self, segs, kind, callee):
        names = None
        if kind == "requires":
            names = self.clauses.get((self.crate, self.f, "requires"))
            i = 1
        elif kind == "ensures" and callee and len(segs) > 2 and segs[1] == "ensures":
            c, _, g = callee.partition("::")
            names = self.clauses.get((c, g.replace("::", "/"), "ensures"))
            i = 2
        if names and len(segs) > i and segs[i].isdigit() and int(segs[i]) < len(names):
            segs = segs[:i] + [names[int(segs[i])]] + segs[i + 1 :]
        return segs

    def turn_body(self, place, text, binder="c"):
        def one(m):
            if m[1] != binder:
                return m[0]
            return self.turn_path(place, m[2].split(".")[1:])

        return PATH.sub(one, text)


def clause_names(root):
    out = {}
    for p in glob.glob(os.path.join(root, "crates/*/src/*.rt")):
        crate = p.split(os.sep)[-3]
        t = open(p).read()
        impl = [(m.start(), m[1]) for m in re.finditer(r"(?m)^impl(?:<[^>]*>)? (\w+)", t)]
        for m in re.finditer(r"(?m)^ *(?:pub )?fn (\w+)", t):
            end = t.find("\n{", m.end())
            head = t[m.end() : end]
            for kind in ("requires", "ensures"):
                ns = re.findall(r"(?m)^\s*" + kind + r" (\w+) \{", head)
                if len(ns) > 1:
                    out[(crate, m[1], kind)] = ns
    return out


def turn(crate, folder, path, data, clauses):
    fn = Fn(crate, folder, data, clauses)
    text = open(path).read()
    needs = data["needs"]
    by_old = {plain(o): (n, a[0]) for (o, n), a in zip(needs, data["asked_at"])}
    loops = {plain(l[0][0]): (l[0][1], l[1], ch) for l, ch in zip(data["loops"], data["changed"])}
    imports, helpers, answers, invariants = [], [], {}, []
    spec = None
    for head, lines in blocks(text):
        body = "\n".join(lines)
        code = "\n".join(l for l in lines if not l.startswith("--"))
        if code.startswith("use "):
            for l in lines:
                if ".Statement." in l or l.rstrip().endswith("Tie as tie") or not l.strip():
                    continue
                imports.append(l)
            continue
        if re.search(r": \{M : Type 1\} → statement M", code):
            spec = code
            continue
        m = re.search(r" : tie\.(Need-|invariant-|decreases-)(" + NAME + r")", code)
        if m:
            kind, old = m[1], plain(m[2])
            if kind == "Need-":
                answers[plain(head)] = [old, code, None]
            else:
                invariants.append((kind, old, head, code))
            continue
        helpers.append(body.rstrip())
    # the arguments of the spec, for answers that stand in it
    goals = [k for k in needs]
    if spec:
        m = re.search(r"tie\.spec\s+(.*)\)\s*$", spec, re.S)
        args = split_args(m[1]) if m else []
        n_inv = 2 * len(data["loops"])
        rest = args[n_inv:] if len(args) - n_inv == len(needs) else None
        if rest is None:
            fn.looks.append(f"{len(args)} arguments, {len(needs)} goals, {len(data['loops'])} loops")
        else:
            for a, (o, n), at in zip(rest, needs, data["asked_at"]):
                if a.startswith("("):
                    mm = re.match(r"\(λ (?:c|_)(?: κs)?\. (.*)\)$", a)
                    if mm and mm[1].strip() in TRIVIAL:
                        continue
                    if mm:
                        answers["\0" + n] = [None, mm[1].strip(), (n, at[0])]
                    else:
                        fn.looks.append("argument " + a[:80])
                elif plain(a) in answers:
                    answers[plain(a)][2] = (n, at[0])
    out = []
    used, cons = set(), set()
    for head, (old, code, at) in answers.items():
        if at is None:
            at = by_old.get(old) or by_old.get(re.sub(r"^(overflow|nonzero|offset|slice)-", "", old))
        if at is None:
            fn.looks.append("no goal " + str(old))
            out.append("-- look: " + code.replace("\n", "\n-- "))
            continue
        name, place = at
        if name in used:
            fn.looks.append("twice " + name)
            continue
        used.add(name)
        if old is None:
            body = " c = " + fn.turn_body(place, code)
            unf = ""
        else:
            lines = code.split("\n")
            unf = "".join(l + "\n" for l in lines if l.startswith("unfolding "))
            eq = [l for l in lines[1:] if not l.startswith("unfolding ")]
            # a type that goes on over lines
            while eq and not re.match(re.escape(lines[0].split()[0]) + r"(\s|$)", eq[0]):
                eq = eq[1:]
            if not eq:
                fn.looks.append("no body " + name)
                continue
            h = lines[0].split()[0]
            b = "\n".join(eq)[len(h):]
            m = re.match(r"\s+(\S+)(?: κs)?\s*=(.*)$", b, re.S)
            if not m:
                fn.looks.append("form of " + name + ": " + b[:60])
                out.append("-- look: " + code.replace("\n", "\n-- "))
                continue
            if m[2].strip() in TRIVIAL and not unf:
                continue
            body = " " + m[1] + " =" + fn.turn_body(place, m[2], m[1])
        m = re.search(r"⊎_elim \((λ w\..*?)\)\s+\((λ w\..*?)\)\s+(c\.if-(\S+?)\.branch)", body, re.S)
        if m:
            cases = [x[len("λ w."):].strip() for x in (m[1], m[2])]
            body = body[: m.start()] + f"elim {m[3]} [ then-{m[4]} w ↦ {cases[0]} | else-{m[4]} w ↦ {cases[1]} ]" + body[m.end() :]
            cons.update([f"then-{m[4]}", f"else-{m[4]}"])
        elif "κs" in body or ".branch" in body:
            fn.looks.append(name + " has κs or branch")
        out.append(f"pub {name} : goal.{name}\n{unf}{name}{body.rstrip()}")
    inv = []
    for kind, old, head, code in invariants:
        got = loops.get(old)
        if got is None:
            fn.looks.append("no loop " + old)
            continue
        name, vs, changed = got
        lines = code.split("\n")
        unf = "".join(l + "\n" for l in lines if l.startswith("unfolding "))
        eq = "\n".join(l for l in lines[1:] if not l.startswith("unfolding "))
        m = re.match(re.escape(head) + r"((?: \S+)*?) =(.*)$", eq, re.S)
        if not m:
            fn.looks.append("form of " + head)
            continue
        ps = m[1].split()
        want = [("l.initial." + v if c else "l." + v) for v, c in zip(vs, changed)] + ["l." + v for v, c in zip(vs, changed) if c]
        if len(ps) != len(want):
            # a place in memory that the older Rattle kept beside the variables
            named = {v: "l." + v for v in vs} | {v + "₀": "l.initial." + v for v in vs}
            fn.looks.append(f"{head}: without {[p for p in ps if p not in named and p != '_']}")
            want = [named.get(p, p) for p in ps]
        sub = {p: w for p, w in zip(ps, want) if p != "_"}

        def rep(m2, sub=sub):
            return sub.get(m2[0], m2[0]) if m2.string[m2.start() - 1 : m2.start()] != "." else m2[0]

        inv.append(f"abbrev pub {kind}{name} : goal.{kind}{name}\n{unf}{kind}{name} l ={TOKEN.sub(rep, m[2]).rstrip()}")
    return imports, helpers, out, inv, fn.looks, sorted(cons)


def keep_imports(imports, text):
    words = set(TOKEN.findall(text))
    out = []
    for l in imports:
        m = re.match(r"use (\S+?)\.\{([^}]*)\}(.*)$", l)
        if not m:
            m2 = re.search(r"(?: as (\S+)|\.(" + NAME + r"))$", l)
            if m2 and (m2[1] or m2[2]) in words:
                out.append(l)
            continue
        keep = []
        for it in m[2].split(","):
            ws = it.split()
            if not ws:
                continue
            n = ws[-1]
            if n in words or ("◌" in n and all(p in text for p in n.split("◌") if p)):
                keep.append(" ".join(ws))
        if keep:
            out.append(f"use {m[1]}.{{{', '.join(keep)}}}{m[3]}")
    return out


def proofs_of(argv, pattern):
    """Each proof file of the named crates that fits the pattern, with its crate, what rt names says of that, and the names of clauses."""
    clauses = clause_names(".")
    for crate in argv[1:]:
        data = find(argv[0], crate)
        if data is None:
            print(f"look: {crate}: no names")
            continue
        for p in sorted(glob.glob(f"crates/{crate}/proofs/{pattern}", recursive=True)):
            yield crate, data, clauses, p


def main(argv):
    for crate, data, clauses, p in proofs_of(argv, "**/Proof.antt"):
        folder = os.path.dirname(p)[len(f"crates/{crate}/proofs/") :]
        if folder.startswith("+"):
            print(f"look: {crate}/{folder[:60]}: a cycle")
            continue
        key = f"Rattle-{crate}-proofs.{folder.replace('/', '.')}.Lts"
        if key not in data:
            print(f"look: {crate}/{folder}: no names of it")
            continue
        imports, helpers, out, inv, looks, cons = turn(crate, folder, p, data[key], clauses)
        for l in looks:
            print(f"look: {crate}/{folder}: {l}")
        d = os.path.dirname(p)
        os.remove(p)
        mod = folder.replace("/", ".")
        if inv:
            t = "\n\n".join(inv)
            # helpers that an invariant names stay with it
            mine = [h for h in helpers if re.match(r"(?:pub |abbrev |unfoldable )*(" + NAME + ")", h.split("\n")[-1] if False else h) and any(w in TOKEN.findall(t) for w in re.findall(r"(?m)^(?:pub |abbrev |unfoldable )*(" + NAME + r") ", h)[:1])]
            body = "\n\n".join(mine + [t])
            head = keep_imports(imports, body) + [f"use Rattle.{crate}.proofs.{mod}.Given as goal"]
            open(f"{d}/Invariants.antt", "w").write("\n".join(head) + "\n\n" + body + "\n")
        if out:
            body = "\n\n".join(helpers + out)
            head = keep_imports(imports, body) + [f"use Rattle.{crate}.proofs.{mod}.Goals as goal"]
            if cons:
                head.append(f"use Rattle.{crate}.proofs.{mod}.Goals.{{{', '.join(cons)}}}")
            open(f"{d}/Answers.antt", "w").write("\n".join(head) + "\n\n" + body + "\n")
        if not inv and not out:
            os.rmdir(d)


if __name__ == "__main__":
    main(sys.argv[1:])
