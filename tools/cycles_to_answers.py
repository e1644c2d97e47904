#!/usr/bin/env python3
"""Turns each proofs/+NAME/Proof.antt of the older form, the proof of functions that call one another, into Invariants.antt and Answers.antt.

usage: tools/cycles_to_answers.py NAMES CRATE..

Beside to_answers.py, of which it uses the parts; CYCLES gives the cycles shorter names.
"""

import os
import re
import sys

sys.path.insert(0, os.path.dirname(os.path.realpath(__file__)))
from to_answers import NAME, TOKEN, TRIVIAL, Fn, blocks, keep_imports, plain, proofs_of, split_args

CYCLES = {
    "check_expression_check_slots": "check",
    "assigning_base_binary_block_branching_expression_frame_instruction_instructions_jumping_line_negation_operand_right_showing_slot_slots": "tree",
    "evaluate_fill": "evaluate",
    "assigning_base_base_from_binary_block_branching_expression_frame_instruction_instructions_jumping_negation_operation_showing_slots": "grammar",
    "made_in_made_of": "made",
    "same_base_same_expression_same_instruction_same_list_same_slots_same_three_same_two": "same",
    "base_text_code_text_expression_text_instruction_text_slots_text": "code",
    "frame_text_outside_text": "frame",
}
SCAFFOLD = re.compile(r"^abbrev \S+_(at|below|calls) : ℕ → ")


def parameters(crate):
    t = open(f"crates/{crate}/src/lib.rt").read()
    out = {}
    for m in re.finditer(r"(?m)^(?:pub )?fn (\w+)(?:<[^>]*>)?\(", t):
        depth, i = 1, m.end()
        while depth:
            depth += {"(": 1, ")": -1}.get(t[i], 0)
            i += 1
        out[m[1]] = re.findall(r"(?:^|,)\s*(?:mut )?(\w+):", t[m.end() : i - 1])
    return out


def main(argv):
    for crate, data, clauses, p in proofs_of(argv, "+*/Proof.antt"):
        params = parameters(crate)
        old_cycle = os.path.basename(os.path.dirname(p))[1:]
        cycle = CYCLES.get(old_cycle, old_cycle)
        text = open(p).read()
        alias = {}
        imports = []
        fns = {}
        for m in re.finditer(r"use \S+\.Lts-(\S+) as (\S+)", text):
            alias[m[2]] = m[1]
            d = data.get(f"Rattle-{crate}-proofs.+{old_cycle}.Lts-{m[1]}")
            fns[m[1]] = (Fn(crate, m[1], d, clauses), d)
        inv, out, helpers, looks, cons, used = [], [], [], [], set(), set()
        for head, lines in blocks(text):
            code = "\n".join(l for l in lines if not l.startswith("--"))
            if code.startswith("use "):
                imports += [l for l in lines if l.startswith("use ") and not re.search(r"\.(Reads|Kinds|Tie|Lts-\S+) |borrow\.Fn\.|\{statement\}|Tie\.\{close\}", l + " ")]
                continue
            if SCAFFOLD.match(code) or re.search(r":\s+\{M : Type 1\} → statement M", code) or code.strip() == "}":
                continue
            ls = code.split("\n")
            unf = "".join(l + "\n" for l in ls if l.startswith("unfolding "))
            eq = [l for l in ls[1:] if not l.startswith("unfolding ")]
            while eq and not re.match(re.escape(head) + r"(\s|$)", eq[0]):
                eq = eq[1:]
            eq = "\n".join(eq)
            m = re.match(r"abbrev μ_(\S+) : Measures", code)
            if m:
                f = m[1]
                b = re.match(r"\S+ κs a =(.*)$", eq, re.S)[1]

                def part(mm, f=f):
                    ps = params[f]
                    k = mm[1].count(".1")
                    return "l." + ps[k]

                b = re.sub(r"(?<![\w.])a((?:\.1)*)\.0", part, b)
                inv.append(f"abbrev pub decreases-{f} : goal.decreases-{f}\ndecreases-{f} l ={b.rstrip()}")
                continue
            m = re.search(r" : (\S+)\.(invariant|decreases)-(\S+)", code)
            if m and m[1] in alias:
                f = alias[m[1]]
                d = fns[f][1]
                new = vs = None
                for l, ch in zip(d["loops"], d["changed"]):
                    if plain(l[0][0]) == plain(m[3]):
                        new, vs, changed = l[0][1], l[1], ch
                mm = re.match(re.escape(head) + r"((?: \S+)*?) =(.*)$", eq, re.S)
                ps = mm[1].split()
                named = {v: "l." + v for v in vs} | {v + "₀": "l.initial." + v for v in vs}
                lost = [q for q in ps if q not in named and q != "_"]
                if lost:
                    looks.append(f"{head}: without {lost}")
                # a parameter that the loop leaves alone has no initial value of its own
                body = TOKEN.sub(lambda t: named.get(t[0], t[0]) if t.string[t.start() - 1 : t.start()] != "." else t[0], mm[2])
                name = f"{d['stem']}{m[2]}-{new}" if False else f"{m[2]}-{d['stem']}{new}"
                inv.append(f"abbrev pub {name} : goal.{name}\n{unf}{name} l ={body.rstrip()}")
                continue
            m = re.search(r"(\S+)\.Need-(" + NAME + ")", code)
            if m and m[1] in alias:
                f = alias[m[1]]
                fn, d = fns[f]
                by_old = {plain(o): (n, a[0]) for (o, n), a in zip(d["needs"], d["asked_at"])}
                old = plain(m[2])
                at = by_old.get(old) or by_old.get(re.sub(r"^(overflow|nonzero|offset|slice)-", "", old))
                mm = re.match(re.escape(head) + r" t (\S+)(?: κs)? =(.*)$", eq, re.S)
                if at is None or mm is None:
                    looks.append(f"{f}: no goal {m[2]}" if at is None else f"{f}: form of {head}")
                    out.append("-- look: " + code.replace("\n", "\n-- "))
                    continue
                if mm[2].strip() in TRIVIAL and not unf:
                    continue
                name = d["stem"] + at[0]
                if name in used:
                    looks.append("twice " + name)
                    continue
                used.add(name)
                body = fn.turn_body(at[1], mm[2], mm[1])
                b = re.search(r"⊎_elim \((λ w\..*?)\)\s+\((λ w\..*?)\)\s+(c\.if-(\S+?)\.branch)", body, re.S)
                if b:
                    cases = [x[len("λ w.") :].strip() for x in (b[1], b[2])]
                    body = body[: b.start()] + f"elim {b[3]} [ {d['stem']}then-{b[4]} w ↦ {cases[0]} | {d['stem']}else-{b[4]} w ↦ {cases[1]} ]" + body[b.end() :]
                    cons.update([f"{d['stem']}then-{b[4]}", f"{d['stem']}else-{b[4]}"])
                elif "κs" in body or ".branch" in body:
                    looks.append(name + " has κs or branch")
                out.append(f"pub {name} : goal.{name}\n{unf}{name} t {mm[1]} ={body.rstrip()}")
                continue
            helpers.append("\n".join(lines).rstrip())
        # goals that stand in the spec itself
        for m in re.finditer(r"λ t\. (\S+)\.spec\s", text):
            if m[1] not in alias:
                continue
            i, depth = m.end(), 1
            while i < len(text) and depth:
                depth += {"(": 1, ")": -1}.get(text[i], 0)
                i += 1
            f = alias[m[1]]
            fn, d = fns[f]
            args = split_args(text[m.end() : i - 1 if depth == 0 else i])[3 + 2 * len(d["loops"]) :]
            if len(args) != len(d["needs"]):
                looks.append(f"{f}: {len(args)} arguments, {len(d['needs'])} goals")
                continue
            for a, (o, n), at in zip(args, d["needs"], d["asked_at"]):
                mm = re.match(r"\(λ (\S+?)(?: κs)?\. (.*)\)$", a)
                if not mm or mm[2].strip() in TRIVIAL:
                    continue
                name = d["stem"] + n
                if name in used:
                    continue
                used.add(name)
                body = fn.turn_body(at[0], " " + mm[2], mm[1])
                if "κs" in body or ".branch" in body:
                    looks.append(name + " has κs or branch")
                out.append(f"pub {name} : goal.{name}\n{name} t {mm[1]} ={body.rstrip()}")
        for f, (fn, d) in fns.items():
            looks += [f"{f}: {l}" for l in fn.looks]
        for l in looks:
            print(f"look: {crate}/+{cycle}: {l}")
        d = f"crates/{crate}/proofs/+{cycle}"
        os.makedirs(d, exist_ok=True)
        mod = f"Rattle.{crate}.proofs.+{cycle}"
        body = "\n\n".join(inv)
        open(f"{d}/Invariants.antt", "w").write("\n".join(keep_imports(imports, body) + [f"use {mod}.Given as goal"]) + "\n\n" + body + "\n")
        body = "\n\n".join(helpers + out)
        more = [f"use {mod}.Goals.{{{', '.join(sorted(cons))}}}"] if cons else []
        open(f"{d}/Answers.antt", "w").write("\n".join(keep_imports(imports, body) + [f"use {mod}.Goals as goal"] + more) + "\n\n" + body + "\n")
        os.remove(p)
        if not os.listdir(os.path.dirname(p)):
            os.rmdir(os.path.dirname(p))
        src = f"crates/{crate}/src/lib.rt"
        t = open(src).read().replace(f"#[cycle({old_cycle})]", f"#[cycle({cycle})]")
        open(src, "w").write(t)


if __name__ == "__main__":
    main(sys.argv[1:])
