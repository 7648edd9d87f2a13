#!/usr/bin/env python3
"""Turns each proofs/F/Proof.antt of a crate that answers the goals of an older kit into Invariants.antt and Answers.antt.

usage: python3 tools/turn_proofs.py CRATE NAMES

NAMES is the names.json that 'rt check --generated FOLDER --old-names' writes for the crate. Answers that only search are left out. What a person has to look at
is printed. A Proof.antt that it does not understand stays.
"""

import json
import os
import re
import sys

SPECIAL = {"args", "requires", "ranges", "well_formed", "lifetimes", "type_inv", "utf8", "slices"}
TOKEN = re.compile(r'(?<![^\s(){},;\[\]])([^\s(){}.,;\[\]]+)((?:\.[^\s(){}.,;\[\]]+)+|)(?=[\s(){},;\[\]]|\.\s|$)')


def norm(s):
    return s.replace("-", "_")


def items(text):
    """Top-level items: ('use', text), ('def', name, words, type, unfolding, clauses)."""
    lines = text.split("\n")
    head, uses, defs = [], [], []
    i = 0
    while i < len(lines) and (lines[i].startswith("--") or not lines[i].strip()):
        head.append(lines[i])
        i += 1
    chunks = []
    note = []
    while i < len(lines):
        l = lines[i]
        if not l.strip():
            i += 1
            continue
        if l.startswith("--"):
            note.append(l)
            i += 1
            continue
        j = i + 1
        while j < len(lines) and (lines[j].startswith((" ", "\t", ")")) or not lines[j].strip()):
            j += 1
        body = "\n".join(lines[i:j]).rstrip()
        chunks.append((note, body))
        note = []
        i = j
    cur = None
    for note, b in chunks:
        if b.startswith("use ") or b.startswith("pub use "):
            uses.append(b)
            continue
        m = re.match(r"((?:(?:abbrev|unfoldable|pub) )*)([^\s(){},;]+)(?: \{[^{}]*\})* :\s", b)
        if m and not b.startswith("unfolding "):
            cur = {"name": m.group(2), "words": m.group(1), "sig": b, "unfold": [], "clauses": [], "note": note}
            defs.append(cur)
        elif b.startswith("unfolding "):
            cur["unfold"].append(b)
        elif cur is not None:
            cur["clauses"].append(b)
        else:
            defs.append({"name": None, "sig": b, "words": "", "unfold": [], "clauses": [], "note": note})
    return head, uses, defs


def split_top(s):
    """The parts of s at its top-level commas."""
    out, depth, cur = [], 0, ""
    for ch in s:
        if ch in "({[":
            depth += 1
        elif ch in ")}]":
            depth -= 1
        if ch == "," and depth == 0:
            out.append(cur)
            cur = ""
        else:
            cur += ch
    if cur.strip():
        out.append(cur)
    return [x.strip() for x in out]


def recorded(rhs, names):
    """The tuple at the end of rhs as a record with these fields."""
    rest = rhs.rstrip()
    depth, i = 0, len(rest) - 1
    if not rest.endswith(")"):
        return None
    while i >= 0:
        if rest[i] in ")}]":
            depth += 1
        elif rest[i] in "({[":
            depth -= 1
            if depth == 0:
                break
        i -= 1
    before = rest[:i].rstrip()
    if before and not before.endswith(" in") and not before.endswith("."):
        return None
    parts = split_top(rest[i + 1 : -1])
    while len(parts) < len(names) and parts and parts[-1].startswith("(") and parts[-1].endswith(")"):
        more = split_top(parts[-1][1:-1])
        if len(more) < 2:
            break
        parts = parts[:-1] + more
    if len(parts) != len(names):
        return None
    return rest[:i] + "record { " + " ".join(f"{n} = {p};" for n, p in zip(names, parts)) + " }"


def lent(callee):
    """The names of the parameters of a function that it takes by &mut."""
    if not callee or "::" not in callee:
        return []
    crate, fn = callee.split("::")[0], callee.split("::")[-1]
    for d, _, fs in os.walk(f"crates/{crate}/src"):
        for f in fs:
            m = re.search(r"fn " + re.escape(fn) + r"(?:<[^>]*>)?\((.*?)\)\s*(?:->|\n|\{)", open(os.path.join(d, f), encoding="utf-8").read(), re.S)
            if m:
                return re.findall(r"(\w+): &(?:'\w+ )?mut ", m.group(1))
    return []


class Function:
    def __init__(self, d, clauses):
        self.arms = {}
        for arm in d["arms"]:
            if arm:
                name, _, fields = arm
                for field, step, path in fields:
                    if path and path[0] == "given":
                        self.arms[norm(step), tuple(path)] = (name, field)
        self.callee = {new: callee for _, _, (old, new), callee, _ in d["places"] if callee}
        self.steps = {}
        self.dup = set()
        for place, parent, (old, new), callee, _ in d["places"]:
            if old:
                k = norm(old)
                if k in self.steps and self.steps[k] != new:
                    self.dup.add(k)
                self.steps.setdefault(k, new)
        self.loops = []
        for (ol, nl), vs in d["loops"]:
            self.steps[norm(ol)] = nl
            self.loops.append((norm(ol), nl, vs))
        self.changed = d["changed"]
        self.needs = {norm(n): n for o, n in d["needs"]}
        for o, n in d["needs"]:
            if o[:3] in ("add", "sub", "mul", "cas", "shl", "shr") and n.startswith("overflow_"):
                self.needs.setdefault("overflow_" + norm(o), n)
            self.needs[norm(o)] = n
        self.settled = set(map(norm, d["settled"]))
        self.asked = d["asked"]
        self.own = clauses
        self.said = []

    def body(self, text, aliases):
        aliases = set(aliases)
        while True:
            m = re.search(r"\blet ([^\s=]+) = ([^\s(){},;]+) in\b\s*", text)
            found = False
            for m in re.finditer(r"(?:\blet )([^\s=:]+) =\s+([^\s(){},;]+) in(?=\s)\s*", text):
                p = m.group(2).split(".")
                if p[0] in aliases and all(x == "before" for x in p[1:]):
                    aliases.add(m.group(1))
                    text = text[: m.start()] + text[m.end() :]
                    found = True
                    break
            if not found:
                break

        def turn(m):
            head, rest = m.group(1), m.group(2)
            if head not in aliases or not rest and re.match(r" = ", m.string[m.end() :]):
                return m.group(0)
            comps = rest.split(".")[1:]
            while comps and comps[0] == "before":
                comps = comps[1:]
            if not comps:
                return "c"
            s = comps[0]
            for n in range(len(comps), 1, -1):
                arm = self.arms.get((norm(s), tuple(comps[1:n])))
                if arm:
                    return "c." + ".".join(list(arm) + comps[n:])
            if len(comps) > 1 and comps[1] == "given":
                self.said.append(f"arm {'.'.join(comps)}")
            if norm(s) in self.steps and s not in SPECIAL:
                if norm(s) in self.dup:
                    self.said.append(f"step {s} is not one")
                comps[0] = self.steps[norm(s)]
            elif norm(s) in SPECIAL:
                comps[0] = norm(s)
                if norm(s) == "requires" and len(comps) > 1 and comps[1].isdigit() and len(self.own) > 1:
                    comps[1] = self.own[int(comps[1])]
            else:
                self.said.append(f"no step {s}")
            comps = ["type_inv" if x == "type-inv" else x for x in comps]
            if len(comps) > 2 and comps[1] in ("new", "auto") and comps[2].isdigit():
                names = lent(self.callee.get(comps[0]))
                if int(comps[2]) < len(names):
                    comps[2] = names[int(comps[2])]
            if len(comps) > 2 and comps[1] == "ensures" and comps[2].isdigit() and comps[0] in self.callee:
                names = ensured(self.callee[comps[0]])
                if len(names) > 1 and int(comps[2]) < len(names):
                    comps[2] = names[int(comps[2])]
            return "c." + ".".join(comps)

        text = TOKEN.sub(turn, text)
        text = re.sub(r"\(not-(?:true|false) _ (c\.[^\s()]+)\)", lambda m: m.group(1).replace("if-not-", "if\0not-"), text)
        text, n = re.subn(r"(?<![^\s(){},;])(c\.if-not-[^\s(){},;.]+\.(?:true|false))(?![^\s(){},;])", r"(ap not \1)", text)
        if n:
            self.needs_not = True
        text = text.replace("\0", "-")
        text = text.replace(".type-inv", ".type_inv")
        for m in list(re.finditer(r"\blet ([^\s=:]+) = c\.([^\s(){},;.]+) in", text)):
            x, step = m.groups()
            if step == "requires" and len(self.own) > 1:
                text = re.sub(rf"(?<![^\s(){{}},;]){re.escape(x)}\.(\d)", lambda q: f"{x}.{self.own[int(q.group(1))]}" if int(q.group(1)) < len(self.own) else q.group(0), text)
            if step not in self.callee:
                continue
            names = lent(self.callee[step])
            text = re.sub(rf"(?<![^\s(){{}},;]){re.escape(x)}\.(new|auto)\.(\d)", lambda q: f"{x}.{q.group(1)}.{names[int(q.group(2))]}" if int(q.group(2)) < len(names) else q.group(0), text)
            names = ensured(self.callee[step])
            if len(names) > 1:
                text = re.sub(rf"(?<![^\s(){{}},;]){re.escape(x)}\.ensures\.(\d)", lambda q: f"{x}.ensures.{names[int(q.group(1))]}" if int(q.group(1)) < len(names) else q.group(0), text)
        for m in list(re.finditer(r"\blet ([^\s=:]+) = c\.([^\s(){},;.]+)\.ensures in", text)):
            x, step = m.groups()
            names = ensured(self.callee.get(step))
            if len(names) > 1:
                text = re.sub(rf"(?<![^\s(){{}},;]){re.escape(x)}\.(\d)", lambda q: f"{x}.{names[int(q.group(1))]}" if int(q.group(1)) < len(names) else q.group(0), text)
        return text


def own_clauses(src, fn, kind="requires"):
    """The names of the clauses of fn, in order."""
    m = re.search(r"fn " + re.escape(fn) + r"\b(?:(?!\n\{|\n    \{|\nfn |\npub ).)*", src, re.S)
    return re.findall(kind + r" (\w+) \{", m.group(0)) if m else []


def ensured(callee):
    if not callee or "::" not in callee:
        return []
    crate, fn = callee.split("::")[0], callee.split("::")[-1]
    for d, _, fs in os.walk(f"crates/{crate}/src"):
        for f in fs:
            t = open(os.path.join(d, f), encoding="utf-8").read()
            if re.search(r"fn " + re.escape(fn) + r"\b", t):
                return own_clauses(t, fn, "ensures")
    return []


def need_name(d, need):
    """The key of 'asked' for a goal's old name."""
    new = {norm(o): norm(n) for o, n in d["needs"]}
    return next((k for k in d["asked"] if norm(k) in (need, new.get(need))), None)


def main():
    crate, names = sys.argv[1:3]
    data = json.load(open(names))
    src = ""
    for d, _, fs in os.walk(f"{crate}/src"):
        for f in fs:
            src += open(os.path.join(d, f), encoding="utf-8").read()
    cname = os.path.basename(os.path.abspath(crate))
    for key, d in data.items():
        m = re.match(r"Rattle-\w+-proofs\.(.*)\.Lts$", key)
        if not m:
            print(f"{key}: not turned")
            continue
        path = m.group(1)
        folder = f"{crate}/proofs/" + path.replace(".", "/")
        proof = folder + "/Proof.antt"
        if not os.path.exists(proof):
            continue
        text = open(proof, encoding="utf-8").read()
        head, uses, defs = items(text)
        f = Function(d, own_clauses(src, path.split(".")[-1]))
        inv, ans, helpers = [], [], []
        for x in defs:
            sig = x["sig"]
            t = sig.split(" :", 1)[1].strip() if x["name"] else ""
            if x["name"] is None:
                f.said.append("not understood: " + sig[:60])
                continue
            if re.match(r"\{M : Type 1\} → statement M", t):
                continue
            m = re.match(r"tie\.(invariant|decreases)-(\S+)$", t)
            if m:
                loop = next(((o, n, v, c) for (o, n, v), c in zip(f.loops, f.changed) if o == norm(m.group(2))), None)
                if loop is None:
                    f.said.append("no loop " + t)
                    continue
                o, n, vs, changed = loop
                clause = x["clauses"][0]
                lhs, rhs = clause.split("=", 1)
                params = lhs.split()[1:]
                want = [("initial." if c else "") + v for v, c in zip(vs, changed)] + [v for v, c in zip(vs, changed) if c]
                if len(params) != len(want):
                    f.said.append(f"{x['name']}: {len(params)} parameters, {len(want)} variables: {params} {want}")
                sub = {p: "l." + w for p, w in zip(params, want) if p != "_"}

                def turn(mm):
                    h = mm.group(1)
                    return (sub[h] + mm.group(2)) if h in sub else mm.group(0)

                rhs = TOKEN.sub(turn, rhs)
                new = f"{m.group(1)}-{n}"
                u = "".join(z + "\n" for z in x["unfold"])
                inv.append("".join(z + "\n" for z in x["note"]) + f"abbrev pub {new} : goal.{new}\n{u}{new} l ={rhs}")
                f.inv = True
                continue
            m = re.match(r"tie\.Need-(\S+)", t)
            if m:
                need = norm(m.group(1))
                if need not in f.needs:
                    if not (need in f.settled):
                        b = " ".join(x["clauses"])
                        if "search rules" not in b and not re.search(r"omega arith$", b):
                            f.said.append(f"no goal for {m.group(1)}: {b[:150]}")
                    continue
                new = f.needs[need]
                if len(x["clauses"]) != 1:
                    f.said.append(f"{x['name']}: clauses")
                clause = x["clauses"][0]
                lhs, rhs = clause.split("=", 1)
                params = lhs.split()[1:]
                if rhs.strip() == "search rules" and not x["unfold"]:
                    continue
                if new.startswith("shape_of"):
                    continue
                if not params:
                    params = ["c"]
                    f.said.append(f"{x['name']}: no parameter")
                if params[0] != "c":
                    f.said.append(f"{x['name']}: parameter {params}")
                extra = [p for p in params[1:] if p != "κs"]
                rhs = f.body(rhs, {params[0]})
                names = own_clauses(src, path.split(".")[-1], "ensures") if new.startswith("returns") else f.asked.get(need_name(d, need), [])
                if len(names) > 1:
                    r = recorded(rhs, names)
                    if r is None:
                        f.said.append(f"{new}: clauses {names}, no tuple")
                    else:
                        rhs = " " + r.lstrip(" ") if not r.startswith("\n") else r
                u = "".join(z + "\n" for z in x["unfold"])
                ans.append("".join(z + "\n" for z in x["note"]) + f"pub {new} : goal.{new}\n{u}{new} {' '.join(['c'] + extra)} ={rhs}")
                continue
            if "tie." in sig or "lts." in sig:
                f.said.append("helper with a tie: " + x["name"])
            helpers.append("\n".join(x["note"] + [sig] + x["unfold"] + x["clauses"]))
        uses = [u for u in uses if not re.search(r"\.(Tie|Statement|Reads|Kinds)\b|borrow\.Author\.Rules", u)]
        module = f"Rattle.{cname}.proofs.{path}"
        everything = "\n".join(ans + helpers)
        if "(ap not " in everything:
            for name, where in (("ap", "mathlib.Core.Path"), ("not", "mathlib.Core.Bool")):
                if not re.search(r"\{(?:[^}]*, )?" + name + r"[,}]", "\n".join(uses)):
                    uses.append(f"use {where}.{{{name}}}")
        if "rules" in everything:
            uses.append("use borrow.Author.Rules.{rules}")

        def kept(texts):
            body = "\n".join(texts)
            out = []
            for u in uses:
                m = re.match(r"(use [^{]*)\{(.*)\}\s*$", u, re.S)
                if not m:
                    out.append(u)
                    continue
                its = [x.strip() for x in m.group(2).split(",") if x.strip()]
                keep = []
                for it in its:
                    w = it.split(" as ")[-1]
                    core = w.strip("◌") if "◌" in w else w
                    parts = [q for q in w.split("◌") if q]
                    if all(re.search(r"(?<![^\s(){},;.\[\]])" + re.escape(q) + r"(?![^\s(){},;.\[\]])", body) for q in parts) or any(len(q) == 1 and q in body for q in parts):
                        keep.append(it)
                if keep:
                    out.append(m.group(1) + "{" + ", ".join(keep) + "}")
            return out

        files = {}
        if inv:
            files["Invariants.antt"] = "\n".join(head).strip() + "\n" + "\n".join(kept(inv + helpers) + [f"use {module}.Given as goal"]) + "\n\n" + "\n\n".join(inv) + "\n"
        if ans:
            files["Answers.antt"] = "\n".join(head).strip() + "\n" + "\n".join(kept(ans + helpers) + [f"use {module}.Goals as goal"]) + "\n\n" + "\n\n".join(helpers + ans) + "\n"
        elif helpers:
            f.said.append("helpers without answers")
        for n, t in files.items():
            with open(f"{folder}/{n}", "w", encoding="utf-8") as g:
                g.write(t)
        os.remove(proof)
        if not os.listdir(folder):
            os.rmdir(folder)
        for s in f.said:
            print(f"{path}: {s}")


main()
