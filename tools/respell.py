#!/usr/bin/env python3
"""Brings the names of this repository's definitions and lemmas to today's spelling, after port.py. Run once, at the top.

usage: python3 tools/respell.py [--check]

A name that a file of specs/ declares, a field and a constructor get underscores for dashes; a type's words are joined in camel case.
In a lemma's name a dash stays between two names of definitions, fields or constructors (el-add, vector-neg) and is an underscore beside a plain word
(adding_by_pairs). Names of goals, of steps and of a function's answers stay, and so does a name that a file imports from the kit. --check writes nothing
and lists the names, and those that would fall together.
"""

import collections
import os
import re
import sys

NAME = r'[^\s(){}.;,@"«»`]+'
DECLARED = re.compile(rf"^(\s*)((?:(?:abbrev|unfoldable|pub|data|record|ruleset) +)*)({NAME})((?: \(| \{{| :| ).*)?$")
FACTS = {"of-kind": "OfKind", "of-short": "OfShort", "filling-zero": "ZeroFilling"}
KIT = ("std", "std_alloc", "core", "io", "libc", "os", "std_io", "std_heap", "std_collections")


def texts():
    for folder, dirs, files in os.walk("crates"):
        dirs[:] = sorted(d for d in dirs if d != "out")
        for f in sorted(files):
            if f.endswith((".antt", ".rt", ".edit")):
                yield os.path.join(folder, f)


def own_module(path):
    first = path.split(".")[0]
    if first != "Rattle":
        return False
    return path.split(".")[1] not in KIT


def imported(text):
    """The names that a file takes from the kit."""
    out = set()
    for m in re.finditer(r"\buse ([^\s;{]+)\{([^}]*)\}", text):
        if not own_module(m.group(1)):
            for item in m.group(2).split(","):
                out.add(item.split(" as ")[0].strip())
                out.add(item.split(" as ")[-1].strip())
    return out


def declarations(path, text):
    """(name, kind) for what the file declares: 'def', 'type', 'field', 'lemma', 'answer'."""
    in_function = bool(re.search(r"/proofs/\+?[a-z]", path))
    record = None
    for line in text.split("\n"):
        if line.lstrip().startswith("--"):
            continue
        m = DECLARED.match(line)
        if not m:
            if line.strip() and record is not None and len(line) - len(line.lstrip()) <= record:
                record = None
            continue
        indent, words, name, rest = len(m.group(1)), m.group(2).split(), m.group(3), m.group(4) or ""
        if record is not None and indent <= record:
            record = None
        if "record" in words or "data" in words:
            record = indent
            yield name, "type"
            continue
        if not re.match(r"^(?: \{[^{}]*\})* :(\s|$)", rest):
            continue
        if record is not None:
            yield name, "field"
        elif in_function and re.match(r"^(?: \{[^{}]*\})* : (\(\w+ : ℕ\) → )*(tie|goal|[\w'-]+lts|lts)\.", rest):
            yield name, "answer"
        elif re.search(r"(→ |: )Type [01]$", rest) and name[0].isupper():
            yield name, "type"
        elif "/specs/" in path:
            yield name, "def"
        else:
            yield name, "lemma"


def camel(name):
    return "".join(w[:1].upper() + w[1:] for w in name.split("-"))


def spelled(name, names):
    """A lemma's name: dashes stay between two names."""
    words = name.split("-")
    if "" in words:
        return name
    parts, i = [], 0
    while i < len(words):
        for j in range(len(words), i, -1):
            joined = "_".join(words[i:j])
            if joined in names or camel("-".join(words[i:j])) in names and j > i + 1:
                parts.append((joined, True))
                break
        else:
            parts.append((words[i], False))
            j = i + 1
        i = j
    out = parts[0][0]
    for (_, a), (w, b) in zip(parts, parts[1:]):
        out += ("-" if a and b else "_") + w
    return out


def main():
    files = {p: open(p, encoding="utf-8").read() for p in texts()}
    kinds = collections.defaultdict(set)
    where = collections.defaultdict(set)
    for p, t in files.items():
        if p.endswith(".antt"):
            for name, kind in declarations(p, t):
                kinds[name].add(kind)
                where[name].add(p)
    names = set()
    for n, k in kinds.items():
        if k & {"def", "field", "type"}:
            names.add(n.replace("-", "_"))
    new = {}
    for n, k in kinds.items():
        if "-" not in n or "◌" in n or "→" in n:
            continue
        if k == {"answer"}:
            continue
        if n in FACTS:
            new[n] = FACTS[n]
        elif "type" in k:
            new[n] = camel(n)
        elif k & {"def", "field"}:
            new[n] = n.replace("-", "_")
        else:
            s = spelled(n, names)
            if s != n:
                new[n] = s
    # what falls together, or meets a name that a file has already
    back = collections.defaultdict(set)
    for n, s in new.items():
        back[s].add(n)
    troubles = [(s, sorted(v)) for s, v in back.items() if len(v) > 1 or s in kinds]
    fields = {n for n in new if "field" in kinds[n]}
    word = re.compile(r'(?<![^\s(){}.;,@"«»`])' + NAME)
    changed, met, mixed = {}, [], []
    for p, t in files.items():
        if p.endswith(".edit"):
            crate = p.split("/must-fail/")[0]
        kit = imported(t)
        present = set(word.findall(t))
        for n in new:
            if n in present and new[n] in present:
                met.append((p, n, new[n]))
            if n in present and n in kit:
                mixed.append((p, n))

        def turn(m):
            n = m.group(0)
            tail = ""
            s = new.get(n)
            if s is None:
                return n
            before = t[m.start() - 1] if m.start() else " "
            if before == ".":
                module = re.search(r"Rattle[\w.+]*\.$", t[: m.start()])
                return s if n in fields or module else n
            if n in kit and n not in FACTS:
                return n
            return s

        u = word.sub(turn, t)
        if u != t:
            changed[p] = u
    if "--check" in sys.argv:
        for n in sorted(new):
            print("name", n, new[n], ",".join(sorted(kinds[n])))
        for x in sorted(troubles):
            print("together", x)
        for x in met:
            print("met", *x)
        for x in sorted(set(mixed)):
            print("mixed", *x)
        print(len(new), "names", len(changed), "files")
        return
    for p, u in changed.items():
        with open(p, "w", encoding="utf-8") as f:
            f.write(u)
    # Rattle makes a module specs.contracts, so a file of specs/ has another name
    for p in texts():
        with open(p, encoding="utf-8") as f:
            t = f.read()
        u = t.replace("specs.Contracts.", "specs.Contract.").replace("pub mod Contracts\n", "pub mod Contract\n")
        u = u.replace("file: specs/Contracts.antt", "file: specs/Contract.antt")
        if u != t:
            with open(p, "w", encoding="utf-8") as f:
                f.write(u)
        if p.endswith("specs/Contracts.antt"):
            os.rename(p, p.replace("Contracts.antt", "Contract.antt"))


main()
