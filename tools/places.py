#!/usr/bin/env python3
"""Counts the places in crates/*/src that docs/DESIGN-PASS.md speaks of, at a commit or in the files as they stand.

usage: places.py [-v] [COMMIT]     -v prints each place

1   answers as own enums, a flag beside a value, numbers for kinds and refusals
2   functions whose bodies have the same shape: the same words but for names and numbers
3   loops that count an index by hand
4   equality, order, copying and conversion written by hand
5   facts in the contracts of three or more functions of one crate or above it, and parameters that travel together
6   slices with a length or a place beside them, parallel arrays
7   switches on which step to run

The table of inverses (crates/inverses) is no code and is left out of 1 and 3 to 7; of the crates that only export for C (c34_c, prime_c) nothing is counted."""
import re
import subprocess
import sys

LEFT_OUT = ("c34_c", "prime_c")
# Numbers of causes that functions of these crates return.
CAUSES = ("form", "reader", "short_reader"), r"^\s*return [1-7];$"
WORDS = "if else while for in match return let mut as fn true false break continue loop pub struct enum impl const use mod".split()


def files(commit):
    if commit:
        names = subprocess.run(["git", "ls-tree", "-r", "--name-only", commit, "crates"], capture_output=True, text=True, check=True).stdout.split()
    else:
        names = subprocess.run(["git", "ls-files", "-co", "--exclude-standard", "crates"], capture_output=True, text=True, check=True).stdout.split()
    for name in sorted(set(names)):
        found = re.fullmatch(r"crates/(\w+)/src/.*\.rt", name)
        if not found or found[1] in LEFT_OUT:
            continue
        try:
            text = subprocess.run(["git", "show", f"{commit}:{name}"], capture_output=True, text=True, check=True).stdout if commit else open(name, encoding="utf-8").read()
        except FileNotFoundError:
            continue
        yield found[1], name, text


def code(text):
    return [re.sub(r"//.*", "", it) for it in text.split("\n")]


PATTERNS = {
    "1 answers as own enums": r"^\s*(pub )?enum \w+Answer\b|\b(Curve|Divisor|Two|Next|Tally|Walk|Pass)Answer::\w+|-> (\w+::)?(Curve|Divisor|Two|Next|Tally|Walk|Pass)Answer\b|\b(found|p): (Divisor|Pass)Answer\b",
    "1 refusals as numbers": r"Refused\(\d|Refused\(u8\)|refusal\(\d|\bn: u8\b|fn (curve_form|divisor_form|short_form|equation_cause)\(.*-> u8|(form|cause|divisor_form\(divisor\)) != 0",
    "1 flags beside a value": r"\bserved\b|^\s*return p;$|== p \{|< g\.p \{",
    "1 kinds as numbers": r"\bkind: (u32|\d)|\bkind (==|!=|<|/|<=) ?|of_four\(\d|\bof_kind\(|fn (is_kind|count_of)\b|(is_kind|count_of)\(",
    "3 loops by an index": r"^\s*while ",
    "4 written by hand": r"fn (same_numbers|same_bytes|three_below|lesser|least|wide|byte|read_u16|read_u32|write_u16|write_u32|one_if|of_kind|pick|size_of|in_field|copy_back|copy_in|put_bytes|curve_end|whole|equation_from|high)\b|\[[a-z]+\.n0, |\[e\.p, ",
    "5 the modulus and its divider": r"\bp: u32, by: Divider|^\s*by: Divider,$|requires divides",
    "5 a triple in two parameters": r"\bt\d?: (&mut |&)\[\[u32; 26\]; 3\]",
    "5 facts about a ground": r"requires( \w+)? \{ (Curved|Grounded) g \}",
    "6 a buffer and a place or a length": r"\b(out|s|w|ns|t|list|text|buf|to|around|input|read): (&mut |&)\[u(8|32)\], (at|n|count|start|end|from|to|size)\b|\bns: &\[u32\], count: usize|\[X_POLE|\[Y_POWER|(Y_POWER|X_POLE): ",
    "7 switches on a step": r"enum Wanted|Wanted::",
}


def functions(text):
    for found in re.finditer(r"^( *)(?:pub )?(?:extern \"C\" )?fn (\w+)", text, re.M):
        at = re.compile(r"(?:\n *| )\{\n").search(text, found.end())
        end = text.find(f"\n{found[1]}}}\n", found.end())
        if at and at.start() < end:
            yield found[2], text[at.end() : end]


def shape(body):
    out = []
    for word in re.findall(r"\"[^\"]*\"|\w+|[^\s\w]", "\n".join(code(body))):
        if re.fullmatch(r"[\d_]+\w*", word):
            out.append("0")
        elif re.fullmatch(r"\w+", word) and word not in WORDS:
            out.append("a")
        else:
            out.append(word)
    return " ".join(out)


def main(words):
    verbose = "-v" in words
    commit = next((it for it in words if it != "-v"), None)
    all_files = [*files(commit)]
    for name, pattern in PATTERNS.items():
        places = []
        for crate, file, text in all_files:
            if crate == "inverses":
                continue
            for at, line in enumerate(code(text), 1):
                is_cause = name == "1 refusals as numbers" and crate in CAUSES[0] and re.search(CAUSES[1], line)
                if is_cause or re.search(pattern, line):
                    places.append(f"{file}:{at}: {line.strip()}")
        print(f"{name}: {len(places)}")
        if verbose:
            print(*("    " + it for it in places), sep="\n")
    shapes = {}
    for crate, file, text in all_files:
        for name, body in functions(text):
            made = shape(body)
            if len(made.split()) >= 14:
                shapes.setdefault(made, []).append(f"{crate}::{name}")
    twins = [it for it in shapes.values() if len(it) > 1]
    print(f"2 functions of the same shape: {sum(map(len, twins))} in {len(twins)} groups")
    if verbose:
        print(*("    " + ", ".join(it) for it in twins), sep="\n")


if __name__ == "__main__":
    main(sys.argv[1:])
