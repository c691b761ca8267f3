#!/usr/bin/env python3
"""Counts the places of docs/DESIGN-PASS.md in a checkout: python3 tools/design_counts.py [-v] [ROOT]. With -v it prints each place."""
import glob
import os
import re
import sys

verbose = "-v" in sys.argv
root = ([a for a in sys.argv[1:] if a != "-v"] or ["."])[0]
files = sorted(glob.glob(os.path.join(root, "crates/*/src/**/*.rt"), recursive=True))
found = {}


def note(point, where, what):
    found.setdefault(point, []).append((where, what))


def functions(text):
    """Each function: line number, name, head up to its body, body."""
    for m in re.finditer(r"^( *)(?:pub(?:\(crate\))? )?(?:const )?fn (\w+)", text, re.M):
        end = re.search(r"^%s\}$" % m.group(1), text[m.end():], re.M)
        if not end:
            continue
        whole = text[m.start():m.end() + end.end()]
        parts = re.split(r"^%s\{\n" % m.group(1), whole, maxsplit=1, flags=re.M)
        if len(parts) == 1:
            parts = whole.split("{\n", 1)
        yield text.count("\n", 0, m.start()) + 1, m.group(2), parts[0], parts[-1]


def structs(text, kind):
    for m in re.finditer(r"^(?:pub )?%s (\w+)[^{;]*\{\n(.*?)^\}" % kind, text, re.M | re.S):
        yield text.count("\n", 0, m.start()) + 1, m.group(1), m.group(2)


bodies = {}
runs = {}
for path in files:
    short = path[len(os.path.join(root, "crates/")):] if path.startswith(os.path.join(root, "crates/")) else path
    text = open(path).read()
    # 1. enums of Option's or Result's shape; a flag among other fields; answers that are refusals' numbers; sentinels
    for line, name, body in structs(text, "enum"):
        variants = re.findall(r"^    (\w+)(.*)$", body, re.M)
        if len(variants) == 2 and sum(1 for _, rest in variants if rest.strip(",") == "") == 1:
            note("1a enum of Option's shape", f"{short}:{line}", name)
    for line, name, body in structs(text, "struct"):
        flags = re.findall(r"(\w+): bool", body)
        if flags and body.count(":") > len(flags):
            note("1b flag with values", f"{short}:{line}", f"{name}.{', '.join(flags)}")
        if re.search(r"\brefusal: u64|^    pub number: u64,\n    pub first: u64,\n    pub second: u64", body, re.M):
            note("1c refusal's number in a struct", f"{short}:{line}", name)
        arrays = re.findall(r"(\w+): \[[^;\]]+; (\w+)\]", body)
        sizes = [n for _, n in arrays]
        if any(sizes.count(n) > 1 for n in sizes):
            note("6a parallel arrays", f"{short}:{line}", name)
        if arrays and re.search(r"\b(count|length|used): ", body):
            note("6b array with a length beside", f"{short}:{line}", name)
    for line, name, head, body in functions(text):
        if re.search(r"(refusal|fault)", name) and re.search(r"-> u(64|8)\b", head):
            note("1c refusal's number answered", f"{short}:{line}", name)
        for number in re.findall(r"\brefus(?:ed|e|ed_at|e_at)\((?:\w+, )?(\d+)", body):
            note("1d refusal by a literal number", f"{short}:{line}", f"{name}: {number}")
        # 3. loops that count by hand
        lines = body.split("\n")
        for i, text_line in enumerate(lines):
            m = re.match(r"( *)(?:'\w+: )?while (.*) \{$", text_line)
            if not m:
                continue
            inner = []
            for later in lines[i + 1:]:
                if later.startswith(m.group(1) + "}"):
                    break
                inner.append(later.strip())
            if any(re.fullmatch(r"(\w+) [+-]= 1;", x) and re.match(r"(\w+)", x).group(1) in m.group(2) for x in inner):
                note("3 loop that counts", f"{short}:{line}", f"{name}: while {m.group(2)}")
            else:
                note("3x other while", f"{short}:{line}", f"{name}: while {m.group(2)}")
        # 4. a bool or a number for each variant by hand; comparing element by element
        arms = re.findall(r"=> (true|false)\b", body)
        if len(arms) >= 2:
            note("4 variants told by hand", f"{short}:{line}", name)
        if re.search(r"is_same|same_bytes", name):
            note("4 equality by hand", f"{short}:{line}", name)
        if re.search(r"if (\w+) < (\w+) \{\s*(return )?\1;?\s*\}\s*(else \{ )?\2|if (\w+) < (\w+) \{ (\6|\5) \} else \{ (\5|\6) \}", body):
            note("4 minimum by hand", f"{short}:{line}", name)
        # 2. bodies that are alike but for names of types, numbers and called functions
        plain = re.sub(r"\b\d\w*\b", "N", re.sub(r"\bu(8|16|32|64|size)\b", "T", body))
        plain = re.sub(r"\s+", " ", plain)
        if len(plain) > 120:
            bodies.setdefault(plain, []).append((f"{short}:{line}", name))
        # 5. parameters that travel together
        names = re.findall(r"(?:^|[(,\n ])(\w+): ", re.sub(r"requires.*|ensures.*", "", head, flags=re.S))
        for a, b, c in zip(names, names[1:], names[2:]):
            runs.setdefault((a, b, c), []).append(f"{short}:{line} {name}")
        if re.search(r"match (kind|what|call\.kind|command)\b", body):
            note("7 switch on a kind", f"{short}:{line}", name)
for same in bodies.values():
    if len(same) > 1:
        note("2 bodies alike", same[0][0], " = ".join(f"{n} ({w})" for w, n in same))
for run, where in runs.items():
    if len(where) >= 3:
        note("5 parameters in a row in 3 or more functions", f"{len(where)} functions", ", ".join(run))
proofs = 0
for path in glob.glob(os.path.join(root, "crates/*/proofs/**/*.antt"), recursive=True):
    proofs += sum(1 for _ in open(path))
for point in sorted(found):
    print(f"{len(found[point]):4} {point}")
    if verbose:
        for where, what in found[point]:
            print(f"       {where}  {what}")
print(f"{proofs:6} lines under proofs/")
