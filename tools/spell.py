#!/usr/bin/env python3
"""Spells this repository's own definitions, lemmas and local names as today's Rattle does: words in snake case.

usage: tools/spell.py [ROOT]     once, right after /opt/rattle/port/port.py, at the top of the repository (or at ROOT)

- In specs/ and in the lemma files of proofs/ each name of our own in camel case or with dashes gets underscores; so do the clauses and ghost
  lines of src/, the edits of must-fail/, and names between backquotes in README.md and docs/.
- In a function's Proof.antt only names that specs/ or a lemma file declares are turned: the others are the prover's.
- Where a lemma would meet a definition, the lemma gets `_lem`. A name that a file takes from a library stays.
- Crate `log` is `disk_log`: the library has one named log.
"""
import os
import re
import subprocess
import sys

ROOT = os.path.abspath(sys.argv[1] if len(sys.argv) > 1 else ".")
CRATES = os.path.join(ROOT, "crates")
TOKEN = re.compile(r"[^\s(){}\[\];,.\"`]+")
USE = re.compile(r"(?:pub )?(?:ghost )?use ([^\s;{]+)\.\{([^}]*)\}", re.S)
WORD = re.compile(r"^[a-z][A-Za-z0-9_'₀-₉-]*$")
# compounds of English that comments have; as names they are turned only in code
ENGLISH = set("as-is read-only log-like well-formed in-place by-value left-over".split())


def files(*endings):
    for folder, dirs, names in os.walk(CRATES):
        dirs[:] = sorted(d for d in dirs if d != "out")
        for n in sorted(names):
            if n.endswith(endings):
                yield os.path.join(folder, n)


def read(p):
    with open(p, encoding="utf-8") as f:
        return f.read()


def write(p, text, was):
    if text != was:
        with open(p, "w", encoding="utf-8") as f:
            f.write(text)


def is_proof(p):
    return os.path.basename(p) == "Proof.antt"


def snake(x):
    # the library's getD is get_or; notALine is three words
    x = re.sub(r"^getD(?=-)|^get_or(?=-)", "get_or", x)
    x = re.sub(r"(?<=[a-z])A(?=[A-Z])", "_a", x)
    x = re.sub(r"(?<=[a-z0-9₀-₉])[A-Z]", lambda m: "_" + m[0].lower(), x.replace("-", "_"))
    return re.sub(r"[A-Z]", lambda m: m[0].lower(), x)


def is_old(x):
    return bool(WORD.match(x) and re.search(r"[A-Z-]", x))


def code(line):
    """A line's code and its comment."""
    if line.lstrip().startswith("--"):
        return "", line
    i = line.find(" -- ")
    return (line, "") if i < 0 else (line[:i], line[i:])


def rename_crate():
    old, new = os.path.join(CRATES, "log"), os.path.join(CRATES, "disk_log")
    if not os.path.isdir(old):
        return
    subprocess.run(["git", "-C", ROOT, "mv", "crates/log", "crates/disk_log"], check=True)
    for p in list(files(".rt", ".antt", ".edit")):
        t = read(p)
        s = re.sub(r"Rattle\.log\.", "Rattle.disk_log.", t)
        s = re.sub(r"(?<![\w:.])log::", "disk_log::", s)
        write(p, s, t)
    p = os.path.join(ROOT, "crates.txt")
    t = read(p)
    write(p, "\n".join(l if l.startswith("#") else re.sub(r"(?<![\w])log(?![\w])", "disk_log", l) for l in t.split("\n")), t)


def tables():
    mine = set(os.listdir(CRATES))
    foreign, seen, camel = set(), set(), set()
    for p in files(".antt", ".rt"):
        for m in USE.finditer(read(p)):
            steps = m[1].split(".")
            own = steps[0] == "Rattle" and steps[1] in mine and ".declared." not in m[1] and steps[-1] != "Tie"
            if not own:
                foreign |= {q for n in m[2].split(",") for q in n.strip().split(" as ")}
    declared = set()
    for p in files(".antt"):
        if is_proof(p):
            continue
        for line in read(p).split("\n"):
            body, _ = code(line)
            seen |= set(TOKEN.findall(body))
            m = re.match(r"\s*(?:(?:pub|abbrev|unfoldable|record|data) )*([^\s(){}]+) (?:[({].*)?:", body)
            if m:
                declared.add(m[1])
    old = {x for x in seen if is_old(x) and x not in foreign}
    to = {}
    taken = {}
    for x in sorted(old, key=lambda x: ("-" in x, x)):
        s = snake(x)
        if "-" in x and (s in taken or s in seen):
            s += "_lem"
        elif s in seen and s not in foreign:
            to[s] = s + "_lem"
        taken[s] = x
        to[x] = s
    return to, declared, foreign


def turn_code(text, to, only=None, fields=None):
    def one(m):
        x = m[0]
        if x not in to or only is not None and x not in only or text[: m.start()].endswith("Memᴰ."):
            return x
        if fields is not None and m.start() and text[m.start() - 1] == "." and x not in fields:
            return x
        return to[x]

    return TOKEN.sub(one, text)


def turn_comment(text, to, declared):
    return TOKEN.sub(lambda m: to[m[0]] if m[0] in to and is_old(m[0]) and m[0] in declared and m[0] not in ENGLISH else m[0], text)


def turn_antt(p, to, declared, fields):
    t = read(p)
    proof = is_proof(p)
    lines = []
    for line in t.split("\n"):
        body, said = code(line)
        body = turn_code(body, to, declared if proof else None, fields if proof else None)
        lines.append(body + turn_comment(said, to, declared))
    write(p, "\n".join(lines), t)


def turn_rt(p, to, declared):
    """Only names in camel case, which Rust's own never have, and the names of ghost lines."""
    t = read(p)
    lines = []
    ghost = False
    for line in t.split("\n"):
        said = ""
        body = line
        if line.lstrip().startswith("//"):
            body, said = "", line
        ghost = ghost or bool(re.match(r"\s*(pub )?ghost use", body))
        parts = re.split(r'("(?:[^"\\]|\\.)*")', body)
        for i in range(0, len(parts), 2):
            parts[i] = TOKEN.sub(lambda m: to[m[0]] if m[0] in to and is_old(m[0]) and ("-" not in m[0] or ghost) else m[0], parts[i])
        if ghost and ";" in body:
            ghost = False
        lines.append("".join(parts) + turn_comment(said, to, declared))
    write(p, "\n".join(lines), t)


def turn_edit(p, to, declared):
    t = read(p)
    lines = []
    antt = ".antt" in t
    for line in t.split("\n"):
        if re.match(r"(old|new): ", line):
            line = TOKEN.sub(lambda m: to[m[0]] if m[0] in to and (antt or is_old(m[0]) and "-" not in m[0]) else m[0], line)
        else:
            line = turn_comment(line, to, declared)
        lines.append(line)
    write(p, "\n".join(lines), t)


def turn_page(p, to, declared):
    t = read(p)
    quoted = lambda m: TOKEN.sub(lambda w: to[w[0]] if w[0] in to and is_old(w[0]) and w[0] in declared else w[0], m[0])
    write(p, re.sub(r"`[^`\n]*`", quoted, t), t)


def main():
    rename_crate()
    to, declared, foreign = tables()
    fields = set()
    for p in files(".antt"):
        if not is_proof(p):
            for m in re.finditer(r"(?m)^\s+pub ([^\s(){}]+) (?:\([^)]*\) )*:", read(p)):
                fields.add(m[1])
    for p in list(files(".antt")):
        turn_antt(p, to, declared, fields)
    for p in list(files(".rt")):
        turn_rt(p, to, declared)
    for p in list(files(".edit")):
        turn_edit(p, to, declared)
    pages = [os.path.join(ROOT, "README.md")] + [os.path.join(ROOT, "docs", n) for n in sorted(os.listdir(os.path.join(ROOT, "docs"))) if n.endswith(".md")]
    for p in pages:
        turn_page(p, to, declared)
    lem = sorted((x, s) for x, s in to.items() if s.endswith("_lem"))
    print(f"spell: {len(to)} names turned, {len(lem)} of them with _lem")
    for x, s in lem:
        print(f"  {x} -> {s}")


if __name__ == "__main__":
    main()
