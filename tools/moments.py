#!/usr/bin/env python3
"""Writes the moments of a lent place in contracts as today's clauses do: `old x` is x.old of a &mut and x.now of a &, `new x` is x.new, and
`old_world a p b l w` is world_of of these five.

usage: tools/moments.py      after tools/spell.py, at the top of the repository; a second run changes nothing
"""
import os
import re

USE = re.compile(r"^(ghost use Rattle\.model\.specs\.Moments\.)\{([^}]*)\};\n", re.M)


def turn(head):
    """The contract of one function, from its name to its body."""
    mutable = set(re.findall(r"(\w+): &(?:'\w+ )?mut ", head))

    def moment(kind, x):
        return f"{x}.new" if kind == "new" else f"{x}.old" if x in mutable else f"{x}.now"

    cut = re.search(r"\n\s*(?:requires|ensures)", head)
    if not cut:
        return head
    front, clauses = head[: cut.start()], head[cut.start() :]
    clauses = re.sub(r"\bold_world (\w+) (\w+) (\w+) (\w+) (\w+)", lambda m: "world_of " + " ".join(moment("old", x) for x in m.groups()), clauses)
    clauses = re.sub(r"\((old|new) (\w+)\)", lambda m: moment(m[1], m[2]), clauses)
    clauses = re.sub(r"(?<![\w.])(old|new) (\w+)", lambda m: moment(m[1], m[2]), clauses)
    return front + clauses


for folder, dirs, names in os.walk("crates"):
    dirs[:] = [d for d in dirs if d != "out"]
    for n in names:
        p = os.path.join(folder, n)
        if n.endswith(".rt"):
            with open(p, encoding="utf-8") as f:
                t = f.read()
            m = USE.search(t)
            if not m:
                continue
            s = USE.sub("", t)
            s = re.sub(r"\bfn \w+.*?\n\{", lambda m: turn(m[0]), s, flags=re.S)
            if "world_of " in s and not re.search(r"World\.\{[^}]*\bworld_of\b", s):
                if re.search(r"ghost use Rattle\.model\.specs\.World\.\{", s):
                    s = re.sub(r"(ghost use Rattle\.model\.specs\.World\.\{)", r"\1world_of, ", s)
                else:
                    s = re.sub(r"(?m)^(ghost use Rattle\.model\.specs\.)", r"ghost use Rattle.model.specs.World.{world_of};\n\1", s, count=1)
            with open(p, "w", encoding="utf-8") as f:
                f.write(s)
        elif n.endswith(".edit"):
            with open(p, encoding="utf-8") as f:
                t = f.read()
            if re.search(r"\b(old|new|old_world) (work|anchor|pages|logs|backups|budget|value|out)\b", t):
                print("look:", p)
