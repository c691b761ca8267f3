#!/usr/bin/env python3
"""Turns a crate's old Proof.antt files, which close a function's needs by hand, into Invariants.antt and Answers.antt.

usage: tools/answers.py CRATE NAMES [FUNCTION..]      in the repository's root (all functions, or those named as module/function); NAMES is what `rt check --generated DIR --old-names` wrote as DIR/names.json

Needs and goals stand in the same order, so each answer goes to the goal at its place. `c.before..F.x` becomes `c.STEP.x`, where STEP is the
step that stands so many places back. An answer that is only `search rules` or `omega arith` goes: the check tries those itself.
What it cannot turn it says, on a line that begins with the function; such a Proof.antt stays. The others move to target/old-proofs.
"""
import json
import os
import re
import sys

CRATE, NAMES = sys.argv[1], sys.argv[2]
ONLY = set(sys.argv[3:])
HERE = os.path.join("crates", CRATE)
OPEN, CLOSE = "([{", ")]}"
TRIVIAL = re.compile(r"\(?λ c( κs)?\. (search rules|omega arith)\)?$")


def read(p):
    with open(p, encoding="utf-8") as f:
        return f.read()


def below():
    """This crate, and the crates that it uses."""
    deps = {}
    for l in read("crates.txt").split("\n"):
        if ":" in l and not l.startswith("#"):
            name, rest = l.split(":", 1)
            deps[name.split()[0]] = rest.split()
    return [CRATE] + [d for d in deps.get(CRATE, []) if d in deps]


def sources(only=None):
    for crate in [only] if only else reversed(below()):
        for folder, dirs, names in os.walk(os.path.join("crates", crate, "src")):
            for n in sorted(names):
                if n.endswith(".rt"):
                    yield re.sub(r"(?m)^\s*//.*$", "", read(os.path.join(folder, n)))


def clauses_in(head, kind):
    return re.findall(rf"(?m)^\s*{kind}\*?(?: (\w+))? \{{", head)


def clause_names(kind, only=None):
    """The names of each function's clauses of a kind, where it has two or more; this crate's before those that it uses."""
    out = {}
    for t in sources(only):
        for m in re.finditer(r"\bfn (\w+)(.*?)(?=\n\}|\bfn )", t, re.S):
            found = clauses_in(m[2], kind)
            out[m[1]] = found if len(found) > 1 else None
    return out


def signatures():
    """The &mut parameters of each function, in order."""
    out = {}
    for t in sources():
        for m in re.finditer(r"\bfn (\w+)(?:<[^(]*>)?\(([^{]*?)\)(?: ->|\s*\n| \{)", t, re.S):
            out[m[1]] = re.findall(r"(\w+): &(?:'\w+ )?mut ", m[2])
    return out


MUTABLE = signatures()
ENSURES = clause_names("ensures")
REQUIRES = clause_names("requires")
BY_CRATE = {(kind, c): clause_names(kind, c) for kind in ("ensures", "requires") for c in below()}


def step_of(name):
    """The function that a step calls."""
    name = name.split("-")[0]
    return name if name in MUTABLE else re.sub(r"\d+$", "", name)


def by_parameter(step, rest):
    """.new.0 of a step, by the parameter's name."""
    names = MUTABLE.get(step_of(step))
    if rest[:1] == ["new"] and len(rest) > 1 and rest[1].isdigit() and names and int(rest[1]) < len(names):
        return ["new", names[int(rest[1])]] + rest[2:]
    return rest


def depth_of(text):
    return sum(ch in OPEN for ch in text) - sum(ch in CLOSE for ch in text)


def split_commas(text):
    parts, depth, word = [], 0, ""
    for ch in text:
        if ch in OPEN:
            depth += 1
        if ch in CLOSE:
            depth -= 1
        if ch == "," and depth == 0:
            parts.append(word.strip())
            word = ""
        else:
            word += ch
    return parts + ([word.strip()] if word.strip() else [])


def as_record(body, names):
    """A body that ends in a tuple, as a record with a field for each clause."""
    s = body.rstrip()
    if s.endswith(")"):
        depth, i = 0, len(s)
        while i > 0:
            i -= 1
            if s[i] in CLOSE:
                depth += 1
            if s[i] in OPEN:
                depth -= 1
                if depth == 0:
                    break
        before = s[:i].rstrip()
        if before == "" or before.endswith((" in", "=", "\nin")):
            parts = split_commas(s[i + 1 : -1])
            while 1 < len(parts) < len(names) and re.match(r"\(.*\)$", parts[-1], re.S) and len(split_commas(parts[-1][1:-1])) > 1:
                parts[-1:] = split_commas(parts[-1][1:-1])
            if len(parts) == len(names):
                rows = "".join(f"      {n} = {x};\n" for n, x in zip(names, parts))
                return f"{s[:i].rstrip()}\n    record {{\n{rows}    }}"
            if len(parts) == 1:
                return as_record(s[:i] + s[i + 1 : -1].strip(), names)
    return None


def args_of(text):
    """Splits the arguments of tie.spec."""
    out, depth, word = [], 0, ""
    for ch in text:
        if ch in OPEN:
            depth += 1
        if ch in CLOSE:
            depth -= 1
        if ch.isspace() and depth == 0:
            if word:
                out.append(word)
            word = ""
        else:
            word += ch
    if word:
        out.append(word)
    return out


def chunks(text):
    """Top-level declarations: (name, type, unfolding lines, body lines, comment)."""
    groups, cur = [], []
    for l in text.split("\n"):
        if l.strip() == "":
            if cur:
                groups.append(cur)
            cur = []
        else:
            cur.append(l)
    if cur:
        groups.append(cur)
    return groups


def norm(x):
    return re.sub(r"[-_]", "", x).lower()


def projected(path, n):
    """Which of n nested pairs' parts the projections begin with, and how many of them are read: .1.0 is the second."""
    i = 0
    while i < n - 1 and len(path) > i and path[i] == "1":
        i += 1
    if i == n - 1:
        return i, i
    if len(path) > i and path[i] == "0":
        return i, i + 1
    return None, 0


def aligned(needs, by_name, goals):
    """The needs that have a goal today, a need for each goal: the need of a call that only its lifetimes had is none any more."""

    def fits(a, goal):
        if a not in by_name:
            return True
        m = re.match(r"tie\.Need-(\S+)", by_name[a]["type"])
        own = norm(re.sub(r"^(overflow|nonzero|offset)-", "", m[1])) if m else ""
        return re.sub(r"\d+$", "", own) == re.sub(r"\d+$", "", norm(goal[0]))

    n, g = len(needs), len(goals)
    if n == g:
        return needs
    best = {(0, 0): (0, None)}
    for i in range(n + 1):
        for k in range(g + 1):
            if (i, k) not in best:
                continue
            cost = best[i, k][0]
            if i < n and k < g and fits(needs[i], goals[k]):
                if (i + 1, k + 1) not in best or best[i + 1, k + 1][0] > cost:
                    best[i + 1, k + 1] = (cost, (i, k, True))
            if i < n and "κs" in needs[i]:
                if (i + 1, k) not in best or best[i + 1, k][0] > cost + 1:
                    best[i + 1, k] = (cost + 1, (i, k, False))
    if (n, g) not in best:
        return None
    kept, at = [], (n, g)
    while at != (0, 0):
        i, k, took = best[at][1]
        if took:
            kept.append(needs[i])
        at = (i, k)
    return kept[::-1]


class Fn:
    def __init__(self, path, j, text):
        self.path, self.j, self.text = path, j, text
        self.places = {p[0]: p for p in j["places"]}
        self.order = [p[0] for p in j["places"]]
        self.said = []
        name = path.split(".")[-1]
        self.file = "".join(read(os.path.join(HERE, "src", n)) for n in sorted(os.listdir(os.path.join(HERE, "src"))) if n == path.split(".")[0] + ".rt" or "." not in path and n in ("lib.rt", "main.rt"))
        src = "".join(read(os.path.join(HERE, "src", n)) for n in sorted(os.listdir(os.path.join(HERE, "src"))) if n.endswith(".rt"))
        m = re.search(rf"\bfn {name}(?:<[^(]*>)?\((.*?)\)(?: ->|\s*\n| \{{)", src, re.S)
        at = m.start() if m else 0
        self.source = src[at : src.find("\n}\n", at)]
        self.own = clauses_in(self.source, "ensures")
        self.own = self.own if len(self.own) > 1 else None
        self.params = re.findall(r"(\w+): ", m[1]) if m else []

    def say(self, it):
        self.said.append(it)

    def chain(self, place):
        while place is not None and place in self.places:
            yield place
            place = self.places[place][1]

    def step(self, place):
        return self.places[place][2]

    def found(self, need_place, n, field):
        field = field[:-4] if field.endswith("_lem") else field
        return self.found_as(need_place, n, field)

    def found_as(self, need_place, n, field):
        """The place that has a field: the one of that name that is nearest to the n-th before the need's, else that one."""
        row = [q for q in self.chain(need_place) if not self.step(q)[0].startswith("way_told") and q != "Untold"]
        if field in ("args", "requires", "ranges", "well-formed", "well_formed"):
            return "Start"
        alike = [i for i, q in enumerate(row) if norm(self.step(q)[0]) == norm(field)]
        if not alike:
            alike = [i for i, q in enumerate(row) if norm(re.sub(r"\d+$", "", self.step(q)[0])) == norm(re.sub(r"\d+$", "", field))]
        if alike:
            return row[min(alike, key=lambda i: abs(i - n))]
        return row[n] if n < len(row) else None

    def fixed(self, need_place, n, fields):
        """`c` n places back with the projections fields, in today's names."""
        if not fields:
            return "c"
        f, rest = fields[0], fields[1:]
        place = self.found(need_place, n, f)
        if place is None:
            self.say(f"no place {n} before {need_place} for {'.'.join(fields)}")
            return ".".join(["c"] + fields)
        if place == "Start":
            return ".".join(["c"] + self.named(fields))
        arm = self.in_arm(need_place, place, f, rest)
        if arm:
            return ".".join(["c"] + arm)
        if rest[:1] == ["given"]:
            rows = [self.j["typed"][self.order.index(q)] for q in self.chain(need_place)]
            for row in rows:
                for name, old in row:
                    if norm(old) == norm(f):
                        return ".".join(["c", "type_inv", name] + rest[1:])
            old = self.step(place)[0]
            for row in rows:
                for name, it in row:
                    if it == old:
                        return ".".join(["c", "type_inv", name] + rest[1:])
            self.say(f"no type_inv for {'.'.join(fields)}")
            return ".".join(["c", self.step(place)[1]] + rest)
        return ".".join(["c"] + self.named([self.step(place)[1]] + rest))

    def in_arm(self, need_place, place, f, rest):
        """A field of a match or of what it bound, as the arm's record has it."""
        best = None
        for strict in (True, False):
            for q in self.chain(need_place):
                a = self.j["arms"][self.order.index(q)] if self.j["arms"] else None
                for new, old, path in a[2] if a else []:
                    same = norm(old) == norm(f) if strict else norm(re.sub(r"\d+$", "", old)) == norm(re.sub(r"\d+$", "", f))
                    if same and rest[: len(path)] == path and (best is None or len(path) > best[0]):
                        best = (len(path), [a[0], new] + rest[len(path):])
                if best:
                    return best[1]
        return None

    def clauses_of(self, kind, step):
        """The names of the clauses of the function that a step calls."""
        name = step_of(step)
        m = re.search(rf"(\w+)::(?:\w+::)*{name}\(", self.source)
        crate = m[1] if m and (kind, m[1]) in BY_CRATE else None
        if crate is None:
            for m in re.finditer(r"(?m)^use (\w+)::([^;]*);", self.file):
                if re.search(rf"\b{name}\b", m[2]):
                    crate = m[1]
        if (kind, crate) in BY_CRATE and name in BY_CRATE[kind, crate]:
            return BY_CRATE[kind, crate][name]
        return (ENSURES if kind == "ensures" else REQUIRES).get(name)

    def named(self, parts):
        """A path below `c` whose steps have today's names, with today's names for what it projects."""
        f, rest = parts[0], parts[1:]
        if f == "args" and rest and re.match(r"t\d+$", rest[0]) and 0 < int(rest[0][1:]) <= len(self.params):
            return [f, self.params[int(rest[0][1:]) - 1]] + rest[1:]
        if f == "requires":
            names = (self.j["pre"] or {}).get("fields") or []
            if len(names) > 1:
                i, used = projected(rest, len(names))
                if i is not None:
                    return [f, names[i]] + rest[used:]
        if rest[:1] == ["ensures"]:
            names = self.clauses_of("ensures", f)
            if names:
                i, used = projected(rest[1:], len(names))
                if i is not None and names[i]:
                    return [f, "ensures", names[i]] + rest[1 + used:]
        return [f] + by_parameter(f, rest)

    def clauses(self, goal, head, body):
        """The body of an answer, as a record where its goal has a field for each clause."""
        m = re.match(r"(\w+?)(?:-.*)?-requires", goal)
        names = self.clauses_of("requires", m[1]) if m else self.own if goal.startswith("returns") else None
        if not names:
            return head + body
        done = as_record(body, names)
        if done is None:
            cut = max((m.end() for m in re.finditer(r"(?: in|=)(?=\s)", "=" + body) if depth_of(("=" + body)[: m.end()]) == 0), default=1) - 1
            rows = "".join(f"      {n} = whole.{i};\n" for i, n in enumerate(names))
            return f"{head}{body[:cut]}\n    let whole = {body[cut:].strip()} in\n    record {{\n{rows}    }}"
        return head + done

    def turn(self, body, place):
        """The body of an answer at a place, with its paths in today's names."""
        aliases = {}
        def let(m):
            n = m[3].count(".before")
            aliases[m[1]] = n + (0 if m[2] == "c" else aliases[m[2]])
            return ""

        was = None
        while was != body:
            was = body
            heads = "|".join(["c"] + [re.escape(a) for a in aliases])
            body = re.sub(rf"let ([\w'₀-₉-]+) = ({heads})((?:\.before)*) in\s*", let, body, count=1)

        def one(m):
            head, *rest = m[0].split(".")
            if head != "c" and head not in aliases:
                return m[0]
            n = 0
            while n < len(rest) and rest[n] == "before":
                n += 1
            return self.fixed(place, n + (0 if head == "c" else aliases[head]), rest[n:])

        names = "|".join(["c"] + [re.escape(a) for a in aliases])
        body = re.sub(rf"(?<![\w.'-])(?:{names})(?:\.[\w'₀-₉-]+)*(?![\w'-])", one, body)
        # a test of `!x` says what x is, unless x is a field

        def tested(m):
            of = re.search(r"if-not-([a-z_]\w*)", m[3])
            return m[0] if of and re.search(rf"!\s*{of[1]}\.\w", self.source) else m[2]

        body = re.sub(r"not-(true|false) \S+ ((?:\(rw [^()]*(?:\([^()]*\)[^()]*)* at )?([\w'.-]+)\.(?:true|false)(?![\w-]))", tested, body)
        body = body.replace(".well-formed", ".well_formed").replace(".End-low", ".end_low")
        # what a call with several clauses ensures, taken whole

        def whole(m):
            names = self.clauses_of("ensures", m[1])
            return "(" + ", ".join(f"c.{m[1]}.ensures.{n}" for n in names) + ")" if names and all(names) else m[0]

        body = re.sub(r"(?<![\w.'-])c\.([\w'₀-₉-]+)\.ensures(?![\w.'₀-₉-])(?! in\b)", whole, body)
        # a `let` that names the arguments, a step or what it ensures
        for m in list(re.finditer(r"let ([\w'₀-₉-]+) = c\.([\w'₀-₉.-]+) in", body)):
            name, of = m[1], m[2].split(".")

            def inner(w):
                rest = w[0].split(".")[1:]
                whole = self.named(of + rest)
                return ".".join([name] + (whole[len(of):] if whole[: len(of)] == of else rest))

            body = re.sub(rf"(?<![\w.'-]){re.escape(name)}(?:\.[\w'₀-₉-]+)+", inner, body)
        return body


def convert(path):
    folder = os.path.join(HERE, "proofs", path)
    text = read(os.path.join(folder, "Proof.antt"))
    label = path.replace("/", ".")
    key = f"Rattle-{CRATE}-proofs.{label}.Lts"
    names = json.loads(read(NAMES))
    if key not in names:
        print(f"{CRATE} {label}: not in the list of names")
        return
    j = names[key]
    fn = Fn(label, j, text)
    text = text.replace("(λ x. x.now)", "now")
    groups = chunks(text)
    head, uses, decls, spec = [], [], [], None
    for g in groups:
        g2 = [l for l in g if not l.lstrip().startswith("--")]
        if not g2:
            head += g
            continue
        if g2[0].startswith(("use ", "pub use ")):
            head += [l for l in g if l.lstrip().startswith("--")]
            uses += [l for l in g2 if not re.search(r"\.(Statement|Tie|Lts)\b", l)]
            if any(".Lts" in l for l in g2):
                fn.say("uses Lts")
            continue
        if re.match(r"pub \S+-spec : |pub \S+_spec : ", g2[0]):
            spec = "\n".join(g2)
            continue
        decls.append(g)
    if spec is None:
        print(f"{CRATE} {label}: no spec")
        return
    m = re.search(r"tie\.spec\s*(.*)$", spec, re.S)
    if not m:
        args = []
    else:
        tail = m[1]
        # drop what closes the parentheses around tie.spec
        depth, end = 0, len(tail)
        for i, ch in enumerate(tail):
            if ch in OPEN:
                depth += 1
            if ch in CLOSE:
                depth -= 1
                if depth < 0:
                    end = i
                    break
        args = args_of(tail[:end])
    by_name = {}
    for g in decls:
        body = [l for l in g if not l.startswith("--")]
        notes = [l for l in g if l.startswith("--")]
        m = re.match(r"(?:abbrev |unfoldable |pub )*(\S+) : (.*)$", body[0])
        if not m:
            fn.say(f"unread declaration {body[0][:60]}")
            continue
        k = 1
        typ = m[2]
        while k < len(body) and not body[k].startswith("unfolding") and not body[k].startswith(m[1]):
            typ += "\n" + body[k]
            k += 1
        unf = []
        if k < len(body) and body[k].startswith("unfolding"):
            unf.append(body[k])
            k += 1
        by_name[m[1]] = dict(type=typ, unf=unf, body=body[k:], notes=notes, all=g)
    pre = [a for a in args if a in by_name and re.match(r"tie\.(invariant|decreases|measure)", by_name[a]["type"])]
    needs = [a for a in args if a not in pre]
    goals = j["needs"]
    asked = needs
    needs = aligned(needs, by_name, goals)
    if needs is None:
        print(f"{CRATE} {label}: {len(asked)} needs and {len(goals)} goals: old {[by_name[a]['type'] if a in by_name else a for a in asked]} new {goals}")
        return
    inv_out, ans_out = [], []
    # invariants and measures
    loops = j["loops"]
    count = {}
    for a in pre:
        d = by_name[a]
        m = re.match(r"tie\.(invariant|decreases|measure)(\S*)", d["type"])
        kind = m[1]
        k = count.get(kind, 0)
        count[kind] = k + 1
        if kind == "measure" or k >= len(loops):
            fn.say(f"measure {d['type']}")
            continue
        loop, vs = loops[k][0], loops[k][1]
        changed = j["changed"][k]
        first = "\n".join(d["body"])
        m = re.match(re.escape(a) + r"\s*((?:\S+\s+)*?)=\s*(.*)$", first, re.S)
        binders = m[1].split()
        body = m[2]
        want = len(vs) + sum(changed)
        if len(binders) != want:
            fn.say(f"{a} has {len(binders)} binders and the loop {want}: {vs} {changed}")
            continue
        to = {}
        for b, v, ch in zip(binders, vs, changed):
            to[b] = f"l.initial.{v}" if ch else f"l.{v}"
        for b, v in zip(binders[len(vs):], [v for v, ch in zip(vs, changed) if ch]):
            to[b] = f"l.{v}"
        to.pop("_", None)
        body = re.sub(r"(?<![\w.'₀-₉-])[A-Za-z_][\w'₀-₉-]*", lambda m: to.get(m[0], m[0]), body)
        name = f"{kind}-{loop[1]}"
        inv_out.append((d["notes"], f"abbrev pub {name} : goal.{name}", d["unf"], f"{name} l ={' ' if chr(10) not in m[0][:m.start(2)] and not first[m.start(2)-1] == chr(10) else ' '}{body}"))
    # answers
    helpers = []
    for nm, d in by_name.items():
        if nm in pre or nm in needs:
            continue
        helpers.append((nm, d))
    for a, g, at in zip(needs, goals, j["asked_at"]):
        new = g[1]
        place = at[0]
        if a in by_name:
            d = by_name[a]
            first = "\n".join(d["body"])
            if not d["unf"] and re.match(re.escape(a) + r" c( κs)? =\s*(search rules|omega arith)$", first):
                continue
            if len(re.findall(rf"(?m)^{re.escape(a)}(?=\s)", first)) != 1:
                fn.say(f"{a} has several clauses")
            first = re.sub(rf"(?m)^{re.escape(a)}(?=\s)", new, first)
            first = re.sub(rf"^({re.escape(new)} c) κs\b", r"\1", first)
            cut = first.index("=") if "=" in first else 0
            body = fn.clauses(new, first[: cut + 1], fn.turn(first[cut + 1 :], place))
            ans_out.append((d["notes"], f"pub {new} : goal.{new}", d["unf"], body))
        else:
            if TRIVIAL.match(a):
                continue
            m = re.match(r"\(λ c( κs)?\. (.*)\)$", a, re.S)
            if not m:
                if a == "?":
                    continue
                if re.match(r"\(λ c( κs)?\. c\)$", a):
                    continue
                fn.say(f"argument {a[:60]}")
                continue
            ans_out.append(([], f"pub {new} : goal.{new}", [], fn.clauses(new, f"{new} c =", " " + fn.turn(m[2], place))))
    base = f"Rattle.{CRATE}.proofs.{label}"
    top = [l for l in head]

    def out(name, module, items, extra):
        p = os.path.join(folder, name)
        if not items and not extra:
            return
        lines = list(top) + uses + [f"use {base}.{module} as goal"]
        t = "\n".join(lines) + "\n"
        for nm, d in extra:
            t += "\n" + "\n".join(d["all"]) + "\n"
        for notes, sig, unf, body in items:
            t += "\n" + "".join(n + "\n" for n in notes) + sig + "\n" + "".join(u + "\n" for u in unf) + body + "\n"
        with open(p, "w", encoding="utf-8") as f:
            f.write(t)

    # a definition that an invariant names stands beside it
    inv_text = "\n".join(b for _, _, _, b in inv_out)
    beside = [(n, d) for n, d in helpers if re.search(rf"(?<![\w.'-]){re.escape(n)}(?![\w'-])", inv_text)]
    helpers = [h for h in helpers if h not in beside]
    for n, d in beside:
        d["all"] = [re.sub(rf"^((?:abbrev |unfoldable )*)({re.escape(n)} :)", r"\1pub \2", l) for l in d["all"]]
    out("Invariants.antt", "Given", inv_out, beside)
    ans_text = "\n".join(b for _, _, _, b in ans_out) + "\n".join("\n".join(d["all"]) for _, d in helpers)
    cited = [n for n, _ in beside if re.search(rf"(?<![\w.'-]){re.escape(n)}(?![\w'-])", ans_text)]
    if cited:
        uses.append(f"use {base}.Invariants.{{{', '.join(cited)}}}")
    if ans_out:
        out("Answers.antt", "Goals", ans_out, helpers)
    elif helpers and any("tie." not in d["type"] for _, d in helpers):
        fn.say("helpers without answers: " + ", ".join(n for n, _ in helpers))
    os.rename(os.path.join(folder, "Proof.antt"), os.path.join("target/old-proofs", CRATE + "--" + label + ".antt"))
    for s in fn.said:
        print(f"{CRATE} {label}: {s}")


def main():
    os.makedirs("target/old-proofs", exist_ok=True)
    root = os.path.join(HERE, "proofs")
    n = 0
    for folder, dirs, files in os.walk(root):
        if "Proof.antt" in files:
            path = os.path.relpath(folder, root)
            if ONLY and path not in ONLY:
                continue
            if "Tie" in read(os.path.join(folder, "Proof.antt")):
                n += 1
                convert(path)
    print(f"{CRATE}: {n} proofs read")


main()
