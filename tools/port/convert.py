#!/usr/bin/env python3
"""Turns walks' Proof.antt files of an older Rattle into Invariants.antt and Answers.antt.

    rt check --generated DIR --old-names          (in the crate's folder; writes DIR/names.json)
    python3 tools/port/convert.py CRATE DIR/names.json [FUNCTION ..]

What it can't turn stands in the new file behind 'look:'; the check then says what is left. Each Proof.antt goes.
"""
import json
import os
import re
import sys

crate, names_file = sys.argv[1:3]
only = sys.argv[3:]
names = json.load(open(names_file))
PART = r"[\w\-'′+*]"
IDENT = re.compile(r"(?<![\w\-'′.])([^\W\d][\w\-'′]*)((?:\.[\w\-'′]+)*)")
TRIVIAL = {"omega arith", "search rules", "refl", "tt", "(omega arith)", "search (rules)"}


def norm(name):
    name = name.replace("_", "-").lower().removesuffix("-lem")
    for a, b in (("overflow-", ""), ("slice-bounds-", "part-"), ("offset-bounds-", ""), ("array-read", "element-copy-out"),):
        if name.startswith(a):
            name = b + name[len(a):]
    if name.startswith("nonzero-"):
        name = name[len("nonzero-"):]
    return name


def chunks(text):
    """Top-level pieces of the file: runs of lines that begin with one at column 0."""
    out = []
    for line in text.split("\n"):
        if line and not line[0].isspace() and not line.startswith(")"):
            out.append([line])
        elif out:
            out[-1].append(line)
    return ["\n".join(c).rstrip() for c in out]


class Function:
    def __init__(self, data):
        self.data = data
        self.places = {}
        for i, p in enumerate(data["places"]):
            self.places[p[0]] = (p, i)
        self.new_place = {p[0]: data["places_by_name"][i] for i, p in enumerate(data["places"])}
        self.needs = {}
        for (old, new), at in zip(data["needs"], data["asked_at"]):
            self.needs.setdefault(norm(old), (new, at[0], old))

    def parent(self, place):
        return self.places[place][0][1] if place in self.places else None

    def find_place(self, name):
        for p in self.places:
            if norm(p) == norm(name):
                return p
        return None


def convert_paths(f, text, roots, need, notes):
    """roots: alias -> (variable, place). Handles lets of contexts on the way."""
    aliases = dict(roots)
    # drop 'let X = CONTEXT in'
    def context_of(path):
        parts = path.split(".")
        if parts[0] not in aliases:
            return None
        var, place, home = aliases[parts[0]]
        for seg in parts[1:]:
            if seg != "before":
                return None
            place = f.parent(place) if place else None
        return var, place, home

    pattern = re.compile(r"let ([^\W\d][\w\-'′]*) = ([^\W\d][\w\-'′]*(?:\.before)*) in[ \n]*")
    while True:
        done = False
        for m in pattern.finditer(text):
            ctx = context_of(m.group(2))
            if ctx and ctx[1] is not None:
                aliases[m.group(1)] = ctx
                # keep line structure: remove the let
                text = text[: m.start()] + text[m.end():]
                done = True
                break
        if not done:
            break

    def sub(m):
        head, rest = m.group(1), m.group(2)
        if head not in aliases:
            return m.group(0)
        var, place, home = aliases[head]
        segs = rest.split(".")[1:]
        while segs and segs[0] == "before":
            segs.pop(0)
            place = f.parent(place) if place else None
        if place is None:
            notes.append("no place for " + m.group(0))
            return m.group(0)
        if not segs:
            if place == home:
                return var
            if need:
                return f"(goal.at.{need} {var}).{f.new_place[place]}"
            notes.append("context of a lemma: " + m.group(0))
            return f"{var}"
        step = segs[0]
        if step in ("args", "ranges", "requires"):
            for was, now in f.data["args"]:
                if f".{step} .{segs[1] if len(segs) > 1 else ''}" == was:
                    segs[:2] = [part.strip().lstrip(".") for part in now.split()]
            if step == "requires" and len(segs) > 1 and segs[1].isdigit() and int(segs[1]) < len(own_requires(f)) > 1:
                segs[1] = own_requires(f)[int(segs[1])]
            return var + "." + ".".join(segs)
        p = place
        while p is not None:
            entry, i = f.places[p]
            old, new = entry[2]
            arm = f.data["arms"][i]
            if norm(old) == norm(step):
                if arm:
                    for field, s, path in arm[2]:
                        if norm(s) == norm(step) and segs[1:1 + len(path)] == path:
                            return ".".join([var, arm[0], field] + segs[1 + len(path):])
                clause = f.data["clauses"][i]
                if clause and len(segs) > 2 and segs[1] == "ensures" and segs[2].isdigit():
                    k = int(segs[2])
                    if k < len(clause["fields"]):
                        segs[2] = clause["fields"][k]
                return ".".join([var, new] + segs[1:])
            if arm:
                for field, s, path in arm[2]:
                    if norm(s) == norm(step) and segs[1:1 + len(path)] == path:
                        return ".".join([var, arm[0], field] + segs[1 + len(path):])
            p = f.parent(p)
        notes.append(f"no step {step} above {place} for {m.group(0)}")
        return ".".join([var] + segs)

    text = IDENT.sub(sub, text)
    for name in re.findall(r"let ([^\W\d][\w\-'′]*) = [\w\-'′.]+\.args in", text):
        for was, now in f.data["args"]:
            if was.startswith(".args "):
                text = re.sub(rf"(?<![\w\-'′.]){name}{re.escape(was[6:])}(?![\w\-'′])", name + now[6:], text)
    return clause_names(f, text)


def own_requires(f):
    return (f.data.get("pre") or {}).get("fields") or []


def clause_names(f, text):
    """A clause by its name where a local stands for a step or for its ensures."""
    fields = {p[2][1]: f.data["clauses"][i]["fields"] for p, i in f.places.values() if f.data["clauses"][i]}
    for m in list(re.finditer(r"let ([^\W\d][\w\-'′]*) = [^\W\d][\w\-'′]*\.([\w\-+]+)(\.ensures)? in", text)):
        names = own_requires(f) if m.group(2) == "requires" else fields.get(m.group(2))
        if not names or len(names) < 2:
            continue
        begin = r"(?<![\w\-'′.])" + re.escape(m.group(1)) + ("" if m.group(3) or m.group(2) == "requires" else r"\.ensures")
        rest = re.sub(begin + r"\.(\d+)(?![\w\-])", lambda q: q.group(0)[: -len(q.group(1))] + names[int(q.group(1))] if int(q.group(1)) < len(names) else q.group(0), text[m.end():])
        text = text[: m.end()] + rest
    return text


def as_record(body, fields, notes, new):
    """The tuple that the body ends in, as a record of the clauses' names."""
    text = body.rstrip()
    if not text.endswith(")"):
        notes.append(f"{new}: no tuple for {fields}")
        return body
    depth = 0
    for i in range(len(text) - 1, -1, -1):
        if text[i] in ")]}":
            depth += 1
        elif text[i] in "([{":
            depth -= 1
            if depth == 0:
                break
    inner = text[i + 1:-1]
    before = text[:i].rstrip()
    if before and not re.search(r"(\bin|=|\n|^)$", before) and not before.endswith("in"):
        notes.append(f"{new}: no tuple for {fields}")
        return body
    parts, depth, cur = [], 0, ""
    for ch in inner:
        if ch in "([{":
            depth += 1
        if ch in ")]}":
            depth -= 1
        if ch == "," and depth == 0:
            parts.append(cur)
            cur = ""
        else:
            cur += ch
    if cur.strip():
        parts.append(cur)
    if len(parts) != len(fields):
        notes.append(f"{new}: {len(parts)} parts for {fields}")
        return body
    return text[:i] + "record {\n      " + ";\n      ".join(f"{n} = {p.strip()}" for n, p in zip(fields, parts)) + ";\n    }"


def run(path, module, f, fn_parts):
    text = open(path).read()
    cs = chunks(text)
    header, uses, rest = [], [], []
    for c in cs:
        if c.startswith("--") and not uses and not rest:
            header.append(c)
        elif c.startswith("use "):
            uses.append(c)
        else:
            rest.append(c)
    uses = [u for u in uses if not re.search(r"\.(Statement|Tie)\b", u)]
    notes = []
    invariants, answers = [], []
    pending = []  # comments
    i = 0
    loops = f.data["loops"]
    changed = f.data["changed"]
    types = {}
    place_names = set()

    def types_of(s):
        def t(m):
            p = f.find_place(m.group(1))
            if p is None:
                notes.append("no place " + m.group(1))
                return m.group(1)
            place_names.add(f.new_place[p])
            return f.new_place[p]
        return re.sub(r"tie\.([A-Z][\w\-']*)((?: (?:invariant|decreases)-[\w\-']+)*)", t, s)

    groups = []  # (sig name, [chunks])
    cur = None
    for c in rest:
        m = re.match(r"(?:abbrev )?(?:unfoldable )?(?:pub )?(?:abbrev )?([^\s:(){}]+) :", c)
        if c.startswith("--"):
            pending.append(c)
            continue
        if m or c.startswith("module ") or c.startswith("record ") or c.startswith("data ") or c.startswith("pub record") or c.startswith("ruleset"):
            cur = (m.group(1) if m else None, pending + [c])
            pending = []
            groups.append(cur)
        elif cur:
            cur[1].extend(pending)
            pending = []
            cur[1].append(c)
    for name, parts in groups:
        whole = "\n".join(parts)
        sig = next((p for p in parts if re.match(r"(?:abbrev )?(?:unfoldable )?(?:pub )?(?:abbrev )?" + re.escape(name or "") + r" :", p)), "")
        ty = sig.split(" :", 1)[1].strip() if name else ""
        if "statement M" in ty or re.match(r"\{M : Type 1\}", ty):
            continue
        m = re.match(r"tie\.((?:invariant|decreases)-[\w\-']+)$", ty)
        if m:
            kind, loop = m.group(1).split("-", 1)
            k = next((j for j, l in enumerate(loops) if norm(l[0][0]) == norm(loop)), None)
            clause = next(p for p in parts if p.startswith(name + " ") and p is not sig)
            lhs, body = clause.split("=", 1)
            params = lhs.split()[1:]
            if k is None:
                if kind == "decreases":
                    vs = None
                    notes.append("recursion or unknown loop " + loop)
                    newname = f"decreases-{fn_parts[-1]}"
                    subst = {p: "l." + p for p in params}
                else:
                    notes.append("unknown loop " + loop)
                    newname, subst = m.group(1), {}
            else:
                newname = f"{kind}-{loops[k][0][1]}"
                vs, ch = loops[k][1], changed[k]
                order = [("l.initial." + v if c else "l." + v) for v, c in zip(vs, ch)] + ["l." + v for v, c in zip(vs, ch) if c]
                if len(order) != len(params):
                    notes.append(f"{name}: {len(params)} parameters, {len(order)} variables {vs} {ch}")
                subst = dict(zip(params, order))
            body = IDENT.sub(lambda q: (subst.get(q.group(1), q.group(1)) + q.group(2)), body)
            com = "".join(p + "\n" for p in parts if p.startswith("--"))
            invariants.append(f"{com}abbrev pub {newname} : goal.{newname}\n{newname} l ={body}")
            continue
        m = re.match(r"tie\.Need-([\w\-']+)", ty)
        if m:
            key = norm(m.group(1))
            unf = "".join(p + "\n" for p in parts if p.startswith("unfolding"))
            clause = [p for p in parts if p.startswith(name + " ") and p is not sig]
            body = "\n".join(clause)
            if key not in f.needs:
                if len(clause) == 1 and clause[0].split("=", 1)[1].strip() in TRIVIAL:
                    continue
                notes.append(f"no goal for {m.group(1)}")
                answers.append("-- look: no goal " + m.group(1) + "\n" + "".join("-- " + l + "\n" for l in body.split("\n")))
                continue
            new, place, old = f.needs[key]
            if len(clause) == 1:
                lhs, b = clause[0].split("=", 1)
                params = lhs.split()[1:]
                if b.strip() in TRIVIAL and not unf:
                    continue
                roots = {params[0]: ("c", place, place)} if params else {}
                b = convert_paths(f, b, roots, new, notes)
                fields = f.data["asked"].get(old)
                if fields:
                    b = as_record(b, fields, notes, new)
                more = "".join(" " + p for p in params[2:])
                body = f"{new} c{more} ={b}"
            else:
                notes.append("several clauses: " + name)
            com = "".join(p + "\n" for p in parts if p.startswith("--"))
            answers.append(f"{com}pub {new} : goal.{new}\n{unf}{body}")
            continue
        # a lemma of the file's own
        roots = {}
        for m in re.finditer(r"\(([^\W\d][\w\-'′]*) : tie\.([A-Z][\w\-']*)", whole):
            p = f.find_place(m.group(2))
            if p:
                roots[m.group(1)] = (m.group(1), p, p)
        if roots and name:
            # the clause's own names for them, by position
            s = "\n".join(parts)
            binders = re.findall(r"\(([^\W\d][\w\-'′]*(?: [^\W\d][\w\-'′]*)*) :|\{[^}]*\}", sig)
            flat = [b for bs in binders if bs for b in bs.split()]
            for p in parts:
                if p.startswith(name + " ") and p is not sig:
                    lhs = p.split("=", 1)[0].split()[1:]
                    for a, b in zip(flat, lhs):
                        if a in roots:
                            roots[b] = (b,) + roots[a][1:]
        out = []
        for p in parts:
            if p.startswith("--") or p.startswith("unfolding"):
                out.append(p)
            else:
                out.append(convert_paths(f, types_of(p), roots, None, notes) if roots else types_of(p))
        answers.append("\n".join(out))
    base = os.path.dirname(path)
    mod = "Rattle." + crate + ".proofs." + ".".join(fn_parts)

    def pick(uselines, body):
        out = []
        for u in uselines:
            m = re.match(r"use ([^\s{]+)\.\{(.*)\}$", u.replace("\n", " "))
            if not m:
                out.append(u)
                continue
            keep = []
            for n in m.group(2).split(","):
                n = n.strip()
                t = n.split(" as ")[-1].strip()
                if "◌" in t:
                    w = t.replace("◌", " ").split()
                    ok = all(x in body for x in w)
                else:
                    ok = re.search(rf"(?<![\w\-'′]){re.escape(t)}(?![\w\-'′])", body) is not None
                if ok:
                    keep.append(n)
            if keep:
                out.append(f"use {m.group(1)}.{{{', '.join(keep)}}}")
        return out

    top = "\n".join(h for h in header if "Assumes nothing" not in h)
    if invariants:
        body = "\n\n".join(invariants)
        u = pick(uses, body) + [f"use {mod}.Given as goal"]
        open(os.path.join(base, "Invariants.antt"), "w").write(top + "\n" + "\n".join(u) + "\n\n" + body + "\n")
    if answers:
        body = "\n\n".join(answers)
        # a test of a negated word is a fact on the word now
        body = re.sub(r"not-(?:true|false) (?:_|\([^()]*\)) ((?:\w+\.)+if-not-[\w\-]+\.(?:true|false))", r"\1", body)
        u = pick(uses, body) + [f"use {mod}.Goals as goal"]
        if place_names:
            u.append(f"use {mod}.Goals.{{{', '.join(sorted(place_names))}}}")
        open(os.path.join(base, "Answers.antt"), "w").write(top + "\n" + "\n".join(u) + "\n\n" + body + "\n")
    os.remove(path)
    for n in notes:
        print(f"look: {module}: {n}")


for key, data in names.items():
    m = re.match(rf"Rattle-{crate}-proofs\.(.+)\.Lts$", key)
    if not m:
        continue
    parts = m.group(1).split(".")
    if only and parts[-1] not in only:
        continue
    path = os.path.join("crates", crate, "proofs", *parts, "Proof.antt")
    if not os.path.exists(path):
        continue
    run(path, m.group(1), Function(data), parts)
