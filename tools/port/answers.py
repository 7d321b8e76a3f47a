#!/usr/bin/env python3
"""Turns the Proof.antt files of a crate into Invariants.antt and Answers.antt.

usage: tools/port/answers.py CRATE NAMES.json [FUNCTION..]      at the top of the repository

NAMES.json is what `rt check --generated DIR --old-names` writes in the crate's folder: for each function its goals, the places that they
are asked at, the steps on the way and the loops, each with its old and its new name. An answer that says no more than `search rules` or
`omega arith` goes, since Rattle tries these itself. A path by `.before` becomes the step's name. What it cannot turn it leaves with a line
that begins '-- left:'.
"""

import json
import os
import re
import sys

TOKEN = re.compile(r"[^\s(){},;@\"«»\[\]|]+|\s+|.", re.S)


def norm(s):
    s = re.sub(r"is_Is([A-Z]\w*)", lambda m: "is" + re.sub("[A-Z]", lambda w: "-" + w[0].lower(), m[1]), s)
    return s.replace("_", "-").strip("-")


class Fn:
    def __init__(self, crate, path, entry):
        self.crate, self.path, self.e = crate, path, entry
        self.places = {}
        self.names = entry["places_by_name"]
        for i, p in enumerate(entry["places"]):
            self.places[p[0]] = (i, p[1], p[2])
        self.by_norm = {norm(k): k for k in self.places}
        self.needs = entry["needs"]
        self.left, self.walk, self.last = [], False, None

    def need(self, old, nth):
        old = norm(old)
        opts = [old]
        for pre in ("overflow-", "fits-"):
            if old.startswith(pre):
                opts.append(old[len(pre):])
        if old.startswith("slice-bounds-"):
            opts.append("part-" + old[len("slice-bounds-"):])
        for o in opts:
            for i, (a, b) in enumerate(self.needs):
                if norm(a) == o:
                    return i
        return None

    def parent(self, place):
        return self.places[place][1] if place in self.places else None

    def group(self, place):
        """The last place of the arm that the place is in, or the place itself."""
        arms, order = self.e["arms"], [p[0] for p in self.e["places"]]
        i = self.places[place][0]
        if not arms[i]:
            return place
        while i + 1 < len(arms) and arms[i + 1] and arms[i + 1][0] == arms[i][0] and arms[i + 1][1] == arms[i][1] + 1:
            i += 1
        return order[i]

    def first(self, place):
        arms, order = self.e["arms"], [p[0] for p in self.e["places"]]
        i = self.places[place][0]
        while i > 0 and arms[i] and arms[i - 1] and arms[i][0] == arms[i - 1][0] and arms[i - 1][1] == arms[i][1] - 1:
            i -= 1
        return order[i]

    def steps(self, place, target):
        """How many records lie between a record of the place and one of the target."""
        at, n, target = self.group(place), 0, self.group(target)
        while at and at != target:
            up = self.parent(self.first(at))
            at = self.group(up) if up else None
            n += 1
        return n if at else None

    def arm(self, place, field, rest):
        i = self.places[place][0]
        arms = self.e["arms"]
        # the arm's group that has this step may be recorded at this place or a later one of the group
        for j in range(i, min(i + 4, len(arms))):
            if arms[j]:
                for new, step, way in arms[j][2]:
                    if norm(step) == norm(field) and way == rest[: len(way)] and not new.endswith("-own"):
                        return arms[j][0], new, rest[len(way):]
        for j in range(i, min(i + 4, len(arms))):
            if arms[j]:
                for new, step, way in arms[j][2]:
                    if norm(step) == norm(field) and new.endswith("-own"):
                        return arms[j][0], new, rest
        return None

    def clause(self, place, rest):
        """What follows a step: `.ensures.1` of a call whose clauses have names goes by the name."""
        c = self.e["clauses"][self.places[place][0]]
        if self.walk or not c or not rest or rest[0] != "ensures":
            return rest
        names, at = c["fields"], 0
        if len(names) == 1:
            return rest if rest[1:2] == names else ["ensures", names[0], *rest[1:]]
        k = 1
        while k < len(rest) and rest[k] == "1" and at < len(names) - 2:
            at, k = at + 1, k + 1
        if k < len(rest) and rest[k] in ("0", "1"):
            return ["ensures", names[at + int(rest[k])], *rest[k + 1 :]]
        return rest

    def own(self, place, field):
        own = self.places[place][2]
        return bool(own[0]) and (norm(own[0]) == norm(field) or norm(field).replace("same-length", "shape-of") == norm(own[1]))

    def resolve(self, place, segs, arms=True):
        """Returns (new segs, None) of a field, or ([], place) of a record."""
        self.last = None
        self.arms_here = arms
        at, k = place, 0
        while k < len(segs) and segs[k] == "before":
            at = (self.parent(at) or at) if at in self.places else None
            k += 1
        if at is None:
            return None, None
        if k == len(segs):
            return [], at
        field, rest = segs[k], segs[k + 1 :]
        rest = ["invariant" if r == "inv" else r for r in rest]
        for begin in (at, place):
            seen = begin
            while seen:
                if self.own(seen, field):
                    arm = self.arm(seen, field, rest) if arms else None
                    if arm:
                        return [arm[0], arm[1], *arm[2]], None
                    self.last = (seen, rest)
                    return [self.places[seen][2][1], *self.clause(seen, rest)], None
                seen = self.parent(seen)
        seen = place
        while seen:
            own = self.places[seen][2]
            if own[0] and norm(own[0]).startswith(norm(field) + "-"):
                return [own[1], *self.clause(seen, rest)], None
            seen = self.parent(seen)
        if field == "pre":
            field = "requires"
        return [field, *rest], None


def blocks(text):
    """Top-level blocks: each a list of lines; comments go with what follows."""
    out, cur = [], []
    lines = text.split("\n")
    def is_sig(l):
        return re.match(r"^(?:(?:abbrev|unfoldable|pub|module|data|record|ruleset)\s+)*[^\s(){}.;,@\"]+(?: \{[^{}]*\})* :(?= |$)", l) or l.startswith("module ") or l.startswith("use ") or l.startswith("ruleset ") or l.startswith("pub record") or l.startswith("record ") or l.startswith("data ")
    for l in lines:
        if l.startswith("--") or is_sig(l):
            if cur and not all(x.startswith("--") or not x.strip() for x in cur):
                out.append(cur)
                cur = []
        cur.append(l)
    if cur:
        out.append(cur)
    return out


def only_name(fn, field):
    """The new name of a step with that old name, if all steps of that name have one new name."""
    new = {own[1] for _, _, own in fn.places.values() if own[0] and norm(own[0]) == norm(field)}
    if not new:
        new = {own[1] for _, _, own in fn.places.values() if own[0] and norm(own[0]).startswith(norm(field) + "-")}
    return next(iter(new)) if len(new) == 1 else field


def turn_walk_paths(fn, text, env):
    """As turn_paths, for a Proof.antt: the places before stay."""
    env = dict(env)
    parts = TOKEN.findall(text)
    out = []
    for i, t in enumerate(parts):
        m = re.match(r"^([^\s.]+)((?:\.[^\s.]+)+)$", t)
        b = re.match(r"^[^\s.]+$", t)
        if b and t in env and re.search(r"(\blet|λ)\s+$", "".join(out[-3:])):
            ahead = re.match(r"^\s*=\s*([^\s.(),]+)", "".join(parts[i + 1 : i + 5]))
            if not (ahead and ahead[1] in env):
                env.pop(t)
            out.append(t)
            continue
        if m or (b and t in env):
            var, segs = (m[1], [s for s in m[2].split(".") if s]) if m else (t, [])
            if var in env:
                new, at = fn.resolve(env[var], segs)
                if new is not None:
                    if at is not None and not new:
                        alias = re.search(r"\blet\s+(\S+)\s*=\s*$", "".join(out))
                        if alias and "".join(parts[i + 1 : i + 4]).strip().startswith("in"):
                            env[alias[1]] = at
                        n = fn.steps(env[var], at)
                        out.append(var + ".before" * (n if n is not None else segs.count("before")))
                    else:
                        out.append(".".join([var, *new]))
                    continue
            if m and var not in ("tie", "Rattle") and not re.match(r"^(use|open)\b", "".join(out[-2:])):
                k = 0
                while k < len(segs) and segs[k] == "before":
                    k += 1
                if k < len(segs) and (k or re.fullmatch(r"loop\d*", segs[k])):
                    segs = [only_name(fn, segs[k]), *segs[k + 1 :]]
                out.append(".".join([var, *segs]))
                continue
        out.append(t)
    return "".join(out)


def as_record(body, fields, params):
    """The answer of a goal with named clauses: a tuple becomes a record."""
    lam = f"λ {' '.join(params)}. " if params else ""
    if len(fields) == 1:
        return f"record {{ {fields[0]} = {lam}{body.strip()} }}"
    text = body.rstrip()
    if text.endswith(")") and not params:
        depth, p = 0, len(text)
        while p:
            p -= 1
            depth += {")": 1, "(": -1}.get(text[p], 0)
            if not depth:
                break
        lead = text[:p].rstrip()
        if not lead or lead.endswith(" in") or lead.endswith("\nin"):

            def parts(inner):
                out, depth, last = [], 0, 0
                for i, ch in enumerate(inner):
                    depth += 1 if ch in "([{" else -1 if ch in ")]}" else 0
                    if ch == "," and not depth:
                        out.append(inner[last:i])
                        last = i + 1
                out.append(inner[last:])
                return [o.strip() for o in out if o.strip()]

            found = parts(text[p + 1 : -1])
            while len(found) == 2 and len(found) < len(fields) or found and 1 < len(found) < len(fields) and found[-1].startswith("("):
                if not (found[-1].startswith("(") and found[-1].endswith(")")):
                    break
                found = [*found[:-1], *parts(found[-1][1:-1])]
            if len(found) == len(fields):
                return (lead + " " if lead else "") + "record {\n      " + ";\n      ".join(f"{f} = {x}" for f, x in zip(fields, found)) + ";\n    }"
    return body


def turn_walk(fn, text):
    """A Proof.antt that has lemmas over the records of places stays one, with today's names."""
    fn.walk = True
    loops = {norm(a[0]): a[1] for a, _ in fn.e["loops"]}
    mod = f"Rattle.{fn.crate}.proofs." + fn.path.replace("/", ".")
    spec = re.search(r"^pub (\S+[-_]spec) :.*\Z", text, re.S | re.M)
    tail = spec[0]
    head = text[: spec.start()]
    args = re.search(r"\(\s*tie\.spec\b(.*)\)\s*$", tail, re.S)
    args = args[1].split() if args else []
    answers = {}
    res = []
    for b in blocks(head):
        i = None
        body = "\n".join(b)
        sig = next((l for l in b if not l.startswith("--") and l.strip()), "")
        env = {}
        m = re.match(r"^(\S+) : tie\.Need-(\S+)((?: .*)?)$", sig)
        if m:
            i = fn.need(m[2], 0)
            if i is None and re.search(r"= search rules\s*$", body):
                continue
            if i is None:
                res.append("-- left: " + body.replace("\n", "\n-- "))
                continue
            answers[i] = m[1]
            body = body.replace("tie.Need-" + m[2], "tie.Need-" + fn.needs[i][1], 1)
            place = fn.e["asked_at"][i][0]
            c = re.search(rf"^{re.escape(m[1])} ([^\s:]\S*)", "\n".join(b), re.M)
            if c:
                env[c[1]] = place
        else:
            m = re.match(r"^(?:abbrev |pub )*(\S+) : tie\.(invariant|decreases)-(\S+)$", sig)
            if m and norm(m[3]) in loops:
                body = re.sub(r"tie\.(invariant|decreases)-\S+", lambda k: f"tie.{k[1]}-{loops[norm(m[3])]}", body)
        bares = []

        def place_of(mm):
            k = fn.by_norm.get(norm(mm[3]))
            if k is None:
                fn.left.append(mm[0])
                return mm[0]
            if mm[1]:
                env[mm[2]] = k
            else:
                bares.append(k)
            return f"{mm[1] or ''}tie.{fn.names[fn.places[fn.group(k)][0]]}"

        body = re.sub(r"((?<=\()([^\s()]+) : )?tie\.((?:After|Then|Else|At|In|Joined|Start)[^\s()]*)", place_of, body)
        if bares and not m:
            mm = re.search(r"^\s*(?!.* : )(\S+) (\S+)(?: \S+)* =", "\n".join(body.split("\n")[1:]), re.M)
            if mm:
                env.setdefault(mm[2], bares[0])
        res.append(body if body.startswith("use ") or sig.startswith("use ") else turn_walk_paths(fn, body, env))
    lead = []
    for a in args:
        if a in answers.values():
            break
        if not re.match(r"(invariant|decreases)", a):
            break
        lead.append(a)
    extra = []
    names = []
    for i, (_, new) in enumerate(fn.needs):
        if i not in answers:
            name = "more-" + new
            extra += [f"{name} : tie.Need-{new}" + "".join(" " + a for a in lead), f"{name} c" + (" κs" if new.split("-in_")[0].endswith("-requires") or "-requires" in new else "") + " = search rules", ""]
            answers[i] = name
        names.append(answers[i])
    spec_name = os.path.basename(fn.path) + "_spec"
    tailtext = f"pub {spec_name} : {{M : Type 1}} → statement M\n{spec_name} =\n    tie.close\n    (tie.spec" + "".join("\n    " + a for a in lead + names) + ")\n"
    return {"Proof.antt": "\n".join(res).rstrip() + "\n\n" + "\n".join(extra) + ("\n" if extra else "") + tailtext}


def turn_paths(fn, text, env, goal=None):
    """Turns the paths whose root is a variable of env (name: place), with let-bound aliases."""
    env = dict(env)
    parts = TOKEN.findall(text)
    out, steps = [], {}
    i = 0
    while i < len(parts):
        t = parts[i]
        m = re.match(r"^([^\s.]+)((?:\.[^\s.]+)*)$", t)
        if m and t in env and re.search(r"(\blet|λ)\s+$", "".join(out[-3:])):
            ahead = re.match(r"^\s*=\s*([^\s.(),]+)", "".join(parts[i + 1 : i + 5]))
            if not (ahead and ahead[1] in env):
                env.pop(t)
            out.append(t)
        elif m and m[1] in env:
            var, segs = m[1], [s for s in m[2].split(".") if s]
            place, root = env[var]
            new, at = fn.resolve(place, segs)
            if new is None:
                fn.left.append(t)
                out.append(t)
            elif at is not None and not new:
                # a record of a place
                alias = re.search(r"(?:\blet|\bin let)\s+(\S+)\s*=\s*$", "".join(out))
                after = "".join(parts[i + 1: i + 4]).strip()
                if alias and after.startswith("in"):
                    env[alias[1]] = (at, root)
                    out.append(root)
                elif root == "c" and goal is not None:
                    name = fn.names[fn.places[at][0]]
                    out.append("c" if (at == place and not segs and False) else f"(goal.at.{goal} c).{name}")
                else:
                    out.append(var + ".before" * segs.count("before"))
            else:
                alias = re.search(r"\blet\s+(\S+)\s*=\s*$", "".join(out))
                if alias and fn.last and "".join(parts[i + 1 : i + 4]).strip().startswith("in"):
                    steps[alias[1]] = fn.last
                out.append(".".join([root, *new]))
        elif m and m[1] in steps and m[2]:
            place, rest = steps[m[1]]
            more = [s for s in m[2].split(".") if s]
            done = fn.clause(place, [*rest, *more])
            before = fn.clause(place, rest)
            out.append(".".join([m[1], *done[len(before) :]]))
        else:
            out.append(t)
        i += 1
    text = "".join(out)
    # what is left of paths by the places before: the step's new name where only one step has the old one
    def field(m):
        return "." + only_name(fn, m[1])

    text = re.sub(r"(?<=[^\s.])\.(loop\d*)(?=\.)", field, text)
    return re.sub(r"(?:\.before)+\.([^\s.(),]+)", field, text)


TRIVIAL = re.compile(r"^(search rules|omega arith|search needs|search \(rules\))$")


def turn(fn, text):
    inv, ans, uses, head = [], [], [], []
    loops = {norm(a[0]): (a[1], v, ch) for (a, v), ch in zip(fn.e["loops"], fn.e["changed"])}
    used_goals = set()
    kept_lemmas = []
    for b in blocks(text):
        code = [l for l in b if not l.startswith("--") and l.strip()]
        comm = [l for l in b if l.startswith("--")]
        if not code:
            head += comm
            continue
        if code[0].startswith("use "):
            head += comm
            for l in code:
                if not re.search(r"\.(Statement|Tie)(\.| as |$)", l):
                    uses.append(l)
            continue
        body = "\n".join(b)
        m = re.match(r"^(?:(abbrev|unfoldable|pub) )*(\S+) : tie\.(invariant|decreases)-(\S+)", code[0])
        if m and not code[0].startswith("module"):
            kind, lname = m[3], m[4]
            L = loops.get(norm(lname))
            cl = "\n".join(code[1:])
            mm = re.match(r"^\S+((?: \S+)*?) =\s*(.*)$", cl, re.S)
            if not L or not mm:
                ans.append("-- left: " + body.replace("\n", "\n-- "))
                continue
            newname, vars_, ch = L
            ps = [p for p in mm[1].split() if not re.fullmatch(r"t\d+", p)] if re.search(r" t\d+( |$)", mm[1]) else mm[1].split()
            names = {}
            order = [("initial." + v if c else v) for v, c in zip(vars_, ch)] + [v for v, c in zip(vars_, ch) if c]
            if len(ps) != len(order):
                fn.left.append(f"{ps} for {order}")
                ans.append("-- left (parameters): " + body.replace("\n", "\n-- "))
                continue
            for p, o in zip(ps, order):
                names[p] = "l." + o
            newb = []
            for t in TOKEN.findall(mm[2]):
                h = re.match(r"^([^\s.]+)((?:\.[^\s]+)?)$", t)
                newb.append(names[h[1]] + h[2] if h and h[1] in names else t)
            extra = [l for l in code[1:2] if l.startswith("unfolding")]
            inv += comm + [f"abbrev pub {kind}-{newname} : goal.{kind}-{newname}", f"{kind}-{newname} l = " + "".join(newb), ""]
            continue
        m = re.match(r"^(\S+) : tie\.Need-(\S+?)(?: .*)?$", code[0])
        if m:
            i = fn.need(m[2], 0)
            rest = code[1:]
            unf = []
            while rest and rest[0].startswith("unfolding"):
                unf.append(rest[0])
                rest = rest[1:]
            cl = "\n".join(rest)
            mm = re.match(r"^" + re.escape(m[1]) + r"((?: \S+)*?) =\s*(.*)$", cl, re.S)
            if mm and TRIVIAL.match(mm[2].strip()):
                continue
            if i is None or not mm:
                ans.append("-- left: " + body.replace("\n", "\n-- ") + "\n")
                continue
            new = fn.needs[i][1]
            place = fn.e["asked_at"][i][0] if i < len(fn.e["asked_at"]) else None
            ps = mm[1].split()
            c = ps[0] if ps else "c"
            src = mm[2]
            if c != "c":
                src = re.sub(rf"(?<![\w.'-]){re.escape(c)}(?=[.\s)])", "c", src)
            b2 = turn_paths(fn, src, {"c": (place, "c")}, new)
            params = [q for q in ps[1:] if q != "κs"]
            fields = fn.e["asked"].get(fn.needs[i][0])
            if fields:
                b2 = as_record(b2, fields, params)
                params = []
            used_goals.add(new)
            kept_lemmas.append((m[1], new))
            ans.append("\n".join(comm + [f"pub {new} : goal.{new}", *unf, f"{new} c" + "".join(" " + q for q in params) + " =" + ("\n" + "    " + b2 if "\n" in b2 else " " + b2)]) + "\n")
            continue
        if re.match(r"^pub \S+[-_]spec :", code[0]):
            continue
        # a lemma or a section, maybe over records of places
        env = {}
        def place_of(mm):
            k = fn.by_norm.get(norm(mm[2]))
            if k is None:
                fn.left.append(mm[0])
                return mm[0]
            env[mm[1] if mm[1] else None] = (k, mm[1])
            return f"({mm[1]} : goal.{fn.names[fn.places[k][0]]})"
        body2 = re.sub(r"\((\S+) : tie\.([^\s()]+)(?: invariant-\S+| decreases-\S+)*\)", place_of, body)
        def bare(mm):
            k = fn.by_norm.get(norm(mm[1]))
            if k is None:
                fn.left.append(mm[0])
                return mm[0]
            env.setdefault("__bare", []).append(k) if isinstance(env.get("__bare", []), list) else None
            return f"goal.{fn.names[fn.places[k][0]]}"
        body2 = re.sub(r"tie\.([^\s()]+)(?: invariant-\S+| decreases-\S+)*", bare, body2)
        bares = env.pop("__bare", [])
        env = {v: p for v, p in env.items() if v}
        if bares and not env:
            # `lemma : tie.X → ..` with its first parameter of that place
            mm = re.search(r"^\s*(\S+) (\S+)(?: \S+)* =", body2.split("\n", 1)[1] if "\n" in body2 else "", re.M)
            if mm:
                env[mm[2]] = (bares[0], mm[2])
        ans.append(turn_paths(fn, body2, env) + ("\n" if not body2.endswith("\n") else ""))
    mod = f"Rattle.{fn.crate}.proofs." + fn.path.replace("/", ".")
    title = [l for l in head if l.strip()][:4]
    out = {}
    if inv:
        out["Invariants.antt"] = "\n".join(title + uses + [f"use {mod}.Given as goal", ""] + inv).rstrip() + "\n"
    if ans:
        out["Answers.antt"] = "\n".join(title + uses + [f"use {mod}.Goals as goal", ""] + ans).rstrip() + "\n"
    return out


def main(argv):
    crate, names, only = argv[0], json.load(open(argv[1])), argv[2:]
    top = f"crates/{crate}/proofs"
    for folder, _, files in sorted(os.walk(top)):
        if "Proof.antt" not in files:
            continue
        path = os.path.relpath(folder, top)
        if only and path not in only and os.path.basename(path) not in only:
            continue
        key = f"Rattle-{crate}-proofs." + path.replace("/", ".") + ".Lts"
        text = open(os.path.join(folder, "Proof.antt"), encoding="utf-8").read()
        if "tie.close" not in text or "needs" not in names.get(key, {}):
            print(f"by hand: {path}" + ("" if key in names else " (no names)"))
            continue
        fn = Fn(crate, path, names[key])
        walked = re.search(r"tie\.(After|Then|Else|At|In|Joined|Start)", text)
        out = turn_walk(fn, text) if walked else turn(fn, text)
        os.makedirs(f"/tmp/old/{crate}/{path}", exist_ok=True)
        os.replace(os.path.join(folder, "Proof.antt"), f"/tmp/old/{crate}/{path}/Proof.antt")
        for name, t in out.items():
            with open(os.path.join(folder, name), "w", encoding="utf-8") as f:
                f.write(t)
        if fn.left:
            print(f"left: {path}: {', '.join(fn.left[:8])}")


if __name__ == "__main__":
    main(sys.argv[1:])
