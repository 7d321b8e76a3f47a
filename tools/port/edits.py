#!/usr/bin/env python3
"""Brings the wrong programs, must-fail/*.edit and mutants/*/*.edit, over to the text of today's Rattle.

usage: tools/port/edits.py [--write] [--all] [PATH..]      at the top of the repository
       tools/port/edits.py --check [CRATE..]               counts the edits that do not fit today's text, and names them

An edit fits if each `old:` stands exactly once in its file, in order, over what the earlier ones made. For one that does not, the file as it
landed (commit LANDED) and the same with the edit are both turned to today's spelling, token by token; what differs between the two is
carried to the place in today's file that stands for it, found by aligning the tokens of both. Said are the lines that come out; --write
writes them. What has no such place is named, to be done by hand. --all looks at the edits that fit too, and names those that now mean
something else than they did.
"""

import difflib
import functools
import os
import re
import subprocess
import sys

LANDED = "056dedc8"
ROOT = os.path.realpath(os.path.join(os.path.dirname(os.path.abspath(__file__)), "..", ".."))
NAME = r"[^\s(){}.;,@\"«»`\[\]:|⌜⌝]+"
TOKEN = re.compile(rf"«[^»\n]*»|{NAME}(?:\.{NAME})*|\.{NAME}(?:\.{NAME})*|::|\|\||.", re.S)
STOPS = set("= → ≡ ++ ∷ + * , ; : . && || × < ≤ - % { } λ in let : ∧ ∨ ⊎ ≢ ⌜ ⌝ | @ ' ← — -- use pub record where <= ∈".split()) | {"(", ")"}
WORDS = {"getD": "get_or"}


def git(*words):
    return subprocess.run(["git", *words], cwd=ROOT, capture_output=True, text=True, encoding="utf-8").stdout


def read(path):
    with open(path, encoding="utf-8") as f:
        return f.read()


def pairs(text):
    """The (file, old, new) of an edit, as rt reads them."""
    out, path, old = [], "", ""
    for line in text.split("\n"):
        if line.startswith("file: "):
            path = line[6:]
        elif line.startswith("old: "):
            old = line[5:]
        elif line.startswith("new:"):
            out.append((path, old, re.sub("^ ", "", line[4:])))
            old = ""
    return out


def fits(crate, text):
    """Whether the edit applies to today's files, and why not."""
    texts, was = {}, {}
    if not pairs(text):
        return "it has no 'old:' and 'new:' pair", texts
    for path, old, new in pairs(text):
        full = os.path.join(ROOT, "crates", crate, path)
        if not os.path.isfile(full):
            return f"there is no file {path}", texts
        if path not in texts:
            texts[path] = was[path] = read(full)
        found = texts[path].count(old) if old else 0
        if found != 1:
            return f"{path} has {found} times: {old[:80]}", texts
        if old == new:
            return f"it changes nothing in {path}", texts
        texts[path] = texts[path].replace(old, new)
    return "", texts


def edit_paths(words):
    every = sorted(p for p in git("ls-files", "crates").split("\n") if p.endswith(".edit"))
    return [p for p in every if not words or any(p == w or p.startswith(f"crates/{w}/") for w in words)]


@functools.lru_cache(None)
def names():
    table, met = {}, {}
    for line in read(os.path.join(ROOT, "tools/port/names.txt")).split("\n"):
        if line.startswith("met: "):
            old, rest = line[5:].split("\t", 1)
            met[old] = rest.split("is there already: ")[1].split("\t")[0]
        elif "\t" in line:
            old, new = line.split("\t")[:2]
            table[old] = new
    return table | met | WORDS


@functools.lru_cache(None)
def landed(path):
    return git("show", f"{LANDED}:{path}")


def renamed(word):
    table = names()
    return ".".join(table.get(w, w) for w in word.split(".")) if word not in table else table[word]


def tokens(text):
    return [(m[0], m.start(), m.end()) for m in TOKEN.finditer(text) if not m[0].isspace()]


def turned(text):
    """A landed term in today's spelling: names, and projections written tight. Lines stay lines."""
    # each item: its text with the space before it, and whether it is an atom
    stack, starts = [[]], []
    text = re.sub(r"(?<=[\s)])\.«(\w+)»", r".\1", text)
    text = re.sub(r"(?<=[{, ])_([^\w\s]+)_(?=[}, ])", r"◌\1◌", text)

    def close(items):
        return "".join(s for s, _ in items)

    space = ""
    for m in TOKEN.finditer(text):
        t = m[0]
        if t.isspace():
            space += t
            continue
        items = stack[-1]
        if t == "(":
            stack.append([])
            starts.append(space)
        elif t == ")" and len(stack) > 1:
            inner, before = stack.pop(), starts.pop()
            body = close(inner) + space
            single = len(inner) == 1 and inner[0][1] and "." in inner[0][0].strip()
            piece = body.strip() if single else "(" + body + ")"
            stack[-1].append((before + piece, True))
        elif t[0] == "." and len(t) > 1 and items:
            # a projection of the application in front of it
            k = len(items)
            while k > 0 and items[k - 1][1]:
                k -= 1
            atoms = items[k:]
            field = ".".join(names().get(w, w) for w in t[1:].replace("«", "").replace("»", "").split("."))
            if not atoms:
                items.append((space + "." + field, True))
            elif len(atoms) == 1:
                items[k:] = [(atoms[0][0] + "." + field, True)]
            else:
                lead = re.match(r"\s*", atoms[0][0])[0]
                items[k:] = [(lead + "(" + close(atoms)[len(lead):] + ")." + field, True)]
        else:
            word = renamed(t)
            items.append((space + word, t not in STOPS and not re.fullmatch(r"[^\w«◌′'\"\[\]]+", t)))
        space = ""
    while len(stack) > 1:
        inner, before = stack.pop(), starts.pop()
        stack[-1].append((before + "(", False))
        stack[-1].extend(inner)
    text = close(stack[0]) + space
    text = re.sub(r"«(\w+)»\.", r"\1.", text)
    return re.sub(r"(\.)«(\w+)»", r"\1\2", text)


CLAUSE = re.compile(r"(?:requires|ensures)\s*\*?\s*(?:\w+\s*)?\{")


def rust_turned(text):
    """The clauses of a landed file of src/ turned, and the rest as it is."""
    out, at = [], 0
    for m in CLAUSE.finditer(text):
        if m.start() < at:
            continue
        out.append(text[at : m.end()])
        depth, end = 1, m.end()
        while depth and end < len(text):
            depth += {"{": 1, "}": -1}.get(text[end], 0)
            end += 1
        piece = text[m.end() : end]
        piece = re.sub(r"λ\s+r\s*\.\s", "", piece)
        piece = re.sub(r"[⌜⌝]", " ", piece)
        piece = turned(piece)
        piece = re.sub(r"(?<![\w.'-])r(?![\w'-])", "result", piece)
        piece = re.sub(r"\bnow (\w+)\.exit\b", r"\1.new", piece)
        piece = re.sub(r"\(now (\w+)\.entry\)", r"\1.now", piece)
        piece = re.sub(r"\(([\w.]+\.(?:new|now))\)", r"\1", piece)
        out.append(piece)
        at = end
    return "".join(out + [text[at:]])


def turn_file(path, text):
    if path.endswith(".rt"):
        return rust_turned(text)
    return turned(text)


def today_path(crate, path):
    if not os.path.exists(os.path.join(ROOT, "crates", crate, path)) and path.endswith("specs/Contracts.antt"):
        return path.replace("Contracts.antt", "ContractClaims.antt")
    return path


def strip_marks(word):
    return word.replace("«", "").replace("»", "")


class Left(Exception):
    pass


def carried(crate, path, was, wrong):
    """Today's text of a file with what makes `wrong` of `was`, the file as it landed."""
    full = os.path.join(ROOT, "crates", crate, today_path(crate, path))
    if not os.path.isfile(full):
        raise Left("the file is gone: " + path)
    here = read(full)
    a, b = turn_file(path, was), turn_file(path, wrong)
    ta, tb, th = tokens(a), tokens(b), tokens(here)
    wa, wb, wh = [strip_marks(t[0]) for t in ta], [strip_marks(t[0]) for t in tb], [strip_marks(t[0]) for t in th]
    place, other = {}, {}
    for tag, i1, i2, j1, j2 in difflib.SequenceMatcher(None, wa, wh, autojunk=False).get_opcodes():
        if tag == "equal":
            for k in range(i2 - i1):
                place[i1 + k] = j1 + k
        elif tag == "replace" and i2 - i1 == j2 - j1:
            for k in range(i2 - i1):
                place[i1 + k] = j1 + k
                other.setdefault(wa[i1 + k], {}).setdefault(wh[j1 + k], 0)
                other[wa[i1 + k]][wh[j1 + k]] += 1
    same = set(wa[i] for i, j in place.items() if wa[i] == wh[j])
    known = {w: max(ws, key=ws.get) for w, ws in other.items() if w not in same}
    changes = []
    notes = []
    for tag, i1, i2, j1, j2 in difflib.SequenceMatcher(None, wa, wb, autojunk=False).get_opcodes():
        if tag == "equal":
            continue
        if i1 == i2:
            if i1 - 1 not in place and i1 not in place:
                raise Left("no place for what is put in: " + " ".join(wb[j1:j2]))
            # before the token that follows it, or behind the one in front of it
            if i1 - 1 in place and i1 in place and place[i1] != place[i1 - 1] + 1:
                notes.append("the place of what is put in is not certain")
            h1 = h2 = place[i1 - 1] + 1 if i1 - 1 in place else place[i1]
        else:
            if any(k not in place for k in range(i1, i2)):
                raise Left("no place for: " + " ".join(wa[i1:i2]))
            h1, h2 = place[i1], place[i2 - 1] + 1
            if h2 - h1 != i2 - i1:
                raise Left("the place is longer: " + " ".join(wa[i1:i2]) + " / " + " ".join(wh[h1:h2]))
            if [known.get(w, w) for w in wa[i1:i2]] != wh[h1:h2]:
                notes.append("reads otherwise: " + " ".join(wa[i1:i2]) + " / " + " ".join(wh[h1:h2]))
        piece = []
        for k in range(j1, j2):
            gap = b[tb[k - 1][2] : tb[k][1]] if k > j1 else ""
            piece.append(re.sub(r"\s+", " ", gap) + known.get(tb[k][0], tb[k][0]))
        changes.append((h1, h2, "".join(piece)))
    out, at = [], 0
    for h1, h2, piece in changes:
        if h1 < h2:
            start, end = th[h1][1], th[h2 - 1][2]
            gone = here[start:end]
            lines = gone.count("\n")
            if lines:
                # keep each line a line
                piece = piece + "".join("\n" + re.match(r"[ \t]*", l)[0] for l in gone.split("\n")[1:])
        else:
            start = end = th[h1 - 1][2] if h1 > 0 else 0
            piece = ("" if piece[:1] in ",);." else " ") + piece if h1 > 0 and piece else piece
        out.append(here[at:start] + piece)
        at = end
    return here, "".join(out + [here[at:]]), notes


def tidied(line):
    line = re.sub(r"(?<=\S) +(?=[,);])", "", re.sub(r"(?<=\S)  +(?=\S)", " ", line))
    return re.sub(r",(?=[^\s])", ", ", re.sub(r"(?<=[({])(?<!record \{) +(?=\S)", "", line)) if line.startswith("use ") else re.sub(r"(?<=\() +(?=\S)", "", line).rstrip()


def written(here, wrong, hints):
    """Pairs old and new, line by line, that make `wrong` of `here`."""
    for group in (hints[: hints.index(None)], hints[hints.index(None) + 1 :]):
        text = here
        for old, new in group:
            if text.count(old) != 1:
                break
            text = text.replace(old, new)
        else:
            if same_tokens(text, wrong):
                return group, text
    hints = [h for h in hints if h]
    lines, others = here.split("\n"), wrong.split("\n")
    if len(lines) != len(others):
        raise Left("the lines do not go one for one")
    out, text = [], here
    for i, (x, y) in enumerate(zip(lines, others)):
        if x == y:
            continue
        y = tidied(y) if y.strip() else ""
        # the hint's own extent, if the landed edit named a part of a line
        for old, new in hints:
            if x.count(old) == 1 and x.replace(old, new) == y and text.count(old) == 1:
                x, y = old, new
                break
        else:
            ind = len(x) - len(x.lstrip())
            if text.count(x[ind:]) == 1 and y.startswith(x[:ind]):
                x, y = x[ind:], y[ind:]
        if text.count(x) != 1:
            raise Left("the line stands more than once: " + x.strip())
        text = text.replace(x, y)
        out.append((x, y))
    return out, text


def bring(path):
    """The edit as it is to read today, with notes."""
    crate = path.split("/")[1]
    old_text, today = landed(path), read(os.path.join(ROOT, path))
    head = [l for l in today.split("\n") if l.startswith("#") or l.startswith("-- ") or l.startswith("in: ")]
    by_file, order = {}, []
    for file, old, new in pairs(old_text):
        if file not in by_file:
            by_file[file] = [landed(f"crates/{crate}/{file}")] * 2
            order.append(file)
        if by_file[file][1].count(old) != 1:
            raise Left(f"it did not fit where it landed: {file}: {old}")
        by_file[file][1] = by_file[file][1].replace(old, new)
    out, notes, results = list(head), [], {}
    for file in order:
        was, wrong = by_file[file]
        here, made, said = carried(crate, file, was, wrong)
        notes += said
        hints = [(turn_hint(file, o), turn_hint(file, n)) for f, o, n in pairs(old_text) if f == file]
        hints += [None] + [(o, n) for f, o, n in pairs(today) if f == today_path(crate, file)]
        ps, text = written(here, made, hints)
        results[today_path(crate, file)] = text
        out.append(f"file: {today_path(crate, file)}")
        for o, n in ps:
            out += [f"old: {o}", f"new: {n}".rstrip() if not n else f"new: {n}"]
    return "\n".join(out) + "\n", notes, results


def turn_hint(file, text):
    if file.endswith(".rt"):
        return text if "⌜" not in text and "now (" not in text else rust_turned("ensures {" + text + "}")[9:-1].strip()
    return turned(text)


def same_tokens(x, y):
    return [t[0] for t in tokens(x)] == [t[0] for t in tokens(y)]


def main(argv):
    words = [a for a in argv if not a.startswith("--")]
    every = edit_paths(words)
    misfits = {}
    texts = {}
    for p in every:
        why, texts[p] = fits(p.split("/")[1], read(os.path.join(ROOT, p)))
        if why:
            misfits[p] = why
    if "--check" in argv:
        for p, why in misfits.items():
            print(f"{p}: {why}")
        print(f"{len(every)} edits, {len(misfits)} do not fit")
        return 1 if misfits else 0
    done = by_hand = differ = 0
    for p in every:
        if p not in misfits and "--all" not in argv:
            continue
        try:
            text, notes, results = bring(p)
        except Left as why:
            print(f"== {p}\nleft: {why}")
            by_hand += 1
            continue
        if p not in misfits:
            # it fits: does it mean the same?
            if set(results) == set(texts[p]) and all(same_tokens(results[f], texts[p][f]) for f in results):
                continue
            differ += 1
            print(f"== {p}\ndiffers; it stands:\n{read(os.path.join(ROOT, p))}would be:\n{text}notes: {notes}")
            continue
        print(f"== {p}\n{text}" + "".join(f"note: {n}\n" for n in notes))
        done += 1
        if "--write" in argv and not notes:
            with open(os.path.join(ROOT, p), "w", encoding="utf-8") as f:
                f.write(text)
    print(f"{len(every)} edits; {len(misfits)} do not fit; {done} brought over, {by_hand} left; {differ} differ")
    return 0


if __name__ == "__main__":
    sys.exit(main(sys.argv[1:]))
