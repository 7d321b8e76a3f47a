#!/usr/bin/env python3
"""Brings the definitions and lemmas of this repository to the spelling of today's Rattle, after port.py has run.

usage: tools/port/respell.py [--check]      at the top of the repository

A definition, a field or a lemma in mixed case becomes snake case: `packetDone` to `packet_done`. A dash stays in a lemma's name only
between two names of definitions, as in `paste-length`; elsewhere it becomes an underscore: `goes-on-fine` to `goes_on_fine`. A module
alias with a dash gets an underscore. Names of src/ stay, and so do the names that Rattle makes (`returns-then-c`), exported names, strings,
inputs and outputs. A name whose new spelling some file has already in another meaning gets the ending `_of`.
The module `specs.Contracts` of a crate becomes `specs.ContractClaims`, since Rattle makes a module of that name.
Turned are files of specs/ and proofs/, clauses and comments of src/, and the lines of must-fail/ and mutants/. It prints the table that it
used, old and new; --check writes nothing else.
"""

import collections
import os
import re
import sys

WORD = re.compile(r'[^\s(){}.;,@"«»`\[\]:|]+')
DECLARED = re.compile(
    r"^(?:  )*((?:(?:abbrev|unfoldable|pub|data|record|mutual)\s+)*)([^\s(){}.;,@\"]+)(?: \{[^{}\n]*\})* :(?= )", re.M
)
ALIAS = re.compile(r"^use \S+ as (\S+)$", re.M)
COMMENT = re.compile(r"--[^\n]*")
# Words of the library that a lemma's name may have as a part.
KNOWN = set(
    "length take drop get_or append set nth paste sets fill map filter reverse sum replicate cond pick eqb ltb leb not min max suc zero "
    "succ add sub mul div mod pow lt le eq ne true false none some ok err head tail cons nil".split()
)
MADE = re.compile(
    r"^(returns|loop|in|if|then|else|overflow_|bounds|slice_|invariant|decreases|shared|enum|same_length|match|range|nonzero|offset|cast)(-|_|$)"
)


def files(root):
    for top, folders, names in os.walk(os.path.join(root, "crates")):
        folders[:] = sorted(f for f in folders if f != "out")
        for name in sorted(names):
            yield os.path.join(top, name)


def read(path):
    with open(path, encoding="utf-8") as f:
        return f.read()


def snake(word):
    word = re.sub(r"(?<=[a-z0-9])([A-Z])", r"_\1", word)
    return re.sub(r"(?<=[A-Z])([A-Z][a-z])", r"_\1", word).lower() if word[:1].islower() or word[:1] == "_" else word


def own_file(path):
    return re.search(r"/(specs|proofs)/", path) and path.endswith(".antt") and os.path.basename(path) not in ("Proof.antt", "Answers.antt")


def table(root):
    texts = {p: read(p) for p in files(root) if p.endswith((".antt", ".rt"))}
    definitions, lemmas, aliases = set(), set(), set()
    for path, text in texts.items():
        if not path.endswith(".antt"):
            continue
        aliases |= {m[1] for m in ALIAS.finditer(text) if "-" in m[1]}
        if not own_file(path):
            continue
        for m in DECLARED.finditer(COMMENT.sub("", text)):
            (definitions if "/specs/" in path or "abbrev" in m[1] or "unfoldable" in m[1] else lemmas).add(m[2])
    names = {snake(n).lower() for n in definitions if len(n) > 2} | KNOWN

    def dashes(word):
        parts = word.split("-")
        out = parts[0]
        for before, part in zip(parts, parts[1:]):
            out += ("-" if before.rstrip("'").lower() in names and part.rstrip("'").lower() in names else "_") + part
        return out

    wanted = {}
    for name in sorted(definitions | lemmas):
        if not re.match(r"^[A-Za-z][\w'-]*$", name) or re.fullmatch(r"(\w+)-spec", name):
            continue
        parts = [snake(p) if p[:1].islower() else p for p in name.split("-")]
        new = dashes("-".join(parts))
        if new != name:
            wanted[name] = new
    for name in aliases:
        wanted[name] = name.replace("-", "_")

    # where a new name is, or would be, another name of the same file; a definition may have the name of a function
    words = {}
    for path, text in texts.items():
        if path.endswith(".antt"):
            bare = COMMENT.sub("", text)
            words[path] = {m[0] for m in WORD.finditer(bare) if bare[m.start() - 1 : m.start()] != "."}
    every = collections.Counter(w for ws in words.values() for w in ws)
    for path, text in texts.items():
        if path.endswith(".rt"):
            bare = re.sub(r"//[^\n]*", "", text)
            own = set(re.findall(r"\b([a-z_]\w*)\s*:(?!:)", bare)) | set(re.findall(r"\b(?:const|let(?: mut)?) (\w+)", bare))
            words[path] = own | set(WORD.findall(" ".join(re.findall(r"ghost use [^;]*;", text))))
    taken = collections.Counter(wanted.values())
    said = []
    for name, new in sorted(wanted.items(), key=lambda it: (it[0] not in definitions, it[0])):
        met = [p for p, ws in words.items() if name in ws and new in ws]
        twice = taken[new] > 1 and name not in definitions and name not in aliases
        if (met and name not in aliases) or twice:
            other = new + ("_of" if name in definitions else "_lem")
            while every[other] or taken[other]:
                other += "'"
            taken[other] += 1
            said.append((name, new, other + "\t" + " ".join(met[:2])))
            wanted[name] = other
    return wanted, said


def turned(text, names):
    return WORD.sub(lambda m: names.get(m[0], m[0]), text)


def tidy_imports(text):
    """An import 'a as b' that reads 'x as x' now is 'x'."""
    return re.sub(r"(?<![\w'])([\w'-]+) as \1(?![\w'-])", r"\1", text)


CLAUSE = re.compile(r"(?:requires|ensures)\s*\*?\s*(?:\w+\s*)?\{|ghost\s*(?:\w+\s*(?::\s*)?)?\{|ghost use [^;]*;|//[^\n]*")


def rust_text(text, names):
    out, at = [], 0
    for m in CLAUSE.finditer(text):
        if m.start() < at:
            continue
        out.append(text[at : m.start()])
        end = m.end()
        if m[0].endswith("{"):
            depth = 1
            while depth and end < len(text):
                depth += {"{": 1, "}": -1}.get(text[end], 0)
                end += 1
        piece = text[m.start() : end]
        if piece.startswith("//"):
            piece = re.sub(r"`[^`\n]*`", lambda s: turned(s[0], names), piece)
            piece = WORD.sub(lambda w: names[w[0]] if w[0] in names and re.search("[a-z][A-Z]", w[0]) else w[0], piece)
        else:
            piece = turned(piece, names)
        out.append(piece)
        at = end
    return "".join(out + [text[at:]])


def main(argv):
    root = "."
    names, said = table(root)
    for name, new in sorted(names.items()):
        print(f"{name}\t{new}")
    for name, new, other in said:
        print(f"met: {name}\t{new} is there already: {other}")
    if "--check" in argv:
        return
    for path in list(files(root)):
        if path.endswith("/specs/Contracts.antt"):
            os.rename(path, path.replace("Contracts.antt", "ContractClaims.antt"))
    for path in files(root):
        if path.endswith(".antt"):
            text = read(path)
            new = tidy_imports(turned(text, names))
            new = re.sub(r"(Rattle\.\w+\.specs\.)Contracts\b", r"\1ContractClaims", new)
            if path.endswith("/specs/Lib.antt"):
                new = re.sub(r"^(pub mod )Contracts$", r"\1ContractClaims", new, flags=re.M)
        elif path.endswith(".rt"):
            text = read(path)
            new = rust_text(text, names)
        elif path.endswith(".edit"):
            text = read(path)
            mixed = {n: v for n, v in names.items() if re.search("[a-z0-9][A-Z]|-", n)}
            new = turned(text, mixed).replace("file: specs/Contracts.antt", "file: specs/ContractClaims.antt")
        else:
            continue
        if new != text:
            with open(path, "w", encoding="utf-8") as f:
                f.write(new)


if __name__ == "__main__":
    main(sys.argv[1:])
