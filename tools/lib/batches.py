"""batches: which wrong programs can be tried together, and what the prover says of each of them. Used by run/mutants.

A function is proved by its own text and by the contracts of what it calls. So edits in the bodies of functions that do not reach one another by
calls can be made at once: a message on one of these functions is about its edit alone. Edits of definitions, contracts, types and constants are
tried one by one."""
import os, re
from edits import ROOT


class Function:
    """A function of a crate: its file, its name, its lines, the line on which its body begins, and the names that stand before a parenthesis in it."""

    def __init__(self, file, name, start, body, end, calls):
        self.file, self.name, self.start, self.body, self.end, self.calls = file, name, start, body, end, calls

    def module(self):
        stem = os.path.splitext(os.path.relpath(self.file, 'src'))[0]
        return '' if stem in ('lib', 'main') else stem

    def path(self):
        """As the prover names it, without the crate."""
        return '::'.join(part for part in (self.module().replace('/', '::'), self.name) if part)

    def proofs(self):
        """The folder of its proof."""
        return '/'.join(part for part in ('proofs', self.module(), self.name) if part) + '/'


def functions_in(file, text):
    """The functions of a file; methods are left out."""
    found, lines, i = [], text.split('\n'), 0
    while i < len(lines):
        begun = re.match(r'(?:pub(?:\([a-z]+\))? )?(?:extern "C" )?fn (\w+)', lines[i])
        if begun:
            body = next(k for k in range(i, len(lines)) if lines[k].endswith('{'))
            end = next(k for k in range(body, len(lines)) if lines[k] == '}')
            calls = set(re.findall(r'\b(\w+)\s*(?:::<[^>]*>)?\(', '\n'.join(lines[body:end])))
            found.append(Function(file, begun.group(1), i, body, end, calls))
            i = end
        i += 1
    return found


class Crate:
    """The functions of a crate, and which of them reach which."""

    def __init__(self, name):
        self.functions, folder = [], os.path.join(ROOT, 'crates', name)
        for path, _, names in os.walk(os.path.join(folder, 'src')):
            for file in sorted(names):
                full = os.path.join(path, file)
                with open(full, encoding='utf-8') as text:
                    self.functions += functions_in(os.path.relpath(full, folder), text.read())
        named = {}
        for f in self.functions:
            named.setdefault(f.name, []).append(f)
        self.below = {f: self.reached(f, named) for f in self.functions}

    def reached(self, f, named):
        """The functions that `f` reaches, by the names of its calls."""
        seen, todo = set(), [f]
        while todo:
            for name in todo.pop().calls:
                for g in named.get(name, []):
                    if g not in seen:
                        seen.add(g)
                        todo.append(g)
        return seen

    def changed(self, edit):
        """The one function in whose body alone the edit is; none if there is no such."""
        places = set()
        for file, old, _ in edit.pairs:
            with open(os.path.join(ROOT, 'crates', edit.crate, file), encoding='utf-8') as lines:
                text = lines.read()
            line = text[:text.index(old)].count('\n')
            places.add(next((f for f in self.functions if f.file == file and f.body < line < f.end), None))
        return places.pop() if len(places) == 1 else None

    def apart(self, f, g):
        return f is not g and f not in self.below[g] and g not in self.below[f]


class Batch:
    """Edits of a crate that are tried together, each with the function that it changes; or one edit, with none."""

    def __init__(self, edit, function=None):
        self.crate, self.edits, self.functions, self.texts = edit.crate, [edit], [function], edit.applied()

    def takes(self, crate, edit, function):
        """Adds an edit, if its function is apart from all that are changed and its text stands where it stood."""
        if not all(crate.apart(function, f) for f in self.functions):
            return False
        texts = dict(self.texts)
        for file, old, new in edit.pairs:
            if file not in texts:
                with open(os.path.join(ROOT, 'crates', edit.crate, file), encoding='utf-8') as text:
                    texts[file] = text.read()
            if texts[file].count(old) != 1:
                return False
            texts[file] = texts[file].replace(old, new)
        self.texts = texts
        self.edits.append(edit)
        self.functions.append(function)
        return True


def batches(edits):
    """The edits of one crate after the other in batches, in their order."""
    found, crate, open_, name = [], None, [], ''
    for edit in edits:
        if edit.crate != name:
            name, crate, open_ = edit.crate, Crate(edit.crate), []
        function = crate.changed(edit)
        if function is None:
            found.append(Batch(edit))
        elif not any(batch.takes(crate, edit, function) for batch in open_):
            open_.append(Batch(edit, function))
            found.append(open_[-1])
    return found


def said_of(crate, function, messages):
    """What the prover says of a function: its messages, with the line on the function last; nothing if it is proved, or is not only because of what
    it calls."""
    line = next((m for m in messages if re.match(r'fn %s::%s: (?!proved)' % (crate, re.escape(function.path())), m)), None)
    own = [m for m in messages if is_about(crate, function, m)]
    return '\n'.join(own + [line]) if line and any(': error: ' in m.split('\n')[0] or m.startswith('note: ') for m in own) else ''


def is_about(crate, function, message):
    """Whether the first place that a message names is in the function or in its proof."""
    place = re.search(r'crates/%s/(\S+?):(\d+):\d+' % crate, message.split('\n')[0])
    if not place or not re.match(r'crates/|note: ', message):
        return False
    return place.group(1).startswith(function.proofs()) or (
        place.group(1) == function.file and function.start <= int(place.group(2)) - 1 <= function.end)
