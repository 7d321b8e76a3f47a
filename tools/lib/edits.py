"""edits: wrong programs as edits of a crate, read as rt reads them. Used by check/edits and run/mutants.

An edit is a file of lines: `# ` and a full sentence that says what the wrong program does; if it is known, a second line `# ` with the fact that
refuses it; then `file: PATH` in the crate and pairs of `old: TEXT`, which must stand there exactly once, and `new: TEXT`.
crates/NAME/must-fail/LABEL.edit is tried by the gate, crates/NAME/mutants/MODULE/LABEL.edit by `make mutants`; MODULE is the module whose text
the edit changes, or the file of specs/, written as a module is: connect_reply for ConnectReply."""
import glob, os, re

ROOT = os.path.realpath(os.path.join(os.path.dirname(os.path.abspath(__file__)), '..', '..'))


class Bad(Exception):
    """Why an edit does not apply."""


class Edit:
    def __init__(self, path):
        self.path = os.path.relpath(path, ROOT)
        parts = self.path.split('/')
        self.crate, self.kind, self.label = parts[1], parts[2], '/'.join(parts[3:])[:-len('.edit')]
        self.head, self.pairs = [], []
        file = old = ''
        with open(path, encoding='utf-8') as lines:
            self.text = lines.read()
        for line in self.text.split('\n'):
            if line.startswith('file: '):
                file = line[6:]
            elif line.startswith('old: '):
                old = line[5:]
            elif line.startswith('new:'):
                self.pairs.append((file, old, re.sub('^ ', '', line[4:])))
                old = ''
            elif line.startswith('#') and not self.pairs and not file:
                self.head.append(line)

    def module(self):
        """The module, or the file of specs/ in the letters of a module, whose text is changed first: ConnectReply is connect_reply."""
        name = os.path.splitext(os.path.basename(self.pairs[0][0]))[0]
        return re.sub('(?<=[a-z0-9])(?=[A-Z])', '_', name).lower()

    def applied(self):
        """The changed files by their path in the crate."""
        texts = {}
        if not self.pairs:
            raise Bad("it has no 'old:' and 'new:' pair")
        for file, old, new in self.pairs:
            path = os.path.join(ROOT, 'crates', self.crate, file)
            if not re.match('(src|specs|proofs)/', file) or not os.path.isfile(path):
                raise Bad('there is no file %s' % file)
            if file not in texts:
                with open(path, encoding='utf-8') as lines:
                    texts[file] = lines.read()
            count = texts[file].count(old) if old else 0
            if count != 1:
                raise Bad("the text 'old: %s' is in %s %s" % (old[:60], file, 'more than once' if count else 'not once'))
            if old == new:
                raise Bad('it changes nothing in %s' % file)
            texts[file] = texts[file].replace(old, new)
        return texts


def edits(kind, crates=None):
    """The edits of a kind, must-fail or mutants, of all crates or of those that are named, by crate and label."""
    pattern = 'crates/*/must-fail/*.edit' if kind == 'must-fail' else 'crates/*/mutants/*/*.edit'
    found = [Edit(path) for path in sorted(glob.glob(os.path.join(ROOT, pattern)))]
    return [e for e in found if not crates or e.crate in crates]
