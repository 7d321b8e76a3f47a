"""allowed: lists of what may stay as it is, for tools/check/docs and tools/check/style. A list begins as what there is, and may only shrink: a check
fails if it finds more than its list allows, and `--shrink` takes out of the list what is found no more; nothing adds to it but a person."""
import collections, os

HEAD = '# What check/%s lets pass, and how often; nothing may be added. `tools/check/%s --shrink` takes out what is not there any more.\n'


class Allowed:
    def __init__(self, check):
        self.check = check
        self.path = os.path.join(os.path.dirname(os.path.abspath(__file__)), '..', 'check', check + '.allow')
        self.counts = collections.OrderedDict()
        if os.path.exists(self.path):
            for line in open(self.path, encoding='utf-8'):
                if line.strip() and not line.startswith('#'):
                    count, key = line.rstrip('\n').split(' ', 1)
                    self.counts[key] = int(count)

    def judge(self, found, shrink=False):
        """`found` is a list of (key, where). Returns the lines to print for what is over, and how many are allowed and could go."""
        places = collections.OrderedDict()
        for key, where in found:
            places.setdefault(key, []).append(where)
        over = []
        for key, at in places.items():
            if len(at) > self.counts.get(key, 0):
                over += ['%s: %s%s' % (w, key, ' (%d, and %d may stay)' % (len(at), self.counts[key]) if key in self.counts else '') for w in at]
        spare = sum(max(0, n - len(places.get(key, []))) for key, n in self.counts.items())
        if shrink:
            kept = [(min(n, len(places.get(key, []))), key) for key, n in self.counts.items()]
            self.write([(n, key) for n, key in kept if n])
        return over, spare

    def write(self, rows):
        with open(self.path, 'w', encoding='utf-8') as file:
            file.write(HEAD % (self.check, self.check) + ''.join('%d %s\n' % row for row in rows))
