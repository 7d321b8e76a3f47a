"""audit_program: the program `audit` run on sessions, and its lines taken apart. Used by run/audit, compare/audit, test/damage-archive and test/receiver."""
import os, re, subprocess

PROGRAM = os.environ.get('AUDIT', os.path.join(os.path.dirname(os.path.abspath(__file__)), '..', '..', 'target', 'bin', 'audit'))
BATCH = 400


def is_built():
    return os.access(PROGRAM, os.X_OK)


def lines_of(folders, *options):
    """The lines of each session, without the line of all counts, which must be the sum of the others."""
    found = []
    for at in range(0, len(folders), BATCH):
        part = folders[at:at + BATCH]
        text = subprocess.run([PROGRAM, *options, *part], capture_output=True, check=True).stdout.decode('latin-1')
        *lines, last = text.rstrip('\n').split('\n')
        sessions = []
        for line in lines:
            if line.startswith('session '):
                sessions.append([])
            sessions[-1].append(line)
        counts = [re.fullmatch(r'records (\d+), same (\d+), grave (\d+)', s[-1]) for s in sessions]
        sums = [sum(int(m.group(k)) for m in counts if m) for k in (1, 2, 3)]
        sums[2] += sum(m is None for m in counts)
        if len(sessions) != len(part) or last != 'sessions %d records %d same %d grave %d' % (len(part), *sums):
            raise ValueError('%s prints %d sessions of %d, and %s' % (PROGRAM, len(sessions), len(part), last))
        found += sessions
    return found
