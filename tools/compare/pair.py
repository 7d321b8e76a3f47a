#!/usr/bin/env python3
"""compare/pair.py: the scripts of the program `pair`, played on a transcription of the definitions (tools/compare/link.py) instead of the client and
the engine. It prints what `pair` must print, whether that passes bytes on whole or shuffles them.

Usage: compare/pair.py < SCRIPT                         prints the answers
       compare/pair.py --make N [--seed K] > SCRIPT     prints N random sessions
       compare/pair.py --compare PROGRAM [--shuffle SEED] < SCRIPT    plays the script on both; the last line is 'compared N different D'

A script: `session` | `client LIMIT on|off` | `server LIMIT on|off PUTLIMIT [password] [trailing]` | `server none` | `stores PACKET HEADERS BODY REQUEST` |
`host connect|put|disconnect CODE HEADERS` | `host get object HEADERS nobody|body|failed [BYTES]` | `host get reply CODE HEADERS` | `host nonce BYTES` |
`host password BYTES|none` | `host bytes BYTES` | `connect HEADERS` | `put HEADERS BODY|none PIECE [abort MOMENT K]` | `get HEADERS [abort MOMENT K]` |
`disconnect HEADERS` | `end`, and at a wrong moment `sent`, `body`, `bytes`, `taken`, `abort`. Every other line is passed over.
"""
import argparse, hashlib, os, random, re, subprocess, sys
sys.path.insert(0, os.path.dirname(os.path.abspath(__file__)))
import link as L

LONGEST, ZEROS = 512, bytes(65536)


def unhex(word):
    if word in ('', '-'):
        return b''
    return bytes.fromhex(re.sub(r'\(([0-9a-f]*)\*(\d+)\)', lambda m: m[1] * int(m[2]), word))


def number(word):
    """A decimal number as the program reads it, up to the tenth digit: a sign that is no digit counts as crates/lines has it."""
    n = 0
    for c in word:
        if n < 10 ** 9:
            n = n * 10 + (int(c, 16) if c in '0123456789abcdef' else 0)
    return n


def shown(b):
    if not b:
        return '-'
    return '#%d:%s' % (len(b), hashlib.md5(b).hexdigest()) if LONGEST < len(b) else b.hex()


class Session:
    """One session: both ends, what the host is to answer, and the lines that are printed."""

    def __init__(z):
        z.out, z.records, z.answers, z.alone, z.nonces = [], [], [], False, 1
        z.lent = (65536,) * 4
        z.start_client(L.CS(65535, False))
        z.start_server(L.SS(1048576, 65535, 0, False, False, False, False, False, False, False))

    def start_client(z, settings):
        z.client, z.stores, z.up, z.down = L.c_started(settings), L.St(ZEROS, ZEROS, ZEROS, ZEROS), b'', b''

    def start_server(z, st):
        z.st, z.engine, z.told, z.up, z.down = st, L.v_started(st), ('WantsBytes',), b'', b''
        z.vstores = L.VSt(ZEROS, ZEROS, bytes(1048576), ZEROS)

    # -- the server

    def answer(z, kind):
        for i, words in enumerate(z.answers):
            if words[1] == kind:
                return z.answers.pop(i) + [''] * 6
        return None

    def host(z, request):
        """The call that answers a request."""
        kind = request[1]
        if kind == 'Abort':
            return ('ack',)
        if kind == 'Credentials':
            return ('creds', None)
        if kind == 'Read':
            d, z.content = z.content[:request[2]], z.content[request[2]:]
            return ('failed',) if z.fails and not d else ('body', d)
        w = z.answer(kind.lower())
        if kind == 'Nonce':
            n = unhex(w[2]) if w else b''
            z.nonces += 1
            return ('nonce', n[:16] if 16 <= len(n) else (z.nonces - 1).to_bytes(16, 'big'))
        if kind == 'Password':
            return ('password', unhex(w[2]) if w and w[2] != 'none' else None)
        if w is None:
            return ('reply', 0x51 if kind == 'Get' else 0x20, b'')
        if kind == 'Get' and w[2] == 'object':
            z.content, z.fails = unhex(w[5]), w[4] == 'failed'
            return ('object', unhex(w[3]), w[4] != 'nobody')
        if kind == 'Get':
            return ('reply', int(w[3] or '0', 16), unhex(w[4]))
        return ('reply', int(w[2] or '0', 16), unhex(w[3]))

    def serve(z):
        """Lets the server go on. Returns whether it could."""
        if z.told[0] == 'WantsBytes' and z.up:
            call = ('bytes', z.up)
        elif z.told[0] == 'Reply':
            z.down += z.vstores.reply[:z.told[1]]
            call = ('taken',)
        elif z.told[0] == 'Request':
            call = z.host(z.told)
        else:
            return False
        z.engine, taken, o, z.vstores = L.server_step(z.engine, b'', z.vstores, call)
        z.up = z.up[taken:]
        if o[0] == 'Refused':
            z.out.append('host refused %d' % o[1])
            return True
        z.told = o
        if o[0] == 'Request' and o[1] == 'Put':
            z.records.append('record %s %s' % (shown(z.vstores.headers[:o[2]]), 'none' if o[3] is None else shown(z.vstores.body[:o[3]])))
        return True

    # -- the client

    def lend(z):
        return L.St(*(s[:n] for s, n in zip(z.stores, z.lent)))

    def made(z, step):
        z.client, taken, o, s = step
        z.stores = L.St(*(n + old[len(n):] for n, old in zip(s, z.stores)))
        return taken, o

    def operation(z, name, step, body, piece, moment, number):
        z.out.append('call ' + name)
        seen, fresh, left = 0, True, body
        _, o = z.made(step)
        while True:
            kind = o[0]
            if kind in ('Done', 'Stopped', 'Aborted'):
                z.out.append('%s %02x' % ({'Done': 'done', 'Stopped': 'stopped 25', 'Aborted': 'aborted'}[kind], o[1]))
                return
            if kind in ('End', 'Refused'):
                z.out.append('%s %d' % (kind.lower(), o[1]))
                return
            now = {'Send': 'sent', 'WantsBytes': 'bytes', 'Read': 'body', 'Part': 'taken'}[kind]
            if kind == 'Part' and fresh:
                z.out.append('part headers %s body %s' % (shown(z.stores.headers[:o[1]]), 'none' if o[2] is None else shown(z.stores.body[:o[2]])))
            if now == moment and fresh:
                seen += 1
                if seen - 1 == number:
                    z.out.append('abort at ' + now)
                    _, p = z.made(L.abort_step(z.client, z.lend()))
                    fresh = p[0] != 'Refused'
                    if not fresh:
                        z.out.append('refused %d' % p[1])
                    else:
                        o = p
                    continue
            fresh = True
            if kind == 'Send':
                packet = z.stores.request[:o[1]]
                z.out.append('up ' + shown(packet))
                if not z.alone:
                    z.up += packet
                _, o = z.made(L.request_sent_step(z.client, z.lend()))
            elif kind == 'Read':
                d = left[:o[1] if piece == 0 else min(o[1], piece)]
                left = left[len(d):]
                z.out.append('read %d given %d' % (o[1], len(d)))
                _, o = z.made(L.c_body_step(z.client, d, z.lend()))
            elif kind == 'Part':
                _, o = z.made(L.part_taken_step(z.client, z.lend()))
            else:
                o, fresh = z.wait()

    def wait(z):
        """Waits for bytes, and offers them. Returns the outcome, and whether the client has come to a new moment."""
        if z.alone:
            w = z.down or z.answer('bytes')
            if w and not z.down:
                z.down = unhex(w[2])
        else:
            while not z.down and z.serve():
                pass
        if not z.down:
            z.out.append('end of stream')
            return z.made(L.c_ended_step(z.client, z.lend()))[1], True
        taken, o = z.made(L.c_bytes_step(z.client, z.down, z.lend()))
        z.down = z.down[taken:]
        if taken and z.client.begun == 0:
            z.out.append('down ' + shown(z.stores.packet[:z.client.length]))
        return o, z.client.begun == 0

    # -- lines

    def wrong(z, w):
        c, s = z.client, z.lend()
        z.out.append('end of stream' if w == 'end' else 'call ' + w)
        step = {'sent': L.request_sent_step, 'taken': L.part_taken_step, 'abort': L.abort_step, 'end': L.c_ended_step,
                'body': lambda c, s: L.c_body_step(c, b'', s), 'bytes': lambda c, s: L.c_bytes_step(c, b'', s)}[w](c, s)
        _, o = z.made(step)
        z.out.append('%s %d' % (o[0].lower(), o[1]))

    def line(z, w):
        k = w[0]
        w = w + [''] * 8
        c = z.client
        if k == 'client':
            z.start_client(L.CS(min(number(w[1]), 65535), w[2] == 'on'))
        elif k == 'server':
            z.alone = w[1] == 'none'
            if not z.alone:
                extra = w[4:6]
                z.start_server(L.SS(min(number(w[3]), 1048576), min(number(w[1]), 65535), 0, False, w[2] == 'on', 'password' in extra, False, False, False, 'trailing' in extra))
        elif k == 'stores':
            z.lent = tuple(number(x) for x in w[1:5])
        elif k == 'host':
            z.answers.append([x for x in w])
        elif k == 'connect':
            z.operation(k, L.connect_step(c, unhex(w[1]), z.lend()), b'', 0, None, 0)
        elif k == 'disconnect':
            z.operation(k, L.disconnect_step(c, unhex(w[1]), z.lend()), b'', 0, None, 0)
        elif k == 'put':
            abort = (w[5], number(w[6])) if w[4] == 'abort' else (None, 0)
            body = None if w[2] == 'none' else unhex(w[2])
            z.operation(k, L.request_step(c, 'Put', unhex(w[1]), body is not None, z.lend()), body or b'', number(w[3]), *abort)
        elif k == 'get':
            abort = (w[3], number(w[4])) if w[2] == 'abort' else (None, 0)
            z.operation(k, L.request_step(c, 'Get', unhex(w[1]), False, z.lend()), b'', 0, *abort)
        elif k in ('sent', 'body', 'bytes', 'taken', 'abort', 'end'):
            z.wrong(k)

    def end(z):
        return z.out + z.records + (['server end %d' % z.told[1]] if z.told[0] == 'End' else []) + ['']


KNOWN = {'client', 'server', 'host', 'connect', 'disconnect', 'put', 'get', 'sent', 'body', 'bytes', 'taken', 'abort', 'end', 'stores'}


def play(script):
    """The answers to a script, a list of lines for each session."""
    out, z = [], None
    for text in script.split('\n'):
        w = text.split(' ')
        if w[0] == 'session':
            if z:
                out.append(z.end())
            z = Session()
        elif w[0] in KNOWN:
            if z is None and w[0] != 'stores':
                z = Session()
            if z:
                z.line(w)
    if z:
        out.append(z.end())
    return out


# ---- random sessions

def word(b):
    if not b:
        return '-'
    if 40 < len(b) and len(set(b)) == 1:
        return '(%02x*%d)' % (b[0], len(b))
    return b.hex()


def host_headers(R, most):
    hs = L.headers(R, R.choice((20, most, most)), R.choice((0, 0, 1, 2)))
    return hs if L.plain(hs) and R.random() < .97 else b''


def abort(R, moments):
    return ' abort %s %d' % (R.choice(moments), R.choice((0, 0, 0, 1, 1, 2, 3))) if R.random() < .3 else ''


def body_of(R, capacity, limit):
    n = R.choice((0, 1, 2, capacity - 8, capacity - 3, capacity, capacity + 1, 2 * capacity, limit, limit + 1, R.randrange(3 * min(capacity, 3000))))
    n = max(0, min(n, 150000))
    return R.randbytes(n) if n < 3000 else bytes((R.randrange(256),)) * n


def host_lines(R, capacity):
    """The host's lines of a session, more than it needs."""
    out, limits = [], (20, 252, capacity)
    for _ in range(R.randrange(6)):
        kind = R.choice(('connect', 'put', 'put', 'disconnect', 'get', 'get', 'get'))
        code = R.choice((0x20, 0x20, 0x20, 0x20, 0x21, 0x43, 0x44, 0x50, R.choice(sorted(L.CODES)), R.randrange(256)))
        if code == 0x10:
            code = 0x20
        if kind != 'get':
            out.append('host %s %02x %s' % (kind, code, word(host_headers(R, R.choice(limits)))))
        elif R.random() < .3:
            out.append('host get reply %02x %s' % (code, word(host_headers(R, R.choice(limits)))))
        else:
            what = R.choice(('nobody', 'body', 'body', 'body', 'failed'))
            body = '' if what == 'nobody' else ' ' + word(body_of(R, capacity, 600))
            out.append('host get object %s %s%s' % (word(host_headers(R, capacity)), what, body))
    return out


def responses(R):
    """Lines of bytes for a client that has no server."""
    out = []
    for _ in range(R.randrange(1, 8)):
        code = R.choice((0x90, 0x90, 0x90, 0x10, 0xA0, 0xA0, 0x20, 0xC4, 0xD0, 0xA0, R.randrange(256)))
        hs = R.choice((b'', b'', b'\x97\1', b'\x97\0', L.bytes_of((L.BODY, b'abc')), L.bytes_of((L.EOB, b'')), b'\xcb' + R.randbytes(4), L.headers(R, 100)))
        fields = R.choice((b'', b'', b'\x10\0' + L.b16(R.choice((0, 255, 300, 65535)))))
        q = L.packet_bytes(code, fields, hs)
        q = R.choice((q, q, q, q, q[:R.randrange(1, len(q) + 1)], R.randbytes(10), q + R.randbytes(3)))
        out.append('host bytes ' + q.hex())
    return out


def calls(R, capacity, limit):
    out = []
    for _ in range(R.randrange(1, 7)):
        x = R.random()
        hs = L.headers(R, R.choice((20, capacity, min(capacity, 3000)))) if R.random() < .93 else L.bad_headers(R, capacity)
        if x < .1:
            out.append('connect ' + word(R.choice((b'', b'\x46\0\6\1\2\3', L.exact(R, 248), L.exact(R, 249), hs[:40] and L.headers(R, 60, 1)))))
        elif x < .2:
            out.append('disconnect ' + word(R.choice((b'', b'', L.exact(R, 243), L.exact(R, 248), L.headers(R, 60, 1)))))
        elif x < .6:
            body = 'none' if R.random() < .15 else word(body_of(R, capacity, limit))
            out.append('put %s %s %d%s' % (word(hs), body, R.choice((0, 0, 0, 1 if len(body) < 400 else 500, 7 if len(body) < 400 else 900, 100, 250)), abort(R, ('sent', 'bytes', 'body', 'body', 'taken'))))
        elif x < .95:
            out.append('get %s%s' % (word(hs), abort(R, ('sent', 'bytes', 'taken', 'taken', 'body'))))
        else:
            out.append(R.choice(('sent', 'body', 'bytes', 'taken', 'abort', 'end', 'unknown words', '', 'stores 65534 65535 65535 65535', 'stores 65536 65536 65536 65536')))
    return out


def session(R):
    lims = (0, 100, 255, 255, 256, 300, 300, 1024, 65535)
    m, n, limit = R.choice(lims), R.choice(lims), R.choice((0, 10, 200, 250, 300, 500, 700, 2000, 5000, 70000))
    capacity = L.at_least_255(n) - 3
    out = ['session', 'client %d %s' % (m, R.choice(('on', 'off')))]
    if R.random() < .15:
        out += ['server none'] + responses(R)
    else:
        pw = R.random() < .1
        out.append('server %d %s %d%s%s' % (n, R.choice(('on', 'off')), limit, R.choice(('', '', ' trailing')), ' password' if pw else ''))
        if pw:
            nonce, secret = R.randbytes(16), b'secret'
            right = L.write_tags([(0, L.digest(nonce, R.choice((secret, secret, b'wrong'))))])
            out += ['host nonce ' + nonce.hex(), 'host nonce ' + R.randbytes(16).hex(), 'host password ' + R.choice((secret.hex(), secret.hex(), 'none')), 'connect 460006010203',
                    'connect 460006010203' + L.bytes_of((L.RESP, right)).hex()]
    out += host_lines(R, L.at_least_255(m) - 3)
    if R.random() < .85:
        out.append('connect ' + R.choice(('-', '460006010203', '460013f9ec7bc4953c11d2984e525400dc9e09')))
    return out + calls(R, capacity, limit)


def make(n, seed):
    for k in range(n):
        yield from session(random.Random(seed * 10 ** 9 + k))


# ---- comparison

def compare(program, words, script):
    printed = subprocess.run([program] + words, input=script.encode(), stdout=subprocess.PIPE, check=True, timeout=600).stdout.decode()
    got, want = [[]], play(script)
    for line in printed.split('\n')[:-1]:
        got[-1].append(line)
        if line == '':
            got.append([])
    got = got[:-1]
    different = abs(len(got) - len(want))
    for i, (a, b) in enumerate(zip(got, want)):
        if a != b:
            different += 1
            if different < 4:
                j = next((j for j in range(min(len(a), len(b))) if a[j] != b[j]), min(len(a), len(b)))
                print('session %d, line %d:\n  %s\n  %s' % (i, j, ''.join(a[j:j + 1])[:300], ''.join(b[j:j + 1])[:300]))
    print('compared %d different %d' % (len(want), different))
    return different


def main():
    a = argparse.ArgumentParser(usage=__doc__)
    a.add_argument('--make', type=int)
    a.add_argument('--seed', type=int, default=1)
    a.add_argument('--compare')
    a.add_argument('--shuffle', type=int)
    o = a.parse_args()
    if o.make is not None:
        for x in make(o.make, o.seed):
            print(x)
        return 0
    script = sys.stdin.read()
    if o.compare:
        return 1 if compare(o.compare, [] if o.shuffle is None else ['shuffle', str(o.shuffle)], script) else 0
    for x in play(script):
        print('\n'.join(x))
    return 0


if __name__ == '__main__':
    sys.exit(main())
