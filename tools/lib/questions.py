#!/usr/bin/env python3
"""questions: what make/codec and compare/codec share. Parts of questions for the program of crates/codec (headers, tag lists and packets,
valid and damaged), and the original's answers to questions, in the words of that program. Needs `make oracle` first.

Usage: tools/lib/questions.py <QUESTIONS    prints the original's answer to each line

The answers are those of `oracle leaf` with three changes: of `code` the byte that is not final is left out, which the port never sends; after
headers that can be read it adds whether the rewritten bytes are those that were given, `canonical` or `other`; and of more than 512 bytes in a
value, a header or a packet it has how many and their MD5, `#LENGTH:MD5`."""
import hashlib, os, re, subprocess, sys
from obex import KNOWN_IDS, TAGGED, fields_of, long_header, packet, tag, utf16, wide16

ROOT = os.path.join(os.path.dirname(os.path.abspath(__file__)), '..', '..')
ORACLE = os.environ.get('ORACLE', os.path.join(ROOT, 'oracle/target/release/oracle'))
NONCE = bytes(range(16))


def word(b):
    return b.hex() or '-'


# ---- the original's answers


def expand(text):
    """The digits of a word: `-` and groups (HEX*COUNT) written out."""
    if text == '-':
        return ''
    return re.sub(r'\(([0-9a-f]*)\*([0-9]+)\)', lambda m: m.group(1) * int(m.group(2)), text)


def headers_of(question):
    """The digits of the headers that a question on headers, a packet or a response gives."""
    word, text = question.split(' ')
    digits = expand(text)
    if word == 'headers':
        return digits
    start = {'answer': 3, 'connect-answer': 7}.get(word) or 3 + fields_of(int(digits[0:2], 16))
    end = int(digits[2:6], 16)
    return digits[2 * start:2 * end]


def short(text):
    """Long byte strings by their length and MD5."""
    def one(m):
        b = bytes.fromhex(m.group(0))
        return '#%d:%s' % (len(b), hashlib.md5(b).hexdigest())
    return re.sub('[0-9a-f]{1025,}', one, text)


def each_header(digits):
    """The digits of a run of headers, each header's by themselves."""
    at, parts = 0, []
    while at < len(digits):
        id = int(digits[at:at + 2], 16)
        size = 2 if 0x80 <= id < 0xC0 else 5 if 0xC0 <= id else int(digits[at + 2:at + 6], 16)
        parts.append(digits[at:at + 2 * size])
        at += 2 * size
    return parts


def shown(rewritten):
    parts = re.split('(<[^>]*>)', rewritten)
    return ''.join(short(p) if p[:1] in ('<', '-') else ''.join(map(short, each_header(p))) for p in parts)


def expected(question, answer):
    word = question.split(' ', 1)[0]
    if word == 'code' and answer != 'unknown':
        return answer.rsplit(' ', 1)[0]
    if word in ('headers', 'packet', 'answer', 'connect-answer') and answer != 'unreadable':
        values, rewritten = answer.rsplit(' = ', 1)
        same = rewritten == (headers_of(question) or '-')
        return short(values) + ' = ' + (shown(rewritten) if len(rewritten) > 1024 else rewritten) + (' canonical' if same else ' other')
    return short(answer)


def ask(questions):
    """The original's own answers."""
    text = ''.join(q + '\n' for q in questions)
    run = subprocess.run([ORACLE, 'leaf'], input=text, capture_output=True, text=True)
    if run.returncode != 0:
        sys.exit('oracle: ' + run.stderr)
    return run.stdout.split('\n')[:-1]


def expect(questions):
    return [expected(q, a) for q, a in zip(questions, ask(questions))]


# ---- parts of questions


def random_bytes(r, most):
    return bytes(r.randrange(256) for _ in range(r.randrange(most + 1)))


def random_units(r):
    """UTF-16, often with lone surrogates, zeros inside, no end or an odd length."""
    units = b''
    for _ in range(r.randrange(6)):
        units += wide16(r.choice([0x61, 0xE9, 0x7FF, 0x800, 0xFFFF, 0xFEFF, 0xD800, 0xDBFF, 0xDC00, 0xDFFF, 0, r.randrange(65536)]))
        if r.random() < 0.3:
            units += wide16(0xD800 + r.randrange(1024)) + wide16(0xDC00 + r.randrange(1024))
    return units + r.choice([b'\0\0', b'\0\0', b'\0\0', b'', b'\0', b'\0\0\0\0', b'a'])


def random_utf8(r):
    """UTF-8, often ill-formed or with zeros."""
    s = b''
    for _ in range(r.randrange(5)):
        s += r.choice([b'a', b'text/plain', 'é'.encode(), '€'.encode(), '😀'.encode(), b'\xc0\x80', b'\xed\xa0\x80', b'\xf4\x90\x80\x80', b'\xe2\x82',
                       b'\xf0\x9f\x98', b'\x80', b'\xff', b'\0', bytes([r.randrange(256)])])
    return s + r.choice([b'\0', b'\0', b'', b'\0\0'])


def random_tags(r):
    s = b''.join(tag(r.choice([0, 1, 2, 2, r.randrange(256)]), r.choice([b'', random_bytes(r, 4), bytes(r.randrange(256) for _ in range(16))]))
                 for _ in range(r.randrange(4)))
    return s if r.random() < 0.8 else damaged(r, s)


def random_header(r):
    id = r.choice(KNOWN_IDS) if r.random() < 0.75 else r.randrange(256)
    if id >= 0xC0:
        return bytes([id]) + bytes(r.choice([0, 0, 1, 255, r.randrange(256)]) for _ in range(4))
    if id >= 0x80:
        return bytes([id, r.choice([0, 1, 2, 3, 0x7F, 0x80, 0xFF, r.randrange(256)])])
    if id < 0x40:
        return long_header(id, random_units(r))
    if id in (0x42, 0x44):
        return long_header(id, random_utf8(r))
    if id in TAGGED:
        return long_header(id, random_tags(r))
    return long_header(id, random_bytes(r, 12))


def random_headers(r):
    return b''.join(random_header(r) for _ in range(r.choice([0, 1, 1, 1, 2, 2, 3, 4])))


def damaged(r, s):
    """One byte changed, added or taken, or the end cut off."""
    if not s:
        return bytes([r.randrange(256)])
    i = r.randrange(len(s))
    return r.choice([s[:i] + bytes([s[i] ^ 1 << r.randrange(8)]) + s[i + 1:], s[:i] + bytes([r.randrange(256)]) + s[i:], s[:i] + s[i + 1:], s[:i],
                     s[:i] + bytes([r.choice([0, 1, 2, 3, 4, 255])]) + s[i + 1:]])


def random_run(r):
    """Headers as they should be, damaged once or more, or bytes at random."""
    kind = r.random()
    if kind < 0.5:
        return random_headers(r)
    if kind < 0.85:
        s = damaged(r, random_headers(r))
        return s if r.random() < 0.7 else damaged(r, s)
    return random_bytes(r, 9)


def random_packet(r):
    first = r.choice([0x80, 0x81, 0x82, 0x02, 0x83, 0x03, 0x85, 0x86, 0x87, 0x90, 0xFF, 0x7F, 0xE2, r.randrange(256)])
    rest = bytes(r.choice([0, 1, 2, 3, 0x10, 255, r.randrange(256)]) for _ in range(fields_of(first))) + random_run(r)
    p = packet(first, rest)
    kind = r.random()
    if kind < 0.6:
        return p
    if kind < 0.75:
        return p + random_bytes(r, 5)
    if kind < 0.85:
        return packet(first, rest, max(0, 3 + len(rest) + r.choice([-4, -3, -2, -1, 1, 2, 256]))) + random_bytes(r, 3)
    return damaged(r, p)


def random_response(r):
    """A question on a response, its code mostly one that there is."""
    connect = r.random() < 0.4
    code = r.choice((0x10, 0x20, 0x21, 0x24, 0x40, 0x41, 0x43, 0x44, 0x50, 0x53, 0x61, r.randrange(128))) + r.choice((128, 128, 128, 0))
    fields = bytes(r.choice((0, 0x10, 4, 255, r.randrange(256))) for _ in range(4 if connect else 0))
    rest = fields + random_run(r)
    p = packet(code, rest)
    kind = r.random()
    if kind >= 0.7:
        p = r.choice((p + random_bytes(r, 5), packet(code, rest, max(0, 3 + len(rest) + r.choice((-4, -3, -2, -1, 1, 2, 256)))), damaged(r, p)))
    return ('connect-answer ' if connect else 'answer ') + word(p)


def every_response():
    """Questions on responses of every first byte and every length up to 9: to a Connect or not, the length field right or one off."""
    rest = (bytes([0x10, 0, 4, 0, 0x97, 1]), bytes([0x97, 1, 0x98, 2, 0x97, 0]), bytes([0x48, 0, 3, 0x49, 0, 3]))
    for first in range(256):
        for n in range(10):
            for tail in rest:
                for size in {n, n + 1, max(n - 1, 0)} if tail is rest[0] else {n}:
                    p = (bytes([first]) + wide16(size) + tail)[:n]
                    yield 'answer ' + word(p)
                    yield 'connect-answer ' + word(p)


# headers that must lead, chunks, and others that lie close to them
LEADS = ['cb00000001', 'cb000000ff', '460003', '4600054142', '9701', '9700', '9801', '9802', '480003', '480006616263', '490003', '4900056465',
         '4e0003', '4d0003', 'c000000002', '010009006100620000', '420006612f00', '4a00056665']


def queue_pool(r):
    """Headers as the original writes them, for `random_queue`."""
    return LEADS + [h for h in canonical([random_header(r) for _ in range(300)]) if h != '-']


def random_queue(r, pool):
    """A question on what is still to be sent: a limit, headers, a body, and steps, the last of which empty the queue."""
    def some():
        return r.choice(pool[:len(LEADS)] if r.random() < 0.6 else pool)
    headers = [some() for _ in range(r.choice((0, 1, 2, 2, 3, 3, 4, 5, 6)))]
    size = sum(len(h) for h in headers) // 2
    limit = r.choice((3 + size + r.randrange(-4, 9), 3 + size // 2 + r.randrange(6), 3 + r.randrange(40), 3 + r.randrange(12), 255))
    body = r.choice(('none', '-', random_bytes(r, 8).hex() or '-', random_bytes(r, 60).hex() or '-', random_bytes(r, 60).hex() or '-'))
    if r.random() < 0.03:
        limit, body = r.choice((600, 1024, 65535)), random_bytes(r, 3000).hex() or '-'
    steps = []
    for _ in range(r.randrange(1, 8)):
        steps += r.choice((['n'], ['n'], ['n', 'r'], ['n', 'r'], ['i:' + some()], ['n', 'r', 'i:' + some()], ['r'], ['n', 'n', 'r']))
    return 'queue %d %s %s %s' % (max(limit, 0), ''.join(headers) or '-', body, ','.join(steps + ['n'] * 8))


def canonical(runs):
    """What the original writes for each run, where it can be read."""
    answers = ask(['headers ' + word(s) for s in runs])
    return [a.rsplit(' = ', 1)[1] for a in answers if a != 'unreadable' and '<' not in a]


if __name__ == '__main__':
    sys.stdout.write(''.join(a + '\n' for a in expect(sys.stdin.read().split('\n')[:-1])))
