#!/usr/bin/env python3
"""audit.py: an auditor of a receiver's archive that uses nothing of this project. It reads the log of each session, computes from it which records
must have been handed over, and compares them with what is filed. It follows docs/ARCHIVE.md, docs/PROTOCOL.md and the definitions
of the journal, and no code, so that a mistake of the code shows as a difference. Python's own library is all that it needs; the file
may be copied into an archive.

Usage: tools/run/audit.py [--packets-only] [--extract DIR] [--page FILE] [--pcapng FILE] SESSION ..

  --packets-only   believes the frames `open`, `recv` and `sent` alone: what the receiver decided is taken from the replies
  --extract DIR    writes to DIR each record that is missing or damaged, as the log has it
  --page FILE      writes what is printed as one static HTML page, with a timeline
  --pcapng FILE    writes the packets of the sound frames, both directions with their clocks, for Wireshark, which decodes
                   them without a setting; addresses are made up, and a comment names session and frame

A line for each record; the last line of all is 'sessions N records N same N grave N'; the exit status is 1 if grave is not 0."""
import argparse, hashlib, html, os, re, struct, sys, time

SUCCESS, CONTINUE = 0x20, 0x90
NAME, TARGET, BODY, END_OF_BODY, RESPONSE, SRM, SRM_PARAMETERS, CONNECTION_ID = 0x01, 0x46, 0x48, 0x49, 0x4E, 0x97, 0x98, 0xCB
TAGGED = (0x4C, 0x4D, 0x4E, 0x52)
OPERATIONS = {0: 'Connect', 1: 'Disconnect', 2: 'Put', 3: 'Get', 5: 'SetPath', 6: 'Action', 7: 'Session'}
FIELDS = {'Connect': 4, 'SetPath': 2}
WINDOW, MOST_WRONG, MOST_IDS = 64, 8, 64
# The codes that the receiver gives to a Put, and the engine to none by itself.
HANDED = (0x20, 0x43, 0x60, 0x61)


def md5(data):
    return hashlib.md5(data).digest()


def number(data):
    return int.from_bytes(data, 'big')


# ---- packets (docs/PROTOCOL.md#first-byte, #headers, #tag-lists, #modes, #packets)

def operation(first):
    """The operation that a first byte names, or None. User-defined operations are told apart by their value."""
    if first & 0x7F == 0x7F:
        return 'Abort'
    low = first & 0x1F
    return ('User', low) if low >= 16 else OPERATIONS.get(low)


def tags(value):
    """The entries of a tag list, or None if they do not fill it."""
    entries, at = [], 0
    while at < len(value):
        if at + 2 > len(value) or at + 2 + value[at + 1] > len(value):
            return None
        entries.append((value[at], value[at + 2:at + 2 + value[at + 1]]))
        at += 2 + value[at + 1]
    return entries


def is_allowed(id, value):
    if id in (SRM, SRM_PARAMETERS):
        return value[0] <= 2
    if id == 0x94:
        return value[0] <= 2 or value[0] >= 0x80
    return id not in TAGGED or tags(value) is not None


def headers(data):
    """The headers as (id, value, all bytes), or None if they cannot be read."""
    found, at = [], 0
    while at < len(data):
        id = data[at]
        if id < 0x80:
            if at + 3 > len(data):
                return None
            size, front = number(data[at + 1:at + 3]), 3
            if size < 3:
                return None
        else:
            size, front = (2 if id < 0xC0 else 5), 1
        if at + size > len(data) or not is_allowed(id, data[at + front:at + size]):
            return None
        found.append((id, data[at + front:at + size], data[at:at + size]))
        at += size
    return found


def first(found, id):
    return next((value for i, value, _ in found if i == id), None)


class Request:
    def __init__(self, packet):
        self.operation, self.final = operation(packet[0]), packet[0] >= 0x80
        skip = 3 + FIELDS.get(self.operation, 0)
        self.headers = None if self.operation is None or len(packet) < skip else headers(packet[skip:])

    def is_readable(self):
        return self.headers is not None


def response(value):
    """The digest, the user id and the nonce of a response, or None if there is no digest of 16 bytes."""
    digest = user = nonce = None
    for tag, v in tags(value):
        if tag == 0:
            if len(v) != 16:
                return None
            digest = v
        elif tag == 1:
            user = v
        elif tag == 2:
            nonce = v if len(v) == 16 else None
    return None if digest is None else (digest, user, nonce)


# ---- the journal (docs/PROTOCOL.md#journal): which records the calls must hand over

class Journal:
    """A session, by what its log says. `opened` is None, or the name of what is open with what it needs."""

    def __init__(self, limit, srm=False, authentication=False, demands_user=False, refuses=False):
        self.limit, self.srm_supported, self.authentication, self.demands_user, self.refuses = limit, srm, authentication, demands_user, refuses
        self.opened, self.last, self.ended, self.number = None, None, False, None
        self.authenticated, self.challenge, self.ids, self.next, self.srm, self.checks = False, None, [], 1, False, []
        self.openings, self.under = {}, None
        self.records = []

    # -- admission

    def is_admitted(self, r):
        if self.authentication and not self.authenticated and r.operation != 'Disconnect':
            return False
        id = first(r.headers, CONNECTION_ID)
        return id is None or number(id) in self.ids

    def asks_srm(self, found):
        value = first(found, SRM)
        return self.srm_supported and value is not None and value[0] == 1

    def has_too_many(self):
        return self.checks[-WINDOW:].count('wrong') >= MOST_WRONG

    def is_busy(self):
        return self.opened is not None and self.opened[0] != 'trailing'

    # -- a packet

    def end(self, n=None):
        self.ended, self.number = True, n

    def received(self, packet):
        """A whole packet."""
        if self.ended:
            return
        r = Request(packet)
        if not r.is_readable():
            self.last = None if not self.is_busy() else self.last
            if self.is_busy():
                self.end(4)
            return
        self.name(r)
        if r.operation == 'Abort':
            self.last, self.opened = r, None
            return
        kind = self.opened[0] if self.opened else None
        if kind == 'trailing' and r.operation == 'Put' and first(r.headers, NAME) is None:
            self.last, self.opened = r, None if r.final else self.opened
        elif kind in (None, 'trailing'):
            self.last, self.opened = r, None
            self.open(r)
        elif kind == 'draining':
            self.last, self.opened = r, None if r.final else self.opened
        elif r.operation != (self.opened[1] if kind == 'gathering' else {'putting': 'Put', 'getting': 'Get', 'sending': 'Get'}[kind]):
            self.end()
        else:
            self.last = r
            if kind == 'putting':
                _, kept, body, srm = self.opened
                self.put(r, kept, body, srm, srm)
            elif kind == 'gathering' and r.final:
                self.opened = None

    def open(self, r):
        if r.operation == 'Connect':
            if self.authentication and self.has_too_many() and first(r.headers, RESPONSE) is not None:
                self.checks.append('stop')
        elif r.operation in ('Disconnect', 'SetPath'):
            pass
        elif not self.is_admitted(r):
            if r.operation in ('Put', 'Get') and self.srm and not r.final:
                self.opened = ('draining',)
        elif r.operation == 'Put':
            self.put(r, b'', None, self.srm, self.srm or self.asks_srm(r.headers))
        elif r.operation == 'Get':
            self.opened = ('getting',)
        elif not r.final:
            self.opened = ('gathering', r.operation)

    def put(self, r, kept, body, srm, later):
        for id, value, raw in r.headers:
            if id in (BODY, END_OF_BODY):
                body = (body or b'') + value
            elif id not in (SRM, SRM_PARAMETERS):
                kept += raw
        fits = len(body or b'') <= self.limit
        self.opened = None
        if r.final:
            if fits:
                self.records.append((kept, body, self.under))
        elif fits or srm:
            self.opened = ('putting', kept, body, later)
        elif self.refuses:
            self.opened = ('trailing',)

    # -- the Target that is named (docs/PROTOCOL.md#targets)

    def name(self, r):
        if r.operation in ('Connect', 'Abort'):
            self.under = None
        elif not self.is_busy():
            id = first(r.headers, CONNECTION_ID)
            self.under = self.openings.get(number(id)) if id is not None and number(id) in self.ids else None

    # -- what the host answers

    def answered(self, code, data):
        if self.ended:
            return
        if self.opened and self.opened[0] == 'getting':
            self.opened = None
        elif self.opened is None and self.last is not None:
            if self.last.operation == 'Connect' and 0x20 <= code <= 0x2F:
                self.connect(headers(data) or [])
            elif self.last.operation == 'Disconnect':
                id = first(self.last.headers, CONNECTION_ID)
                self.leave([] if id is None else [i for i in self.ids if i != number(id)])

    def connect(self, answer):
        srm = self.srm or self.asks_srm(self.last.headers)
        given, target = first(answer, CONNECTION_ID), first(self.last.headers, TARGET)
        if given is not None:
            id, later = number(given), self.next
        elif target is not None:
            id = self.next
            while id == 0xFFFFFFFF or id in self.ids:
                id = (id + 1) % 2 ** 32
            later = (id + 1) % 2 ** 32
        else:
            self.srm = srm
            return
        if id not in self.ids:
            if len(self.ids) >= MOST_IDS:
                return
            self.ids, self.next = self.ids + [id], later
        self.srm = srm
        self.openings[id] = target if target is not None and len(target) <= 16 else None

    def leave(self, ids):
        self.ids = ids
        if not ids:
            self.srm = self.authenticated = False

    def object(self):
        if not self.ended and self.opened and self.opened[0] == 'getting':
            self.opened = ('sending',)

    def sent(self, byte):
        if self.ended:
            self.number = 5 if self.number is None else self.number
        elif self.opened and self.opened[0] == 'sending' and byte != CONTINUE:
            self.opened = None

    def passes(self, password):
        """Whether a password is right for the last packet's response."""
        value = first(self.last.headers, RESPONSE) if self.last else None
        r = response(value) if value is not None else None
        if self.challenge is None or r is None or password is None:
            return False
        digest, user, nonce = r
        if self.demands_user and not user:
            return False
        return nonce in (None, self.challenge) and digest == md5(self.challenge + b':' + password)

    def checked(self, right):
        if self.ended:
            return
        self.checks.append('right' if right else 'wrong')
        if right:
            self.authenticated, self.challenge = True, None

    def nonce(self, value):
        if not self.ended:
            self.authenticated, self.challenge = False, value

    def closed(self, ids):
        if not self.ended and ids:
            self.leave([i for i in self.ids if i not in ids])

    def stream_ended(self, inside):
        if not self.ended:
            self.end(2 if inside else 1)


# ---- the log (docs/ARCHIVE.md, "The log")

class Damage(Exception):
    pass


def frames(log):
    """The whole frames of a log as (kind, clock, payload, where), and what is wrong behind them, or ''."""
    found, at, before = [], 0, b''
    while at < len(log):
        if at + 32 > len(log):
            return found, 'breaks off at byte %d' % at
        n = number(log[at + 8:at + 12])
        check = at + 16 + n + -n % 16
        if check + 16 > len(log):
            return found, 'breaks off at byte %d' % at
        if md5(before + log[at:check]) != log[check:check + 16]:
            return found, 'frame %d at byte %d: 11' % (len(found), at)
        if number(log[at + 4:at + 8]) != len(found):
            return found, 'frame %d at byte %d: 12' % (len(found), at)
        if any(log[at + 16 + n:check]):
            return found, 'frame %d at byte %d: 13' % (len(found), at)
        found.append((log[at:at + 4].decode('latin-1'), number(log[at + 12:at + 16]), log[at + 16:at + 16 + n], at))
        before, at = log[check:check + 16], check + 16
    return found, ''


def body_of(blocks):
    """The body that some blocks hold, or a Damage with the number of docs/ARCHIVE.md."""
    body, ended = b'', False
    for k in range(len(blocks) // 512):
        b = blocks[512 * k:512 * k + 512]
        used, last = number(b[:2]) & 0x7FFF, b[0] >= 0x80
        if md5(b[:496]) != b[496:]:
            raise Damage('block %d: 11' % k)
        if number(b[2:6]) != k:
            raise Damage('block %d: 12' % k)
        right = (used <= 490 and (used > 0 or k == 0)) if last else used == 490
        if ended or not right or any(b[6 + used:496]):
            raise Damage('block %d: 13' % k)
        body, ended = body + b[6:6 + used], last
    if len(blocks) % 512 or not ended:
        raise Damage('end: 13')
    return body


class Log:
    """A log played through a journal. For each record: `codes` what it was answered with, `told` whether that reply was sent, `filed` the frame
    `file` about it, with its place and clock, `clock` when it was handed over."""

    def __init__(self, data, packets_only=False):
        self.frames, self.fault = frames(data)
        self.codes, self.told, self.filed, self.clock, self.done, self.journal = {}, set(), {}, {}, None, None
        self.waiting, self.asked = None, False
        play = self.believe_packets if packets_only else self.believe_all
        for i, (kind, clock, p, at) in enumerate(self.frames):
            if i == 0:
                self.start(kind, p)
                continue
            count = len(self.journal.records)
            if kind == 'recv' and (len(p) < 3 or number(p[1:3]) != len(p)):
                self.fault = 'packet at frame %d has another length' % i
                return
            if kind not in ('recv', 'sent', 'answ', 'objt', 'pass', 'nonc', 'clos', 'part', 'file', 'fail', 'done'):
                self.fault = 'kind at frame %d' % i
                return
            # What is said of a record stands before the next packet.
            if kind in ('recv', 'part'):
                self.waiting = None
            if kind == 'file' and self.waiting is not None:
                self.filed[self.waiting] = (i, at, clock, p)
            play(kind, p)
            if len(self.journal.records) > count:
                self.waiting, self.clock[count] = count, clock

    def start(self, kind, p):
        if kind != 'open' or p[:4] != b'OBX1':
            raise Damage('the log does not begin with `open`')
        flags = p[10]
        self.limit, self.name = number(p[4:8]), p[16:49].decode('latin-1')
        self.journal = Journal(self.limit, bool(flags & 1), bool(flags & 2), bool(flags & 4 and flags & 16), bool(flags & 32))

    def sent(self, p):
        k = self.waiting
        if k is not None and k in self.codes and p[0] == self.codes[k] | 0x80:
            self.told.add(k)
        self.waiting = None
        self.journal.sent(p[0])

    def end(self, p):
        self.done = p[0]
        if p[0] in (1, 2):
            self.journal.stream_ended(p[0] == 2)

    def believe_all(self, kind, p):
        j = self.journal
        if kind == 'recv':
            j.received(p)
        elif kind == 'sent':
            self.sent(p)
        elif kind == 'answ':
            if self.waiting is not None:
                self.codes[self.waiting] = p[0]
            j.answered(p[0], p[1:])
        elif kind == 'objt':
            j.object()
        elif kind == 'pass':
            j.checked(p[0] == 1)
        elif kind == 'nonc':
            j.nonce(p)
        elif kind == 'clos':
            j.closed([number(p[k:k + 4]) for k in range(0, len(p), 4)])
        elif kind == 'done':
            self.end(p)

    def believe_packets(self, kind, p):
        """What the receiver decided is taken from the reply: it gives no ids of its own, success to a Get is an object, and a Connect that it did not
        challenge again was let in."""
        j = self.journal
        if kind == 'recv':
            stops, was_open = len(j.checks), j.is_busy()
            j.received(p)
            r = j.last
            self.asked = r is not None and not was_open and len(j.checks) == stops and not j.ended
            self.checks = self.asked and r.operation == 'Connect' and j.authentication and j.challenge is not None and \
                response(first(r.headers, RESPONSE)) is not None if r and first(r.headers, RESPONSE) is not None else False
        elif kind == 'sent':
            r, code = j.last, p[0] & 0x7F
            if self.waiting is not None:
                self.codes[self.waiting] = code
            elif r is not None and r.operation == 'Connect' and self.asked:
                found = headers(p[7:]) or []
                challenge = first(found, 0x4D)
                if code == 0x41 and challenge is not None and j.authentication:
                    if self.checks:
                        j.checked(False)
                    j.nonce(next((v for t, v in tags(challenge) if t == 0), None))
                else:
                    if self.checks:
                        j.checked(True)
                    j.answered(code, b'')
            elif r is not None and r.operation == 'Disconnect' and self.asked and code == SUCCESS:
                j.answered(code, b'')
            elif j.opened and j.opened[0] == 'getting' and r is not None and r.final:
                j.object() if code in (0x10, SUCCESS) else j.answered(code, b'')
            self.asked = False
            self.sent(p)
        elif kind == 'done':
            self.end(p)


def read(path):
    try:
        with open(path, 'rb') as file:
            return file.read()
    except FileNotFoundError:
        return None


def stamp(clock):
    return time.strftime('%Y%m%dT%H%M%SZ', time.gmtime(clock))


def target_text(target):
    return 'none' if target is None else target.hex() or '-'


def note_of(folder, log, data, k):
    """The note that the log stands for, and what is wrong with the frame `file`, or ''. The check of the body file is that of its blocks, which
    follow from the body."""
    kept, body, target = log.journal.records[k]
    if k not in log.filed:
        return None, 'no frame `file`'
    i, at, clock, p = log.filed[k]
    blocks = max(1, -(-len(body) // 490)) if body is not None else 0
    mark = bytes([255]) if target is None else bytes([len(target)]) + target
    if p[:16] != b''.join(n.to_bytes(4, 'big') for n in (k + 1, len(kept), len(body or b''), blocks)) or p[16:48] != md5(kept) + md5(body or b'') \
            or p[48:] != mark:
        return None, 'frame `file` says something else'
    n = number(data[at + 8:at + 12])
    end = at + 32 + n + -n % 16
    filed = b''.join(block(q, body[490 * q:490 * q + 490], q == blocks - 1) for q in range(blocks))
    lines = ['# record %d of session %s' % (k + 1, log.name), '# filed %s' % stamp(clock), '# headers %d bytes' % len(kept),
             '# body none' if body is None else '# body %d bytes in %d blocks' % (len(body), blocks), '# target %s' % target_text(target),
             '# log frames 0 to %d, %d bytes, check %s' % (i, end, data[end - 16:end].hex()), '%s  headers' % hashlib.md5(kept).hexdigest()]
    return '\n'.join(lines + ['%s  body' % hashlib.md5(filed).hexdigest()] * (body is not None)) + '\n', ''


def block(k, payload, last):
    b = (len(payload) | 0x8000 * last).to_bytes(2, 'big') + k.to_bytes(4, 'big') + payload.ljust(490, b'\0')
    return b + md5(b)


def compared(folder, log, data, k):
    """What a filed record is beside the one that the log stands for: 'same', or what differs."""
    kept, body, target = log.journal.records[k]
    filed, blocks = read(os.path.join(folder, 'headers')), read(os.path.join(folder, 'body'))
    if filed != kept:
        return 'headers differ at byte %d' % next((i for i, (a, b) in enumerate(zip(filed or b'', kept)) if a != b), min(len(filed or b''), len(kept)))
    if (blocks is None) != (body is None):
        return 'body is %s' % ('missing' if blocks is None else 'there, and none came')
    if blocks is not None:
        try:
            had = body_of(blocks)
        except Damage as e:
            return str(e)
        if had != body:
            return 'body differs at byte %d' % next((i for i, (a, b) in enumerate(zip(had, body)) if a != b), min(len(had), len(body)))
    due, wrong = note_of(folder, log, data, k)
    if wrong:
        return wrong
    if sorted(os.listdir(folder)) != ['body'] * (body is not None) + ['headers', 'note']:
        return 'other files'
    return 'same' if read(os.path.join(folder, 'note')) == due.encode() else 'note differs'


def verdict(folder, log, data, k):
    """The words on record k, and whether they are grave."""
    path, code, told = os.path.join(folder, '%06d' % (k + 1)), log.codes.get(k), k in log.told
    said = 'not answered' if code is None else 'answered %02x%s' % (code, ', told' if told else '')
    if not os.path.isdir(path):
        part = ', part' if os.path.isdir(path + '.part') else ''
        return ('%s: MISSING' % said, True) if code == SUCCESS else ('%s: not filed%s' % (said, part), False)
    what = compared(path, log, data, k)
    return '%s: %s' % (said, what if what == 'same' and code == SUCCESS else what + ', filed' if what == 'same' else what), what != 'same'


class Session:
    """What is found of a session: its lines, its counts, and its records for the page."""

    def __init__(self, folder, options):
        self.folder, self.name = folder, os.path.basename(os.path.normpath(folder))
        self.lines, self.records, self.same, self.grave, self.rows, self.clocks, self.frames = ['session ' + self.name], 0, 0, 0, [], [], []
        data = read(os.path.join(folder, 'session'))
        try:
            log = Log(data or b'', options.packets_only)
            if log.journal is None and log.fault and not log.fault.startswith('breaks off'):
                raise Damage('log %s' % log.fault)
        except Damage as e:
            self.say(str(e), True)
            return
        self.clocks, self.frames = [c for _, c, _, _ in log.frames if c], log.frames
        if not os.path.isdir(folder):
            self.say('no such folder', True)
            return
        # A session that was cut before its first frame has no log yet, or an empty one, and no record.
        if not data:
            self.say('no log' if data is None else 'log is empty', False)
        else:
            self.say('log %d frames, %s' % (len(log.frames), log.fault or ('whole, end %d' % log.done if log.done is not None else 'whole, no end')),
                     bool(log.fault) and not log.fault.startswith('breaks off'))
        if log.journal is not None:
            self.judge(log, data, options.extract)
        known = ['session'] + ['%06d' % (k + 1) for k in range(self.records)]
        for name in sorted(os.listdir(folder)):
            if name not in known and not re.fullmatch(r'\d{6}\.part', name):
                self.say('folder %s: no such record' % name, True)
        self.lines.append('records %d, same %d, grave %d' % (self.records, self.same, self.grave))

    def judge(self, log, data, extract):
        due = log.journal.number
        if log.done is not None and log.done < 0x80 and due is not None and due != log.done:
            self.say('end %d, and %d is due' % (log.done, due), True)
        self.compare(log, data, extract)

    def say(self, line, grave):
        self.lines.append(line)
        self.grave += grave

    def compare(self, log, data, extract):
        for k, (kept, body, target) in enumerate(log.journal.records):
            words, grave = verdict(self.folder, log, data, k)
            self.records, self.same = self.records + 1, self.same + words.endswith(('same', 'same, filed'))
            size = 'none' if body is None else str(len(body))
            self.say('record %d: headers %d, body %s, target %s, %s' % (k + 1, len(kept), size, target_text(target), words), grave)
            self.rows.append((grave, log.clock[k], k + 1, target_text(target), len(kept), size, words))
            if extract and grave:
                os.makedirs(extract, exist_ok=True)
                for end, part in (('headers', kept), ('body', body)):
                    if part is not None:
                        with open(os.path.join(extract, '%s-%06d.%s' % (self.name, k + 1, end)), 'wb') as file:
                            file.write(part)


# ---- the page

STYLE = """body{font:15px/1.4 sans-serif;margin:2em}table{border-collapse:collapse}td,th{padding:.2em .8em;text-align:left;white-space:nowrap;
border-bottom:1px solid #ccc}p{padding:.4em .8em}.grave{background:#fbb}.good{background:#cfc}svg{display:block;margin:1em 0}
pre{background:#eee;padding:1em;overflow-x:auto}"""


def timeline(sessions):
    """A row for each day, each session a bar from its first to its last clock, each record a tick; grave ones are red."""
    days = sorted({c // 86400 for s in sessions for c in s.clocks})
    out = ['<svg width="1020" height="%d" font-size="12">' % (24 * len(days) + 20)]
    for hour in range(0, 25, 3):
        out.append('<text x="%d" y="12" text-anchor="middle">%02d</text>' % (90 + 900 * hour // 24, hour))
    place = lambda c: 90 + 900 * (c % 86400) / 86400
    for row, day in enumerate(days):
        y = 20 + 24 * row
        out.append('<text x="0" y="%d">%s</text><rect x="90" y="%d" width="900" height="18" fill="#eee"/>' % (y + 13, stamp(86400 * day)[:8], y))
        for s in sessions:
            clocks = [c for c in s.clocks if c // 86400 == day]
            if clocks:
                a, b = place(min(clocks)), place(max(clocks))
                out.append('<rect x="%.1f" y="%d" width="%.1f" height="10" fill="%s"><title>%s</title></rect>' % (
                    a, y + 4, max(1.5, b - a), '#c00' if s.grave else '#69c', s.name))
        for grave, clock in sorted((grave, clock) for s in sessions for grave, clock, *_ in s.rows if clock // 86400 == day):
            out.append('<rect x="%.1f" y="%d" width="%d" height="18" fill="%s"/>' % (place(clock), y, 1 + grave, '#c00' if grave else '#063'))
    return ''.join(out) + '</svg>'


def page(sessions, last):
    rows = sorted(((g, c, s.name) + tuple(r) for s in sessions for g, c, *r in s.rows), key=lambda r: (not r[0], r[1], r[2], r[3]))
    out = ['<!DOCTYPE html><html lang="en"><meta charset="utf-8"><title>Audit</title><style>%s</style><h1>Audit</h1>' % STYLE]
    out.append('<p class="%s">%s</p>' % ('grave' if any(s.grave for s in sessions) else 'good', last))
    out.append('<h2>Days</h2>' + timeline(sessions))
    out.append('<h2>Records</h2><table><tr><th>time<th>verdict<th>record<th>session<th>target<th>headers<th>body')
    for grave, clock, name, k, target, kept, size, words in rows:
        out.append('<tr%s><td>%s' % (' class="grave"' if grave else '', stamp(clock)) + ''.join('<td>' + html.escape(str(x)) for x in (words, k, name, target, kept, size)))
    out.append('</table><h2>Lines</h2><pre>%s</pre></html>' % html.escape('\n'.join(line for s in sessions for line in s.lines) + '\n' + last))
    return '\n'.join(out) + '\n'


# ---- the packets as pcapng (draft-ietf-opsawg-pcapng), each as a PDU that names its dissector (LINKTYPE_WIRESHARK_UPPER_PDU)

UPPER_PDU = 252
DISSECTOR, SOURCE, DESTINATION, PORT_TYPE, SOURCE_PORT, DESTINATION_PORT, DIRECTION = 12, 20, 21, 24, 25, 26, 35
TCP, PORT = 2, 650


def pcapng_block(kind, body):
    size = struct.pack('<I', 12 + len(body))
    return struct.pack('<I', kind) + size + body + size


def option(code, value):
    """An option of a block; the last one has the code 0."""
    return struct.pack('<HH', code, len(value)) + value + bytes(-len(value) % 4)


def tag(code, value):
    """A tag in front of a PDU; the last one has the code 0."""
    return struct.pack('>HH', code, len(value)) + value + bytes(-len(value) % 4)


def pdu(index, is_reply, packet):
    """A packet of the session with this index: its client has an address of its own, which is made up."""
    client, server = (bytes([10, 1, index >> 8 & 0xFF, index & 0xFF]), 40000), (bytes([10, 0, 0, 1]), PORT)
    (a, out), (b, to) = (server, client) if is_reply else (client, server)
    number4 = lambda n: struct.pack('>I', n)
    return (tag(DISSECTOR, b'obex') + tag(SOURCE, a) + tag(DESTINATION, b) + tag(PORT_TYPE, number4(TCP)) + tag(SOURCE_PORT, number4(out))
            + tag(DESTINATION_PORT, number4(to)) + tag(DIRECTION, number4(0 if is_reply else 1)) + tag(0, b'') + packet)


def pcapng(sessions):
    """The packets of some sessions, as one section with one interface. A frame without a clock has that of the frame before."""
    out = [pcapng_block(0x0A0D0D0A, struct.pack('<IHHq', 0x1A2B3C4D, 1, 0, -1) + option(4, b'audit.py') + option(0, b'')),
           pcapng_block(1, struct.pack('<HHI', UPPER_PDU, 0, 0))]
    for index, s in enumerate(sessions, 1):
        clock = 0
        for k, (kind, at, payload, _) in enumerate(s.frames):
            clock = at or clock
            if kind in ('recv', 'part', 'sent'):
                data, micro = pdu(index, kind == 'sent', payload), 1000000 * clock
                out.append(pcapng_block(6, struct.pack('<IIIII', 0, micro >> 32, micro & 0xFFFFFFFF, len(data), len(data)) + data + bytes(-len(data) % 4)
                                        + option(1, ('session %s frame %d' % (s.name, k)).encode()) + option(0, b'')))
    return b''.join(out)


def main():
    p = argparse.ArgumentParser(usage=__doc__)
    p.add_argument('--packets-only', action='store_true')
    p.add_argument('--extract')
    p.add_argument('--page')
    p.add_argument('--pcapng')
    p.add_argument('sessions', nargs='+')
    options = p.parse_args()
    sessions = []
    for folder in options.sessions:
        sessions.append(Session(folder, options))
        print('\n'.join(sessions[-1].lines))
    total = [sum(getattr(s, k) for s in sessions) for k in ('records', 'same', 'grave')]
    last = 'sessions %d records %d same %d grave %d' % (len(sessions), *total)
    print(last)
    if options.page:
        with open(options.page, 'w', encoding='utf-8') as file:
            file.write(page(sessions, last))
    if options.pcapng:
        with open(options.pcapng, 'wb') as file:
            file.write(pcapng(sessions))
    return 1 if total[2] else 0


if __name__ == '__main__':
    sys.exit(main())
