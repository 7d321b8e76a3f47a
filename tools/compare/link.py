#!/usr/bin/env python3
"""compare/link.py: the claims Puts, Gets and Names (link/specs/Claims.antt) and what is said besides (PutMore, GetMore) tried on random runs. Client (client_model/specs), outgoing objects
(outgoing/specs), response reader (packet/specs/ResponsePacket), link and what a run tells (link/specs/Link, Told), server (model/specs) and journal
(journal/specs) are written down from the text of the definitions, function by function; stores are byte strings with random garbage at the start.

Usage: compare/link.py [--seconds S] [--runs N] [--seed K] [--mode NAME] [--mutant NAME] [--alone N] [--stop] [--quiet]

Not transcribed, since no claim looks at it: the Targets' columns of the table store, and the operations that this client never sends (they raise).
"""
import argparse, collections, hashlib, random, sys, time

MAXP, MINP, MAXC = 65535, 255, 65532
MUT = None                                    # the mutant that is tried, if any
CODES = frozenset([0x10] + list(range(0x20, 0x27)) + list(range(0x30, 0x36)) + list(range(0x40, 0x50)) + list(range(0x50, 0x56)) + [0x60, 0x61])
NAME, TYPE, TIME, TARGET, HTTP, BODY, EOB, WHO, APP, CHAL, RESP, SESS, ACTION, SRM, SRMP, CID, PERM = (
    0x01, 0x42, 0x44, 0x46, 0x47, 0x48, 0x49, 0x4A, 0x4C, 0x4D, 0x4E, 0x52, 0x94, 0x97, 0x98, 0xCB, 0xD6)
TAGGED = (APP, CHAL, RESP, SESS)
def is_success(c): return 0x20 <= c <= 0x2F
def sent_code(c): return c % 128 + 0x80
def be16(s, i): return s[i] << 8 | s[i + 1]
def b16(n): return bytes((n >> 8 & 255, n & 255))
def b32(n): return n.to_bytes(4, 'big')
def is_body(i): return i in (BODY, EOB)
def is_srm(i): return i in (SRM, SRMP)
def at_least_255(n): return MINP if n < MINP else n

# ---- packet/specs: headers, packets, responses

def tags(v):
    out, at = [], 0
    while at < len(v):
        if at + 2 > len(v) or at + 2 + v[at + 1] > len(v): return None
        out.append((v[at], v[at + 2:at + 2 + v[at + 1]])); at += 2 + v[at + 1]
    return out
def allowed(i, v):
    if i == ACTION: return v[0] <= 2 or v[0] >= 0x80
    if i in (SRM, SRMP): return v[0] <= 2
    return i not in TAGGED or tags(v) is not None
def header_at(s, at):
    """None at the end, False if unreadable, else (id, from, to)."""
    if len(s) <= at: return None
    i = s[at]
    if i < 0x80:
        if len(s) - at < 3: return False
        n, lead = be16(s, at + 1), 3
    else: n, lead = (2 if i < 0xC0 else 5), 1
    if n < lead or len(s) - at < n or len(s) - at < lead: return False
    return (i, at + lead, at + n) if allowed(i, s[at + lead:at + n]) else False
def read_headers(s, at):
    out = []
    while True:
        h = header_at(s, at)
        if h is None: return out
        if h is False: return None
        out.append((h[0], s[h[1]:h[2]])); at = h[2]
def list_of(hs): return [] if hs is None else hs
def bytes_of(h): return bytes((h[0],)) + (b16(3 + len(h[1])) if h[0] < 0x80 else b'') + h[1]
def all_bytes(hs): return b''.join(map(bytes_of, hs))
def first(i, hs): return next((v for j, v in hs if j == i), None)
def text16(v):
    us, out, i = [], [], 0
    for k in range(0, len(v) - 1, 2):
        u = be16(v, k)
        if u == 0: break
        us.append(u)
    while i < len(us):
        u = us[i]
        if 0xD800 <= u < 0xDC00 and i + 1 < len(us) and 0xDC00 <= us[i + 1] < 0xE000: out += us[i:i + 2]; i += 2; continue
        out.append(0xFFFD if 0xD800 <= u < 0xE000 else u); i += 1
    return out
def text8(v): return v.split(b'\0')[0].decode('utf-8', 'replace').encode()
def rewritten(i, v):
    if i < 0x40:
        us = text16(v); return b''.join(b16(u) for u in us + [0]) if us else b''
    if i == TYPE: return text8(v) + b'\0'
    if i == TIME: return text8(v)
    return b'\0' + v[1:] if i == PERM else v
def canonical(s):
    hs = read_headers(s, 0)
    return hs is not None and all_bytes([(i, rewritten(i, v)) for i, v in hs]) == s
OPS = {0: 'Connect', 1: 'Disconnect', 2: 'Put', 3: 'Get', 5: 'SetPath', 6: 'Action', 7: 'Session'}
Req = collections.namedtuple('Req', 'op final bytes headers')
def request_of(p):
    b = p[0]
    if b % 128 == 0x7F: op = 'Abort'
    else:
        op = OPS.get(b % 32, ('User', b % 32) if 0x10 <= b % 32 else None)
        if op is None: return None
    n = 3 + {'Connect': 4, 'SetPath': 2}.get(op, 0)
    if len(p) < n: return None
    hs = read_headers(p, n)
    return None if hs is None else Req(op, b >= 0x80, p, hs)
def byte_of(op, final):
    v = {'Connect': 0, 'Disconnect': 1, 'Put': 2, 'Get': 3, 'Abort': 0x7F}[op]
    return v + 0x80 if final or op in ('Connect', 'Disconnect', 'Abort') else v
def packet_bytes(b, fields, hs): return bytes((b,)) + b16(3 + len(fields) + len(hs)) + fields + hs
Resp = collections.namedtuple('Resp', 'code final bytes headers')
def response_packet(connect, p):
    code, n = p[0] % 128, 7 if connect else 3
    if code not in CODES or len(p) < n: return None
    hs = read_headers(p, n)
    return None if hs is None else Resp(code, p[0] >= 128, p, hs)

# ---- stores

def paste(y, at, d): return y[:at] + d + y[at + len(d):]
def front(q, y): return q + y[len(q):]
def setb(y, i, x): return y[:i] + bytes((x,)) + y[i + 1:]

# ---- incoming/specs: frames and gathering

def framed(p, b, i):
    """Returns (begun, taken, frame, packet), as `framed` byte by byte."""
    t, head = 0, bytearray(p[:b])
    while True:
        if t == len(i): return b, t, 'More', bytes(head) + p[b:]
        k = 1
        if b >= 3: k = max(1, min(be16(head, 1) - b, len(i) - t))
        head += i[t:t + k]; b += k; t += k
        if b >= 3:
            n = be16(head, 1)
            if n < 3: return b, t, 'Short', bytes(head) + p[b:]
            if n <= b: return b, t, 'Whole', bytes(head) + p[b:]
G = collections.namedtuple('G', 'kept body came over full')
G0 = G(0, 0, False, False, False)
def gather_all(keep, limit, hs, g, headers, body):
    for i, v in hs:
        if g.full: break
        if keep == 'Put' and is_body(i):
            if g.body + len(v) <= limit: body = paste(body, g.body, v); g = g._replace(body=g.body + len(v), came=True, full=False)
            else: g = g._replace(came=True, over=True, full=False)
        elif keep in ('Put', 'Get') and is_srm(i): pass
        else:
            bs = bytes_of((i, v))
            if g.kept + len(bs) <= MAXP: headers = paste(headers, g.kept, bs); g = g._replace(kept=g.kept + len(bs), full=False)
            else: g = g._replace(full=True)
    return g, headers, body

# ---- outgoing/specs/Object: the next packet of headers and a body

Out = collections.namedtuple('Out', 'total sent lead has_body has_pending pending')
Chunk = collections.namedtuple('Chunk', 'at got room')
NOCHUNK = Chunk(0, 0, 0)
Made = collections.namedtuple('Made', 'out chunk next reply')       # next: ('Send', n, last), ('Read',) or ('TooLarge',)
def fill(capacity, hs, sent, at, y):
    parts, start = [], at
    while True:
        h = header_at(hs, sent)
        if not h: why = 'empty'; break
        n = h[2] - sent
        if capacity < n: why = 'tooLarge'; break
        if capacity + 3 < at + n: why = 'full'; break
        parts.append(hs[sent:h[2]]); at += n; sent = h[2]
    return why, sent, at, paste(y, start, b''.join(parts))
def prefixed(last, n, y): return bytes((0xA0 if last else 0x90,)) + b16(n) + y[3:]
def sending(o, last, n, y): return Made(o, NOCHUNK, ('Send', n, last), prefixed(last, n, y))
def body_header(i, at, n, y): return paste(y, at, bytes((i,)) + b16(3 + n))
def full_chunk(o, at, size, ahead, y):
    o = o._replace(has_pending=True, pending=ahead)
    if size == 0: return sending(o, False, at, y)
    return sending(o, False, at + 3 + size, body_header(BODY, at, size, y))
def begin_chunk(o, at, size, y):
    if not o.has_pending: return Made(o, Chunk(at, 0, size + 1), ('Read',), y)
    if size == 0: return full_chunk(o, at, 0, o.pending, y)
    return Made(o._replace(has_pending=False, pending=0), Chunk(at, 1, size), ('Read',), setb(y, at + 3, o.pending))
def next_of(capacity, o, f):
    why, sent, at, y = f
    o = o._replace(sent=sent, lead=False)
    if why == 'tooLarge': return Made(o, NOCHUNK, ('TooLarge',), y)
    if why == 'full': return sending(o, False, at, y)
    if not o.has_body: return sending(o, True, at, y)
    if capacity + 3 < at + 3: return sending(o, False, at, y)
    return begin_chunk(o, at, capacity - at, y)
def next_packet(capacity, o, hs, y):
    if o.lead: y = paste(y, 3, b'\x97\x01')
    return next_of(capacity, o, fill(capacity, hs[:o.total], o.sent, 5 if o.lead else 3, y))
def next_after(start, capacity, o, hs, y): return next_of(capacity, o, fill(capacity, hs[:o.total], o.sent, start, y))
def out_body_given(o, c, d, y):
    if len(d) == 0:
        o = o._replace(has_pending=False, pending=0)
        return sending(o, True, c.at + 3 + c.got, body_header(EOB, c.at, c.got, y))
    if len(d) < c.room: return Made(o, Chunk(c.at, c.got + len(d), c.room - len(d)), ('Read',), paste(y, c.at + 3 + c.got, d))
    return full_chunk(o, c.at, c.got + len(d) - 1, d[-1], paste(y, c.at + 3 + c.got, d[:-1]))
def sound_outgoing(o, c):
    return o.total <= MAXP and o.sent <= o.total and c.at + c.got <= MAXC and c.at + c.got + c.room <= MAXC + 1

# ---- client_model/specs

CS = collections.namedtuple('CS', 'max srm')                                # the client's settings
Client = collections.namedtuple('Client', 'st remote id op awaits aborting begun length')
St = collections.namedtuple('St', 'packet headers body request')            # the client's stores
NOTHING = ('Nothing',)

def must_lead(i): return i in (CID, TARGET, SRM, SRMP)
def insert_early(x, hs):
    k = 0
    while k < len(hs) and must_lead(hs[k][0]): k += 1
    return hs[:k] + [x] + hs[k:]
def leading_headers(id, srm):
    hs = [] if id is None else insert_early((CID, b32(id)), [])
    return insert_early((SRM, b'\x01'), hs) if srm else hs
def leading(id, srm): return all_bytes(leading_headers(id, srm))
def cap(c): return c.remote - 3
def c_goes(c, op, awaits, aborting): return c._replace(op=op, awaits=awaits, aborting=aborting, begun=0)
def c_wants(c, op, b, s): return c_goes(c, op, 'Bytes', b), ('WantsBytes',), s
def c_sends(c, op, q, s): return c_goes(c, op, 'Sent', False), ('Send', len(q)), s._replace(request=front(q, s.request))
def c_over(c, o, s): return c_goes(c, NOTHING, 'Call', False), o, s
def c_ends(c, x, s): return c_goes(c, NOTHING, 'Nothing', False), ('End', x), s
# Request
def requests(c, k, srm, fst, m, s):
    if m.next[0] == 'Send':
        _, n, last = m.next
        return (c_goes(c, ('Requesting', k, m.out, m.chunk, srm, fst, last), 'Sent', False), ('Send', n),
                s._replace(request=setb(m.reply, 0, byte_of(k, last or MUT == 'all-final'))))
    if m.next[0] == 'Read':
        return c_goes(c, ('Requesting', k, m.out, m.chunk, srm, fst, False), 'Body', False), ('Read', m.chunk.room), s._replace(request=m.reply)
    return c_ends(c, 24, s._replace(request=m.reply))
def requests_next(c, k, srm, fst, o, s): return requests(c, k, srm, fst, next_after(3, cap(c), o, s.headers, s.request), s)
def requests_first(c, k, hs, has, s):
    lead = leading(c.id, c.st.srm)
    if MUT == 'no-id': lead = leading(None, c.st.srm)
    if MUT == 'id-every-get' and k == 'Get': lead = leading(c.id, False)
    t = s._replace(headers=front(hs, s.headers), request=paste(s.request, 3, lead))
    if MUT == 'first-header-lost' and k == 'Put' and len(hs) > 300: hs = hs[header_at(hs, 0)[2]:]; t = t._replace(headers=front(hs, t.headers))
    return requests(c, k, False, True, next_after(3 + len(lead), cap(c), Out(len(hs), 0, False, has, False, 0), t.headers, t.request), t)
def sends_abort(c, s): return c_sends(c, ('Aborting',), packet_bytes(0xFF, b'', leading(c.id, False)), s)
# Answer
def grants(c, initial, r):
    if MUT == 'grant-unseen': return False
    if MUT == 'grant-late': return c.st.srm and not initial and first(SRM, r.headers) is not None
    v = first(SRM, r.headers)
    return c.st.srm and initial and v is not None and v[0] == 1
def c_parts(c, srm, last, code, r, s):
    g, h, b = gather_all('Get' if MUT == 'body-kept' else 'Put', MAXP, r.headers, G0, s.headers, s.body)
    if MUT == 'empty-missing' and g.body == 0: g = g._replace(came=False)
    return (c_goes(c, ('Receiving', srm, last, code), 'Taken', False), ('Part', g.kept, g.body if g.came else None), s._replace(headers=h, body=b))
def c_received(c, srm, r, s):
    if r.code == 0x10:
        if not c.aborting or MUT == 'parts-on' and srm: return c_parts(c, srm, False, r.code, r, s)
        if MUT == 'no-drain': return sends_abort(c, s)
        return c_wants(c, ('Receiving', True, False, 0), True, s) if srm else sends_abort(c, s)
    return c_received_last(c, srm, r, s)
def c_received_last(c, srm, r, s):
    if not is_success(r.code) or c.aborting: return c_over(c, ('Aborted' if c.aborting else 'Done', r.code, c.length), s)
    return c_parts(c, srm, True, r.code, r, s)
def request_answered(k, c, o, srm, initial, last, r, s):
    if last:
        if k == 'Put': return c_over(c, ('Done', r.code, c.length), s)
        return c_received(c, srm or grants(c, initial, r), r, s)
    if r.code == 0x10:
        if c.aborting and MUT != 'abort-forgotten': return sends_abort(c, s)
        return requests_next(c, k, srm or grants(c, initial, r), False, o, s)
    if k == 'Put': return c_over(c, ('Done' if MUT == 'stopped-done' else 'Stopped', r.code, c.length), s)
    return c_received_last(c, srm, r, s)
def responded(c, r, s):
    op = c.op
    if op[0] == 'Connecting':
        if is_success(r.code):
            v = first(CID, r.headers)
            if MUT == 'id-old' and c.id is not None: v = b32(c.id)
            if MUT == 'id-never': v = None
            return c._replace(remote=at_least_255(be16(r.bytes, 5)) + (1 if MUT == 'limit-off' and be16(r.bytes, 5) < 65000 else 0), id=None if v is None else int.from_bytes(v, 'big'),
                              op=NOTHING, awaits='Call', aborting=False, begun=0), ('Done', r.code, c.length), s
        if MUT == 'connect-clears': c = c._replace(id=None)
        return c_goes(c, NOTHING, 'Call', False), ('Done', r.code, c.length), s
    if op[0] == 'Disconnecting':
        return c._replace(remote=MINP, id=None, op=NOTHING, awaits='Call', aborting=False, begun=0), ('Done', r.code, c.length), s
    if op[0] == 'Requesting':
        _, k, o, h, srm, initial, last = op
        return request_answered(k, c, o, srm, initial, last, r, s)
    if op[0] == 'Receiving': return c_received(c, op[1], r, s)
    if op[0] == 'Aborting': return c_over(c, ('Aborted', 0 if MUT == 'abort-code' else r.code, c.length), s)
    return c_ends(c, 23, s)
def response_done(c, n, s):
    r = response_packet(c.op[0] == 'Connecting', s.packet[:n])
    c = c._replace(begun=0, length=n)
    return c_ends(c, 23, s) if r is None else responded(c, r, s)
# Guard
def c_short(s): return any(len(x) < MAXP for x in s)
def c_sound(c):
    return c.begun < MAXP and c.length <= MAXP and MINP <= c.remote and (c.op[0] != 'Requesting' or sound_outgoing(c.op[2], c.op[3]))
def c_guard(fits, c, s): return 10 if c_short(s) else None if c_sound(c) and fits else 9
def reserved(i): return i == CID or is_srm(i) or is_body(i)
def c_bad(hs): return MAXP < len(hs) or not canonical(hs) or any(reserved(i) for i, _ in list_of(read_headers(hs, 0)))
def too_long(capacity, hs): return any(capacity < len(bytes_of(h)) for h in list_of(read_headers(hs, 0)))
def may_abort(op, a):
    if op[0] == 'Requesting':
        if a in ('Sent', 'Body'): return True
        if a == 'Bytes': return (not op[6] or MUT == 'abort-late') if op[1] == 'Put' else True
    if op[0] == 'Receiving':
        if a in ('Sent', 'Bytes'): return True
        if a == 'Taken': return not op[2]
    return False
def abort_fits(c):
    if MUT == 'abort-refused' and c.op[0] == 'Requesting' and c.awaits == 'Sent' and c.op[6]: return False
    return not c.aborting and may_abort(c.op, c.awaits)
# Calls. Each returns (client, taken, outcome, stores).
def refuse(n, c, s): return c, 0, ('Refused', n), s
def after(t, d): return d[0], t, d[1], d[2]
def connect_step(c, hs, s):
    n = c_guard(c.awaits == 'Call', c, s) or (8 if c_bad(hs) else 24 if 248 < len(hs) else None)
    if n: return refuse(n, c, s)
    return after(0, c_sends(c, ('Connecting',), packet_bytes(0x80, b'\x10\0' + b16(c.st.max), hs), s))
def disconnect_step(c, hs, s):
    lead = leading(c.id, False)
    n = c_guard(c.awaits == 'Call', c, s) or (8 if c_bad(hs) else 24 if 248 < len(lead + hs) else None)
    if n: return refuse(n, c, s)
    return after(0, c_sends(c, ('Disconnecting',), packet_bytes(0x81, b'', lead + hs), s))
def request_step(c, k, hs, has, s):
    n = c_guard(c.awaits == 'Call', c, s) or (8 if c_bad(hs) else 24 if too_long(cap(c), hs) else None)
    if MUT == 'get-never' and k == 'Get' and not n: return after(0, sends_abort(c, s))
    return refuse(n, c, s) if n else after(0, requests_first(c, k, hs, has, s))
def request_sent_step(c, s):
    n = c_guard(c.awaits == 'Sent', c, s)
    if n: return refuse(n, c, s)
    if c.op[0] == 'Requesting':
        _, k, o, h, srm, fst, last = c.op
        if srm and not last: return after(0, requests_next(c, k, srm, fst, o, s))
    return after(0, c_wants(c, c.op, False, s))
def c_body_step(c, d, s):
    n = c_guard(c.awaits == 'Body', c, s)
    if n or c.op[0] != 'Requesting' or c.op[3].room < len(d): return refuse(n or 9, c, s)
    _, k, o, h, srm, fst, last = c.op
    return after(0, requests(c, k, srm, fst, out_body_given(o, h, d, s.request), s))
def part_taken_step(c, s):
    n = c_guard(c.awaits == 'Taken', c, s)
    if n or c.op[0] != 'Receiving': return refuse(n or 9, c, s)
    _, srm, last, code = c.op
    if last: return after(0, c_over(c, ('Done', code, c.length), s))
    if srm: return after(0, c_wants(c, c.op, False, s))
    return after(0, c_sends(c, c.op, packet_bytes(0x83, b'', b''), s))
def abort_step(c, s):
    n = c_guard(abort_fits(c), c, s)
    if n: return refuse(n, c, s)
    if c.awaits == 'Bytes' and MUT != 'abort-at-once': return after(0, (c._replace(awaits='Bytes', aborting=True), ('WantsBytes',), s))
    if c.awaits == 'Taken' and c.op[0] == 'Receiving' and c.op[1]: return after(0, c_wants(c, c.op, True, s))
    return after(0, sends_abort(c, s))
def c_bytes_step(c, i, s):
    n = c_guard(c.awaits == 'Bytes', c, s)
    if n: return refuse(n, c, s)
    b, t, f, p = framed(s.packet, c.begun, i)
    s = s._replace(packet=p)
    if f == 'More': return after(t, (c._replace(begun=b), ('WantsBytes',), s))
    return after(t, c_ends(c, 3, s) if f == 'Short' else response_done(c, b, s))
def c_ended_step(c, s):
    n = c_guard(c.awaits in ('Bytes', 'Call'), c, s)
    return refuse(n, c, s) if n else after(0, c_ends(c, 1 if c.begun == 0 and MUT != 'end-two' else 2, s))
def c_started(st): return Client(st, MINP, None, NOTHING, 'Call', False, 0, 0)

# ---- model/specs: the server

SS = collections.namedtuple('SS', 'limit max charset has_realm srm auth user_required read_only user_enforced refuse')
Peer = collections.namedtuple('Peer', 'ids next remote srm authenticated challenge window nonces')
Engine = collections.namedtuple('Engine', 'st peer op awaits begun length')
VSt = collections.namedtuple('VSt', 'packet headers body reply')
FRESH = Peer((), 1, MINP, False, False, None, 0, ())
Survey = collections.namedtuple('Survey', 'id enable additional wait')
def survey(hs):
    v, m, p = first(CID, hs), first(SRM, hs), first(SRMP, hs)
    return Survey(None if v is None else int.from_bytes(v, 'big'), m is not None and m[0] == 1, p is not None and p[0] in (0, 2), p is not None and p[0] in (1, 2))
def eng(e, op, awaits, peer=None): return e._replace(op=op, awaits=awaits, begun=0, peer=peer or e.peer)
def v_wants(e, op, s): return eng(e, op, 'Bytes'), ('WantsBytes',), s
def v_asks(e, p, op, a, r, s): return eng(e, op, a, p), ('Request',) + r, s
def v_ends(e, p, x, s): return eng(e, NOTHING, 'Nothing', p), ('End', x), s
def v_replies(e, p, op, a, q, s): return eng(e, op, a, p), ('Reply', len(q)), s._replace(reply=front(q, s.reply))
def v_code(e, op, code, s): return v_replies(e, e.peer, op, 'Taken', packet_bytes(sent_code(code), b'', b''), s)
def v_continues(e, op, grant, s): return v_replies(e, e.peer, op, 'Taken', packet_bytes(0x90, b'', b'\x97\x01' if grant else b''), s)
def v_sent(e, p, code, fields, hs, s):
    n = 3 + len(fields) + len(hs)
    if MAXP < n: return v_ends(e, p, 7, s)
    q = packet_bytes(0xD0, fields, b'') if p.remote < n and MUT != 'server-reply-whole' else packet_bytes(sent_code(code), fields, hs)
    return v_replies(e, p, NOTHING, 'Taken', q, s)
def v_fields(e): return b'\x10\0' + b16(e.st.max)
def v_sends(e, p, code, hs, s): return v_sent(e, p, code, b'', hs, s)
def v_sends_connect(e, p, code, hs, s): return v_sent(e, p, code, v_fields(e), hs, s)
def last_packet(e, s): return s.packet[:e.length]
def last_headers(e, s):
    r = request_of(last_packet(e, s))
    return [] if r is None else r.headers
# Operation
def put_packet(e, r, v, srm, confirm, g, s):
    g, h, b = gather_all('Put', e.st.limit, r.headers, g, s.headers, s.body)
    s = s._replace(headers=h, body=b)
    if g.full: return v_ends(e, e.peer, 6, s)
    if r.final:
        if g.over: return v_code(e, NOTHING, 0x4D, s)
        return v_asks(e, e.peer, NOTHING, 'Reply', ('Put', g.kept, g.body if g.came else None), s)
    if srm: return v_continues(e, ('Putting', g, True), False, s) if v.additional else v_wants(e, ('Putting', g, True), s)
    if g.over: return v_code(e, ('Trailing',) if e.st.refuse else NOTHING, 0x4D, s)
    return v_continues(e, ('Putting', g, confirm), confirm, s)
def get_packet(e, r, v, srm, confirm, g, s):
    g, h, b = gather_all('Get', e.st.limit, r.headers, g, s.headers, s.body)
    s = s._replace(headers=h, body=b)
    if g.full: return v_ends(e, e.peer, 6, s)
    if r.final: return v_asks(e, e.peer, ('Getting', g, srm, confirm, v.wait), 'Get', ('Get', g.kept), s)
    if srm: return v_wants(e, ('Getting', g, True, confirm, v.wait), s)
    return v_continues(e, ('Getting', g, confirm, False, v.wait), confirm, s)
# Object
def sends_made(e, srm, wait, m, s):
    s = s._replace(reply=m.reply)
    if m.next[0] == 'Send':
        op = NOTHING if m.next[2] else ('Sending', m.out, m.chunk, srm, wait)
        return eng(e, op, 'Taken'), ('Reply', m.next[1]), s
    if m.next[0] == 'Read': return v_asks(e, e.peer, ('Sending', m.out, m.chunk, srm, wait), 'Body', ('Read', m.chunk.room), s)
    return v_code(e, NOTHING, 0x50, s)
def sends_next(e, o, srm, wait, s): return sends_made(e, srm, wait, next_packet(e.peer.remote - 3, o, s.headers, s.reply), s)
# Connect
def response_of(v):
    d = u = n = None
    for t, x in tags(v):
        if t == 0:
            if len(x) != 16: return None
            d = x
        elif t == 1: u = x
        elif t == 2: n = x if len(x) == 16 else None
    return None if d is None else (d, u, n)
def challenge_of(v):
    n, o, r = None, 0, None
    for t, x in tags(v):
        if t == 0:
            if len(x) != 16: return None
            n = x
        elif t == 1: o = x[0] if x else 0
        elif t == 2 and x: r = x
    return None if n is None else (n, o, r)
def write_tags(ts): return b''.join(bytes((t, len(v))) + v for t, v in ts)
def digest(nonce, pw): return hashlib.md5(nonce + b':' + pw).digest()
def verified(demands, nonce, r, pw):
    return (not demands or bool(r[1])) and (r[2] is None or r[2] == nonce) and digest(nonce, pw) == r[0]
def answered_challenge(hs):
    cs = [challenge_of(v) for i, v in hs if i == CHAL]
    return cs[0] if cs and None not in cs else None
def client_response(e, s):
    v = first(RESP, last_headers(e, s))
    return None if v is None else response_of(v)
def connect_packet(e, s):
    p = e.peer._replace(remote=at_least_255(be16(last_packet(e, s), 5)))
    if not e.st.auth: return v_asks(e, p, NOTHING, 'Connect', ('Connect', e.length), s)
    if 8 <= bin(p.window).count('1') and first(RESP, last_headers(e, s)) is not None:
        p = p._replace(window=p.window * 2 % 2 ** 64)
        return v_replies(e, p, NOTHING, 'Taken', packet_bytes(sent_code(0x53), v_fields(e), b''), s)
    if p.challenge is None or client_response(e, s) is None: return v_asks(e, p, NOTHING, 'Nonce', ('Nonce',), s)
    return v_asks(e, p, NOTHING, 'Password', ('Password',), s)
def srm_asked(e, hs):
    v = first(SRM, hs)
    return e.st.srm and v is not None and v[0] == 1
def connect_sends(e, p, code, f, answer, c, s):
    req = last_headers(e, s)
    hs = list(answer) if f is None else [(CID, b32(f))] + list(answer)
    t = first(TARGET, req)
    if t is not None and first(WHO, answer) is None: hs = hs[:1] + [(WHO, t)] + hs[1:]
    ch = answered_challenge(req)
    if ch is not None and c is not None:
        user, pw = c
        hs = hs + [(RESP, write_tags([(0, digest(ch[0], pw))] + ([] if user is None else [(1, user)]) + [(2, ch[0])]))]
    if srm_asked(e, req): hs = hs + [(SRM, b'\x01')]
    return v_sends_connect(e, p, code, all_bytes(hs), s)
def new_id(ids, n):
    for _ in range(66):
        if n != 0xFFFFFFFF and n not in ids: return n
        n = (n + 1) % 2 ** 32
    return n
def opened(p, srm, i, nxt):
    if i in p.ids: return p._replace(srm=srm)
    if 64 <= len(p.ids): return None
    return p._replace(ids=p.ids + (i,), next=nxt, srm=srm)
def connect_answer(e, code, hs, s):
    if not is_success(code): return v_sends_connect(e, e.peer, code, hs, s)
    p, answer, req = e.peer, first(CID, list_of(read_headers(hs, 0))), last_headers(e, s)
    target, srm, f = first(TARGET, req), p.srm or srm_asked(e, req), None
    if answer is not None: q = opened(p, srm, int.from_bytes(answer, 'big'), p.next)
    elif target is not None: f = new_id(p.ids, p.next); q = opened(p, srm, f, (f + 1) % 2 ** 32)
    else: q = p._replace(srm=srm)
    if q is None: return v_sends_connect(e, p, 0x53, b'', s)
    ch = answered_challenge(req)
    if ch is None: return connect_sends(e, q, code, f, list_of(read_headers(hs, 0)), None, s)
    return v_asks(e, q, ('Connecting', code, f, len(hs)), 'Credentials', ('Credentials',), s._replace(headers=front(hs, s.headers)))
def cleared(p): return p._replace(ids=(), remote=MINP, srm=False, authenticated=False)
def disconnected_peer(p, v):
    if v is None: return cleared(p)
    ids = tuple(i for i in p.ids if i != int.from_bytes(v, 'big'))
    return p._replace(ids=ids) if ids else cleared(p)
# Dispatch
def v_trails(r): return r.op == 'Put' and first(NAME, r.headers) is None
def dispatch(e, r, v, s):
    if r.op == 'Connect': return connect_packet(e, s)
    known = v.id is not None and v.id in e.peer.ids
    code = None
    if e.st.auth and not e.peer.authenticated and r.op != 'Disconnect': code = 0x41
    elif v.id is not None and not known: code = 0x53
    if code is not None:
        if e.peer.srm and r.op in ('Put', 'Get') and not r.final: return v_wants(e, ('Draining', code), s)
        return v_code(e, NOTHING, code, s)
    confirms = not e.peer.srm and e.st.srm and v.enable
    if r.op == 'Disconnect': return v_asks(e, e.peer, NOTHING, 'Disconnect', ('Disconnect', e.length), s)
    if r.op == 'Put': return put_packet(e, r, v, e.peer.srm, confirms, G0, s)
    if r.op == 'Get': return get_packet(e, r, v, e.peer.srm, confirms, G0, s)
    raise Exception('an operation that this client does not have: %r' % (r.op,))
def inside(e, r, v, s):
    op = e.op
    def interrupts(): return v_replies(e, e.peer, NOTHING, 'Last', packet_bytes(0xC0, b'', b''), s)
    if op[0] == 'Nothing': return dispatch(e, r, v, s)
    if op[0] == 'Trailing':
        if v_trails(r): return v_code(e, NOTHING if r.final else op, 0x4D, s)
        return dispatch(e, r, v, s)
    if op[0] == 'Putting': return put_packet(e, r, v, op[2], False, op[1], s) if r.op == 'Put' else interrupts()
    if op[0] == 'Getting': return get_packet(e, r, v, op[2], op[3], op[1], s) if r.op == 'Get' else interrupts()
    if op[0] == 'Sending': return sends_next(e, op[1], op[3], v.wait, s) if r.op == 'Get' else interrupts()
    if op[0] == 'Draining': return v_code(e, NOTHING, op[1], s) if r.final else v_wants(e, op, s)
    return interrupts()
def v_busy(op): return op[0] not in ('Nothing', 'Trailing')
def packet_done(e, n, s):
    q = s.packet[:n]
    r, e = request_of(q), e._replace(begun=0, length=n)
    if r is None:
        if v_busy(e.op): return v_ends(e, e.peer, 4, s)
        unknown = q[0] % 128 != 0x7F and (q[0] % 32 == 4 or 8 <= q[0] % 32 < 16)
        return v_code(e, e.op, 0x51 if unknown else 0x40, s)
    if r.op == 'Abort': return v_asks(e, e.peer, NOTHING, 'Acknowledgement', ('Abort', e.length), s)
    return inside(e, r, survey(r.headers), s)
# Guard and calls. Each returns (engine, taken, outcome, stores).
FITS = {'bytes': ('Bytes',), 'ended': ('Bytes',), 'taken': ('Taken', 'Last'), 'reply': ('Connect', 'Disconnect', 'Get', 'Reply'), 'object': ('Get',),
        'ack': ('Acknowledgement',), 'password': ('Password',), 'nonce': ('Nonce',), 'creds': ('Credentials',), 'body': ('Body',), 'failed': ('Body',)}
def v_sound(e):
    ok = e.begun < MAXP and e.length <= MAXP and len(e.peer.ids) <= 64 and MINP <= e.peer.remote
    if e.op[0] in ('Putting', 'Getting'): ok = ok and e.op[1].kept <= MAXP and e.op[1].body <= e.st.limit
    if e.op[0] == 'Sending': ok = ok and sound_outgoing(e.op[1], e.op[2])
    return ok
def v_short(limit, s): return len(s.packet) < MAXP or len(s.headers) < MAXP or len(s.reply) < MAXP or len(s.body) < limit
def v_bad(hs): return MAXP < len(hs) or not canonical(hs)
def server_step(e, realm, s, call):
    k = call[0]
    def no(n): return e, 0, ('Refused', n), s
    if v_short(e.st.limit, s): return no(10)
    if not (v_sound(e) and e.awaits in FITS[k]): return no(9)
    if k == 'bytes':
        b, t, f, p = framed(s.packet, e.begun, call[1])
        s = s._replace(packet=p)
        if f == 'More': return e._replace(begun=b), t, ('WantsBytes',), s
        return after(t, v_ends(e, e.peer, 3, s) if f == 'Short' else packet_done(e, b, s))
    if k == 'ended': return after(0, v_ends(e, e.peer, 1 if e.begun == 0 else 2, s))
    if k == 'taken':
        if e.awaits == 'Last': return after(0, v_ends(e, e.peer, 5, s))
        if e.op[0] == 'Sending' and e.op[3] and not e.op[4]: return after(0, sends_next(e, e.op[1], e.op[3], e.op[4], s))
        return after(0, v_wants(e, e.op, s))
    if k == 'reply':
        _, code, hs = call
        if code not in CODES or v_bad(hs): return no(8)
        if e.awaits == 'Connect': return after(0, connect_answer(e, code, hs, s))
        if e.awaits == 'Disconnect': return after(0, v_sends(e, disconnected_peer(e.peer, first(CID, last_headers(e, s))), code, hs, s))
        return after(0, v_sends(e, e.peer, code, hs, s))
    if k == 'object':
        _, hs, has = call
        if e.op[0] != 'Getting': return no(9)
        if v_bad(hs): return no(8)
        _, g, srm, confirm, wait = e.op
        return after(0, sends_next(e, Out(len(hs), 0, confirm, has, False, 0), srm or confirm, wait, s._replace(headers=front(hs, s.headers))))
    if k == 'body':
        if e.op[0] != 'Sending' or e.op[2].room < len(call[1]): return no(9)
        _, o, c, srm, wait = e.op
        return after(0, sends_made(e, srm, wait, out_body_given(o, c, call[1], s.reply), s))
    if k == 'failed': return after(0, v_code(e, NOTHING, 0x50, s))
    if k == 'ack': return after(0, v_code(e, NOTHING, 0x20, s))
    if k == 'password':
        p, r = e.peer, client_response(e, s)
        right = p.challenge is not None and r is not None and call[1] is not None and verified(e.st.user_enforced and e.st.user_required, p.challenge, r, call[1])
        p = p._replace(window=(p.window * 2 + (not right)) % 2 ** 64)
        if right: return after(0, v_asks(e, p._replace(authenticated=True, challenge=None), NOTHING, 'Connect', ('Connect', e.length), s))
        return after(0, v_asks(e, p, NOTHING, 'Nonce', ('Nonce',), s))
    if k == 'nonce':
        if e.st.has_realm and 254 < len(realm): return no(8)
        if call[1] in e.peer.nonces: return no(15)
        p = e.peer._replace(authenticated=False, challenge=call[1], nonces=((call[1],) + e.peer.nonces)[:32])
        ts = [(0, call[1]), (1, bytes((e.st.user_required + 2 * e.st.read_only,)))] + ([(2, bytes((e.st.charset,)) + realm)] if e.st.has_realm else [])
        return after(0, v_sends_connect(e, p, 0x41, bytes_of((CHAL, write_tags(ts))), s))
    if k == 'creds':
        if e.op[0] != 'Connecting': return no(9)
        if call[1] is not None and call[1][0] is not None and 255 < len(call[1][0]): return no(8)
        _, code, f, n = e.op
        return after(0, connect_sends(e, e.peer, code, f, list_of(read_headers(s.headers[:n], 0)), call[1], s))
def v_started(st): return Engine(st, FRESH, NOTHING, 'Bytes', 0, 0)

# ---- journal/specs: the machine of its own, by which admission is said

class Journal:
    def __init__(j, st):
        j.st, j.begun, j.last, j.opened, j.ended = st, b'', None, ('nothing',), False
        j.auth, j.challenge, j.ids, j.next, j.srm, j.checks, j.records = False, None, [], 1, False, [], []
    def busy(j): return j.opened[0] not in ('nothing', 'trailing')
    def admitted(j, op, hs):
        if j.st.auth and not j.auth and op != 'Disconnect': return False
        v = first(CID, hs)
        return v is None or int.from_bytes(v, 'big') in j.ids
    def asks(j, hs):
        v = first(SRM, hs)
        return j.st.srm and v is not None and v[0] == 1
    def feed(j, call, outcome, byte):
        """One call: no step if it was refused; a reply taken with its first byte."""
        k = call[0]
        if outcome[0] == 'Refused': return
        if k == 'taken':
            if not j.ended and j.opened[0] == 'sending' and byte != 0x90: j.opened = ('nothing',)
            return
        if j.ended: return
        if k == 'bytes':
            b, t, f, p = framed(j.begun, len(j.begun), call[1])
            j.begun = p[:b] if f == 'More' else b''
            if f == 'Short': j.ended = True
            if f == 'Whole': j.packet(p[:b])
        elif k == 'ended': j.ended, j.begun = True, b''
        elif k == 'reply':
            if j.opened[0] == 'getting': j.opened = ('nothing',)
            elif j.opened[0] == 'nothing' and j.last is not None: j.replied(call[1], call[2])
        elif k == 'object':
            if j.opened[0] == 'getting': j.opened = ('sending',)
        elif k == 'password':
            v = first(RESP, [] if j.last is None else j.last.headers)
            r = None if v is None else response_of(v)
            ok = j.challenge is not None and r is not None and call[1] is not None and verified(j.st.user_enforced and j.st.user_required, j.challenge, r, call[1])
            j.checks.insert(0, not ok)
            if ok: j.auth, j.challenge = True, None
        elif k == 'nonce': j.auth, j.challenge = False, call[1]
    def replied(j, code, hs):
        r = j.last
        if r.op == 'Connect' and is_success(code):
            a, t = first(CID, list_of(read_headers(hs, 0))), first(TARGET, r.headers)
            srm = j.srm or j.asks(r.headers)
            if a is not None: i, n = int.from_bytes(a, 'big'), j.next
            elif t is not None: i = new_id(j.ids, j.next); n = (i + 1) % 2 ** 32
            else: j.srm = srm; return
            if i in j.ids: j.srm = srm
            elif len(j.ids) < 64: j.ids, j.next, j.srm = j.ids + [i], n, srm
        elif r.op == 'Disconnect':
            v = first(CID, r.headers)
            left = [] if v is None else [i for i in j.ids if i != int.from_bytes(v, 'big')]
            j.ids = left
            if not left: j.auth = j.srm = False
    def packet(j, p):
        r = request_of(p)
        if r is None:
            if j.busy(): j.ended = True
            else: j.last = None
            return
        if r.op == 'Abort': j.last, j.opened = r, ('nothing',); return
        k = j.opened[0]
        if k == 'trailing' and v_trails(r): j.last, j.opened = r, ('nothing',) if r.final else j.opened
        elif k in ('nothing', 'trailing'): j.first(r)
        elif k == 'putting':
            if r.op != 'Put': j.ended = True; return
            j.put(r, j.opened[2], j.opened[2], j.opened[1])
        elif k in ('getting', 'sending'):
            if r.op != 'Get': j.ended = True; return
            j.last = r
        elif k == 'draining': j.last, j.opened = r, ('nothing',) if r.final else j.opened
    def first(j, r):
        j.last, j.opened = r, ('nothing',)
        if r.op == 'Connect':
            if j.st.auth and sum(j.checks[:64]) >= 8 and first(RESP, r.headers) is not None: j.checks.insert(0, False)
        elif r.op in ('Put', 'Get'):
            if not j.admitted(r.op, r.headers): j.opened = ('draining',) if j.srm and not r.final else ('nothing',)
            elif r.op == 'Put': j.put(r, j.srm, j.srm or j.asks(r.headers), (b'', None))
            else: j.opened = ('getting',)
    def put(j, r, srm, nxt, c):
        h, b = c
        for i, v in r.headers:
            if is_body(i): b = (b or b'') + v
            elif not is_srm(i): h += bytes_of((i, v))
        j.last, j.opened, fits = r, ('nothing',), len(b or b'') <= j.st.limit
        if r.final:
            if fits: j.records.append((h, b))
        elif fits or srm: j.opened = ('putting', (h, b), nxt)
        elif j.st.refuse: j.opened = ('trailing',)
    # Claims: admission of a Put whose first packet has these headers
    def is_admitted(j, hs): return j.admitted('Put', hs) and not (j.opened[0] == 'trailing' and first(NAME, hs) is None)

# ---- link/specs/Link

OVER = ('Done', 'Stopped', 'Aborted', 'End')
class Link:
    def __init__(l, st, cs, realm, vst, cst):
        l.client, l.stores, l.said = c_started(cs), cst, ('Ready',)
        l.engine, l.vstores, l.told, l.realm = v_started(st), vst, ('WantsBytes',), realm
        l.up, l.down = b'', b''
        l.journal, l.records_all, l.connected, l.run = Journal(st), [], False, None
        l.log, l.extra, l.given_id, l.parts_all = [], [], None, (b'', None)
    def user_step(l, u):
        c, s = l.client, l.stores
        if u[0] == 'connect': return connect_step(c, u[1], s)
        if u[0] == 'get': return request_step(c, 'Get', u[1], False, s)
        if u[0] == 'disconnect': return disconnect_step(c, u[1], s)
        if u[0] == 'put': return request_step(c, 'Put', u[1], u[2], s)
        if u[0] == 'body': return c_body_step(c, u[1], s)
        if u[0] == 'abort': return abort_step(c, s)
        return part_taken_step(c, s)
    def server_call(l, m):
        if m[0] == 'host': return m[1]
        if m[0] == 'sendDown': return ('taken',) if l.told[0] == 'Reply' else None
        if m[0] == 'offerUp': return ('bytes', l.up[:m[1]])
        if m[0] == 'closeUp': return ('ended',) if l.said[0] == 'End' and not l.up else None
        return None
    def client_did(l, m):
        l.client, taken, o, l.stores = m
        if o[0] != 'Refused': l.said = o
        return taken, o
    def move(l, m):
        """Makes a move, and looks at Names: whenever an operation may be called, the client's ConnectionID is the one given last, and it is open."""
        o = l.moved(m)
        if l.client.awaits == 'Call':
            STAT['Names: moments%s' % ('' if l.given_id is None else ' with an id')] += 1
            if (None if l.client.id is None else b32(l.client.id)) != l.given_id: l.extra.append('Names: id of the last accepted Connect')
            if l.client.id is not None and l.client.id not in l.engine.peer.ids: l.extra.append('Names: id open')
        return o
    def moved(l, m):
        """Makes a move and tells the run of it (link/specs/Told)."""
        k, run = m[0], l.run
        l.log.append(m)
        if k == 'user':
            u = m[1]
            if run: run.before(l)
            c = l.client
            _, o = l.client_did(l.user_step(u))
            goes = o[0] != 'Refused'
            if u[0] == 'disconnect' and goes: l.connected, l.given_id = False, None
            if run and goes:
                if u[0] == 'body': run.given += u[1]
                if u[0] == 'abort':
                    run.aborted = True
                    x = c.op
                    run.seen['abort at %s %s%s%s' % (x[0], c.awaits, ', SRM on' if (x[4] if x[0] == 'Requesting' else x[1]) else '',
                        (', first packet' if x[5] else '') + (', last packet' if x[6] else '') if x[0] == 'Requesting' else '') + (', response begun' if c.begun else '')] += 1
            return o
        if run: run.before(l)
        if k == 'sendUp':
            if l.said[0] == 'Send':
                n = l.said[1]
                if run and l.stores.request[0] == 0x82: run.final = True
                l.up += l.stores.request[:n]
                if n > (at_least_255(l.engine.st.max) if l.connected else MINP): l.extra.append('within')
                l.client_did(request_sent_step(l.client, l.stores))
        elif k == 'offerDown':
            connecting = l.client.op[0] == 'Connecting'
            taken, o = l.client_did(c_bytes_step(l.client, l.down[:m[1]], l.stores))
            l.down = l.down[taken:]
            if connecting and l.said[0] == 'Done' and is_success(l.said[1]): l.connected = True
            if o[0] == 'Part': l.parts_all = (l.parts_all[0] + l.stores.headers[:o[1]], join(l.parts_all[1], None if o[2] is None else l.stores.body[:o[2]]))
            if run and o[0] == 'Part' and run.aborted: l.extra.append('late')
            if run and o[0] == 'Part': run.part(l.stores.headers[:o[1]], None if o[2] is None else l.stores.body[:o[2]])
        elif k == 'closeDown':
            if l.told[0] == 'End' and not l.down: l.client_did(c_ended_step(l.client, l.stores))
        else:
            call = l.server_call(m)
            if call is None: return None
            if k == 'sendDown':
                q = l.vstores.reply[:l.told[1]]
                l.down += q
                if run and q: run.last_reply = q[0]
                if len(q) > at_least_255(l.client.st.max): l.extra.append('x: reply within the client\'s limit')
                if l.client.op[0] == 'Connecting' and is_success(q[0] % 128): l.given_id = first(CID, read_headers(q, 7))
            byte = l.vstores.reply[0]
            l.engine, taken, o, l.vstores = server_step(l.engine, l.realm, l.vstores, call)
            l.up = l.up[taken:]
            if o[0] != 'Refused': l.told = o
            l.journal.feed(call, o, byte)
            if o[0] == 'Request' and o[1] == 'Put': l.records_all.append((l.vstores.headers[:o[2]], None if o[3] is None else l.vstores.body[:o[3]]))
            if run: run.performed(call, o, l.vstores)
            return o

# ---- link/specs/Told: what a run tells, from the call of the operation on

def join(a, b): return b if a is None else a if b is None else a + b
class Run:
    """The folds of Told along a run: `before` is told each move before it is made."""
    def __init__(r, kind, l, hs, has):
        r.kind, r.hs, r.has = kind, hs, has
        r.id, r.limit = l.client.id, at_least_255(l.client.st.max)
        lead = leading(r.id, l.client.st.srm)
        room, fit = cap(l.client) - len(lead), []
        for h in list_of(read_headers(hs, 0)):
            if room < len(bytes_of(h)): break
            fit.append(h); room -= len(bytes_of(h))
        r.admitted = l.journal.is_admitted(leading_headers(r.id, l.client.st.srm) + fit)
        r.get_admitted = l.journal.admitted('Get', leading_headers(r.id, False))
        r.tail = l.journal.opened[0] == 'trailing'
        r.connected = l.connected
        r.given, r.aborted, r.final, r.last_reply = b'', False, False, None
        r.records, r.asked, r.answer, r.object, r.parts, r.nparts = [], [], None, None, (b'', None), 0
        r.free_at, r.bad, r.seen = collections.Counter(), [], collections.Counter()
    def before(r, l):
        """PutHolds.free, at the prefix of the moves made so far."""
        if r.kind != 'Put' or l.said[0] in OVER or r.aborted or r.final: return
        r.free_at[(l.client.awaits, l.client.op[0], l.client.op[6] if l.client.op[0] == 'Requesting' else None)] += 1
        if c_guard(abort_fits(l.client), l.client, l.stores) is not None: r.bad.append('free')
    def performed(r, call, o, s):
        went = o[0] != 'Refused'
        if o[0] == 'Request' and o[1] == 'Put': r.records.append((s.headers[:o[2]], None if o[3] is None else s.body[:o[3]]))
        if o[0] == 'Request' and o[1] == 'Get': r.asked.append(s.headers[:o[2]])
        if went and call[0] == 'reply' and r.answer is None: r.answer = (call[1], call[2])
        if went and call[0] == 'body' and r.object is not None: r.object = (r.object[0], join(r.object[1], call[1]))
        if went and call[0] == 'object' and r.object is None: r.object = (call[1], b'' if call[2] else None)
    def part(r, h, b): r.parts = (r.parts[0] + h, join(r.parts[1], b)); r.nparts += 1
    # Claims
    def check(r, l, st):
        """The fields that do not hold, once the operation is over (`Until`)."""
        said, bad = l.said, list(r.bad)
        ok = said[0] == 'Done' and is_success(said[1])
        accepted = r.answer is not None and is_success(r.answer[0]) and 3 + len(r.answer[1]) <= r.limit
        if r.kind == 'Put':
            want = [(leading(r.id, False) + r.hs, r.given if r.has else None)]
            if r.records != want and r.records != []: bad.append('one')
            r.premises = r.admitted and len(r.given) <= st.limit and not r.aborted and len(leading(r.id, False) + r.hs) <= MAXP
            if r.premises and r.records != want: bad.append('gives')
            if ok != accepted: bad.append('success')
            if ok and r.records != want: bad.append('sure')
            if r.aborted and r.records != []: bad.append('aborted')
            if r.records != [] and not r.premises: bad.append('only')
            if said[0] == 'Done' and not r.final: bad.append('done')
            if said[0] == 'Stopped' and r.final: bad.append('stopped')
            if said[0] == 'Aborted' and (r.final or not r.aborted): bad.append('aborted')
        else:
            if said[0] == 'Stopped': bad.append('never stopped')
            if said[0] == 'Done' and r.aborted: bad.append('done')
            if said[0] == 'Aborted' and not r.aborted: bad.append('aborted')
            if r.get_admitted and not r.aborted and len(leading(r.id, False) + r.hs) <= MAXP and r.asked != [leading(r.id, False) + r.hs]: bad.append('asks')
            whole = r.object is not None and r.last_reply == 0xA0
            r.whole = whole
            if not r.aborted:
                if r.asked != [leading(r.id, False) + r.hs] and r.asked != []: bad.append('asked')
                if ok != (whole or accepted): bad.append('success')
                if whole and r.object != r.parts: bad.append('object')
                if accepted and r.parts != (r.answer[1], None): bad.append('reply')
            else:
                if r.asked != [leading(r.id, False) + r.hs] and r.asked != []: bad.append('asked(aborted Get)')
                if ok: bad.append('success(aborted Get)')
        r.ok, r.accepted = ok, accepted
        x, code = l.extra, said[1] if said[0] in ('Done', 'Stopped', 'Aborted') else None
        if r.kind == 'Put':
            if r.admitted and not r.aborted and len(r.given) > st.limit and code not in (0x4D, None): x.append('x: 4D past the limit')
            if not r.admitted and (r.records or r.aborted is False and code not in (0x41, 0x4D)): x.append('x: not admitted')
        else:
            if not r.get_admitted and r.asked: x.append('x: Get not admitted asks')
            if r.object is not None and not r.aborted and said[0] == 'Done' and not whole and code != 0x50: x.append('x: object not whole is 50')
        tag = '' if r.kind == 'Put' or not r.aborted else '(aborted Get)'
        if said[0] in ('Done', 'Stopped', 'Aborted') and (r.last_reply != sent_code(said[1]) or said[1] == 0x10): bad.append('ends.code' + tag)
        if said[0] == 'End' and said[1] != 1: bad.append('ends.number' + tag)
        if said[0] == 'End' and l.told not in (('End', 6), ('End', 7)): bad.append('ended')
        return bad

# ---- runs: a move with the bookkeeping of which operation is open

STAT = collections.Counter()
def do(l, st, m):
    """A move. Returns the claims' fields that fail with it (the operation is over with it), or []."""
    start = m[0] == 'user' and m[1][0] in ('put', 'get') and l.client.awaits == 'Call'
    if start:
        run = Run('Put' if m[1][0] == 'put' else 'Get', l, m[1][1], m[1][0] == 'put' and m[1][2])
        o = l.move(m)
        if o[0] == 'Refused': STAT['call refused %d' % o[1]] += 1; return []
        l.run = run
        return ['over at once'] if l.said[0] in OVER else []
    idle = l.client.awaits == 'Call'
    o = l.move(m)
    bad = []
    if l.run and l.said[0] in OVER:
        run, l.run = l.run, None
        bad = run.check(l, st)
        if not run.connected:
            STAT['%s without the premise connected%s' % (run.kind, ' (fails %s)' % ','.join(sorted(set(bad))) if bad else '')] += 1
            bad = []
        else: count(l, st, run)
    if not idle and l.client.awaits == 'Call':
        e = l.engine
        if not (e.awaits == 'Bytes' and not v_busy(e.op) and e.begun == 0 and l.up == b'' and l.down == b''): bad.append('at rest')
    if l.client.awaits == 'Call' and e_ended(l): bad.append('server ended, client idle')
    if l.extra: bad += l.extra; l.extra = []
    return bad
def e_ended(l): return l.engine.awaits == 'Nothing'
def count(l, st, r):
    """Coverage: which premises and which interesting cases were met."""
    C, said = STAT, l.said
    k, srm = r.kind, l.client.st.srm and st.srm
    C['%s checked' % k] += 1
    C['%s said %s%s' % (k, said[0], '' if said[0] == 'End' else ' 2x' if is_success(said[1]) else ' other')] += 1
    if said[0] == 'End': C['%s ends, the server ended with %s' % (k, l.told[1] if l.told[0] == 'End' else '?')] += 1
    if r.tail: C['%s called while a tail is refused' % k] += 1
    if r.id is not None: C['%s under a ConnectionID' % k] += 1
    for x, n in r.seen.items(): C['%s %s' % (k, x)] += 1
    if k == 'Put':
        for f in ('admitted', 'aborted', 'premises'): C['Put %s=%s' % (f, getattr(r, f))] += 1
        C['Put record %d' % len(r.records)] += 1
        if not r.admitted: C['Put not admitted: %s' % ('password' if st.auth and not l.journal.auth else 'tail' if r.tail else 'id')] += 1
        if r.tail and r.admitted: C['Put called while a tail is refused, admitted by its Name'] += 1
        if r.premises: C['gives: %s%s%s' % ('no body' if not r.has else 'empty body' if not r.given else 'body', ', SRM' if srm else '', ', at the limit' if len(r.given) == st.limit else '')] += 1
        if r.admitted and not r.aborted and len(r.given) > st.limit: C['Put over the limit%s' % (', SRM' if srm else '')] += 1
        kept = len(leading(r.id, False) + r.hs)
        if kept > 60000: C['Put kept headers %s' % ('over 65535' if kept > MAXP else 'exactly 65535' if kept == MAXP else '60000..65534')] += 1
        if r.accepted: C['success: accepted%s' % (', reply exactly at the limit' if 3 + len(r.answer[1]) == r.limit else ', with headers' if r.answer[1] else '')] += 1
        elif r.answer is not None and is_success(r.answer[0]): C['success: accepted over the limit%s' % (' (7)' if 3 + len(r.answer[1]) > MAXP else '')] += 1
        elif r.answer is not None: C['success: host refuses'] += 1
        if r.aborted: C['aborted: %s%s' % (said[0], ', SRM' if srm else '')] += 1
        for (a, op, last), n in r.free_at.items(): C['free: prefixes at %s%s' % (a, ', final packet waits' if last else '')] += n
    elif r.aborted: C['Get aborted: %s' % said[0]] += 1
    else:
        C['Get asked %d' % len(r.asked)] += 1
        if r.whole: C['object: %s%s, %s' % ('no body' if r.object[1] is None else 'empty body' if not r.object[1] else 'body', ', SRM' if srm else '', '1 part' if r.nparts == 1 else '2+ parts')] += 1
        elif r.object is not None: C['object not whole: %s' % ('code %02x' % said[1] if said[0] == 'Done' else said[0]) + (' after parts' if r.nparts else '')] += 1
        if r.accepted: C['reply: accepted%s' % (', exactly at the limit' if 3 + len(r.answer[1]) == r.limit else ', with headers' if r.answer[1] else '')] += 1
        elif r.answer is not None: C['reply: %s' % ('over the limit' if is_success(r.answer[0]) else 'host refuses')] += 1
        if len(leading(r.id, False) + r.hs) > MAXP: C['Get kept headers over 65535'] += 1

# ---- random parts

GOOD = sorted(c for c in CODES if is_success(c)); FAIL = sorted(c for c in CODES if not is_success(c) and c != 0x10)
PW = b'pw'
def rb(R, n): return R.randbytes(n)
def text_header(i, s): return bytes_of((i, b''.join(b16(ord(c)) for c in s) + b'\0\0' if s else b''))
def exact(R, n):
    """Header bytes of exactly n bytes in all, if there are such."""
    if n == 0 or n == 1 or n < 0: return b''
    if n == 2: return b'\xb0' + rb(R, 1)
    if n <= MAXP: return bytes_of((R.choice((HTTP, 0x70)), rb(R, n - 3)))
    return exact(R, 65000) + exact(R, n - 65000)
def one_header(R, most):
    k = R.randrange(16)
    if k == 0: return text_header(NAME, 'n' * R.randrange(0, 20))
    if k == 1: return text_header(NAME, '')
    if k == 2: return bytes_of((TYPE, b't' * R.randrange(0, 30) + b'\0'))
    if k == 3: return b'\xc3' + rb(R, 4)
    if k == 4: return bytes_of((TIME, b'20260801T000000Z'))
    if k == 5: return text_header(R.choice((0x05, 0x15, 0x30)), 'd\u00e9\u20ac' * R.randrange(0, 6))
    if k == 6: return bytes_of((TARGET, rb(R, R.choice((0, 3, 16, 17)))))
    if k == 7: return bytes_of((R.choice(TAGGED), write_tags([(R.randrange(5), rb(R, R.choice((0, 1, 16)))) for _ in range(R.randrange(3))])))
    if k == 8: return bytes((R.choice((0x93, 0xb0, 0x80)),)) + rb(R, 1)
    if k == 9: return b'\x94' + bytes((R.choice((0, 1, 2, 0x80, 0xFF)),))
    if k == 10: return b'\xd6\0' + rb(R, 3)
    if k == 11: return bytes((R.choice((0xC0, 0xC4, 0xCF, 0xF0)),)) + rb(R, 4)
    if k == 12: return bytes_of((WHO, rb(R, R.randrange(20))))
    return exact(R, max(0, most - R.choice((0, 0, 1, 2, 3, 5, 6, 7, 8, 9, 10, 11, 12, 40, most // 2))))
def headers(R, most, n=None): return b''.join(one_header(R, most) for _ in range(R.choice((0, 0, 1, 1, 2, 3, 5)) if n is None else n))
def huge(R, most, total):
    out = b''
    while total - len(out) > most + 3:
        out += exact(R, R.choice((most, most, most - 3, max(3, most // 2))))
    rest = total - len(out)
    while rest > most: k = min(most, rest - 3); out += exact(R, k); rest -= k
    return out + exact(R, rest)
def bad_headers(R, most):
    return R.choice((b'\xcb\0\0\0\1', b'\x97\1', b'\x98\0', bytes_of((BODY, b'x')), bytes_of((EOB, b'')), b'\x01', b'\x42\0\4a', b'\xd6\1\0\0\0', exact(R, most + 1)))
def plain(hs): return not any(is_body(i) or is_srm(i) for i, _ in list_of(read_headers(hs, 0)))

class Session:
    def __init__(z, R, mode):
        z.R, z.mode = R, mode
        lims = (0, 100, 255, 255, 256, 300, 300, 1024, 65535)
        z.st = SS(limit=R.choice((0, 10, 200, 250, 300, 500, 700, 2000, 2000, 5000, 70000)), max=R.choice(lims), charset=R.randrange(3), has_realm=R.random() < .3,
                  srm=R.random() < .65, auth=R.random() < .2, user_required=R.random() < .4, read_only=R.random() < .3, user_enforced=R.random() < .5, refuse=R.random() < .45)
        z.cs = CS(R.choice(lims), R.random() < .65)
        if mode in ('lockout', 'password'): z.st = z.st._replace(auth=True)
        if mode == 'tail': z.st = z.st._replace(refuse=True, limit=R.choice((0, 10, 200, 300)), auth=False); z.cs = z.cs._replace(srm=R.random() < .3)
        if mode == 'huge': z.st = z.st._replace(auth=False, limit=R.choice((10, 2000)))
        if mode == 'ids': z.st = z.st._replace(auth=False)
        if mode == 'big':
            z.st = z.st._replace(auth=False, max=R.choice((65535, 65535, 65534, 40000)), limit=R.choice((65000, 65525, 65529, 70000, 140000)))
            z.cs = z.cs._replace(max=R.choice((65535, 65535, 65534, 40000)))
        z.realm = rb(R, R.choice((0, 5, 200, 254)))
        z.l = Link(z.st, z.cs, z.realm, *stores(R, z.st))
        z.nonce, z.ops, z.body, z.obj, z.connects = None, 0, b'', b'', 0
        z.most_ops = {'ids': 75, 'lockout': 40, 'huge': 4, 'big': 5}.get(mode, R.choice((3, 6, 10)))
        z.noise = R.choice((0, 0, .03, .1, .3))
        z.new_plan()
    def new_plan(z):
        R = z.R
        z.abort_p = R.choice((0, 0, 0, 0, .02, .1, .3, .6))
        z.bias = R.choice(('any', 'any', 'client', 'server', 'down'))
        z.cut = R.choice((1.0, 1.0, .5, 0))
        z.piece = R.choice((None, None, None, 1, 7, 100))
        z.fail_p = R.choice((0, 0, 0, .05, .3))
    # -- the user
    def op(z):
        R, l = z.R, z.l
        capacity = cap(l.client)
        z.ops += 1; z.new_plan()
        x = R.random()
        if z.mode == 'ids' and z.connects < 66 or not l.connected and x < .85 or z.mode in ('lockout',) and x < .75: return ('connect', z.connect_headers())
        if x < .03: return R.choice((('put', bad_headers(R, capacity), True), ('get', bad_headers(R, capacity)), ('connect', bad_headers(R, 248)), ('disconnect', bad_headers(R, 248))))
        if x < .10: return ('connect', z.connect_headers())
        if x < .15: return ('disconnect', R.choice((b'', b'', headers(R, 50, 1), exact(R, 243), exact(R, 248))))
        if z.mode == 'huge' and R.random() < .6: hs = huge(R, capacity, R.choice((65535, 65534, 65533, 65532, 65531, 65530, 65529, 65528, 65000)))
        elif z.mode == 'tail' and R.random() < .5: hs = R.choice((b'', text_header(NAME, 'a'), exact(R, capacity - R.choice((0, 3, 5, 7, 8, 10))) + text_header(NAME, 'b'), headers(R, capacity)))
        else: hs = headers(R, capacity)
        if x < .62 or z.mode == 'tail' and x < .9:
            has = R.random() < .85
            lim, small = z.st.limit, min(capacity, 2000)
            n = R.choice((0, 1, 100, small - 3, small - 2, small - 10, small, small + 1, 2 * small, lim, lim, lim + 1, max(0, lim - 1), lim + 300, lim // 2, 700, 1500))
            if n > 6000 and R.random() < .8: n = 700
            if z.mode == 'big': n = R.choice((lim, lim + 1, capacity, capacity - 3, capacity - R.randrange(0, 40), 2 * capacity - R.randrange(0, 40), 65535))
            z.body = rb(R, n)
            return ('put', hs, has)
        return ('get', hs)
    def connect_headers(z):
        R = z.R; z.connects += 1
        if z.mode == 'ids' and z.connects <= 66: return bytes_of((TARGET, rb(R, 3)))
        hs = b''
        if R.random() < .6: hs += bytes_of((TARGET, rb(R, R.choice((0, 3, 16, 16, 17, 60)))))
        if R.random() < .15: hs += headers(R, 60, 1)
        if R.random() < .1: hs += bytes_of((CHAL, write_tags([(0, rb(R, R.choice((16, 16, 16, 15)))), (1, bytes((R.randrange(4),)))])))
        if R.random() < .05: hs = bytes_of((TARGET, rb(R, R.choice((235, 240, 241, 245)))))
        if z.st.auth and z.nonce is not None and R.random() < .9:
            right = R.random() < (.15 if z.mode == 'lockout' else .8)
            user = R.choice((None, b'', b'u', b'user'))
            hs += bytes_of((RESP, write_tags([(0, digest(z.nonce, PW) if right else rb(R, R.choice((16, 16, 16, 15))))] + ([] if user is None else [(1, user)]) + ([(2, z.nonce)] if R.random() < .5 else []))))
        return hs if len(hs) <= 248 or R.random() < .2 else hs[:0]
    def body_piece(z, room):
        n = min(room, z.piece if z.piece and len(z.body) < 2000 and (z.piece > 1 or len(z.body) < 300) else room)
        d, z.body = z.body[:n], z.body[n:]
        return d
    # -- the host
    def reply_headers(z):
        R, lim = z.R, z.l.engine.peer.remote
        x = R.random()
        if x < .5: hs = b''
        elif x < .75: hs = headers(R, lim - 3)
        elif x < .97: hs = exact(R, lim - 3 + R.choice((-1, 0, 0, 0, 1, 1, 2, 10)))
        else: hs = exact(R, R.choice((65530, 65532, 65533, 65535, 65536)))
        return hs if plain(hs) else b''
    def answer(z, r):
        R = z.R; k = r[1]
        if R.random() < .02: return R.choice((('reply', 0x2F, b''), ('reply', 0, b''), ('reply', 0x20, b'\x42\0\4a'), ('object', b'\x01\0', True), ('failed',), ('ack',)))
        if k == 'Connect':
            hs = b'' if z.mode == 'ids' else R.choice((b'', b'', b'', b'\xcb' + b32(R.choice((1, 2, 5, 7, 0xFFFFFFFF))), headers(R, 60, 1), z.reply_headers()))
            return ('reply', R.choice((0x20, 0x20, 0x20, 0x20, 0x20, 0x20, R.choice(GOOD), R.choice(FAIL))), hs)
        if k == 'Disconnect': return ('reply', R.choice((0x20, 0x20, R.choice(GOOD), R.choice(FAIL))), z.reply_headers())
        if k == 'Put': return ('reply', R.choice((0x20, 0x20, R.choice(GOOD), R.choice(FAIL))), z.reply_headers())
        if k == 'Get':
            if R.random() < .25: return ('reply', R.choice((0x20, R.choice(GOOD), R.choice(FAIL))), z.reply_headers())
            c = z.l.engine.peer.remote - 3
            hs = headers(R, c)
            if z.mode == 'huge' and R.random() < .3: hs = huge(R, c, R.choice((65535, 65530, 60000)))
            if R.random() < .06: hs += exact(R, c + 1)
            if not plain(hs): hs = b''
            small = min(c, 2000)
            z.obj = rb(R, R.choice((0, 0, 1, 10, small - 3, small - 2, small - 4, small - 5, small - 6, small, 2 * small, 2 * small - 6, 3 * small, 700)))
            if z.mode == 'big': z.obj = rb(R, R.choice((c, c - 3, c - R.randrange(0, 40), 2 * c - R.randrange(0, 40), 65535)))
            return ('object', hs, R.random() < .8)
        if k == 'Read':
            if R.random() < z.fail_p: return ('failed',)
            n = min(r[2], z.piece if z.piece and (z.piece > 1 or len(z.obj) < 300) else r[2]); d, z.obj = z.obj[:n], z.obj[n:]
            return ('body', d)
        if k == 'Abort': return ('ack',)
        if k == 'Password': return ('password', R.choice((PW, PW, PW, PW, PW, PW, None, b'other')))
        if k == 'Nonce': return ('nonce', R.choice(z.l.engine.peer.nonces) if z.l.engine.peer.nonces and R.random() < .03 else rb(R, 16))
        return ('creds', R.choice((None, (None, b'x'), (b'me', b'x'), (b'm' * 255, b'x'), (b'm' * 256, b'x'))))
    def noise_move(z):
        R, l = z.R, z.l
        k = R.randrange(12)
        if k == 0 and l.client.awaits != 'Call': return ('user', R.choice((('put', b'', True), ('get', b''), ('connect', b''), ('disconnect', b''))))
        if k == 1: return ('user', R.choice((('body', b''), ('body', b'zz'), ('body', bytes(70000))))) if l.client.awaits != 'Body' else ('user', ('body', bytes(70000)))
        if k == 2 and l.client.awaits != 'Taken': return ('user', ('partTaken',))
        if k == 3 and not abort_fits(l.client): return ('user', ('abort',))
        if k in (4, 5, 6) and l.told[0] != 'Request':
            return ('host', R.choice((('reply', R.choice(GOOD + FAIL), b''), ('object', b'', True), ('body', b''), ('failed',), ('ack',), ('password', PW), ('nonce', rb(R, 16)), ('creds', None))))
        if k == 7: return ('offerUp', R.choice((0, 1)))
        if k == 8: return ('offerDown', R.choice((0, 1)))
        if k == 9: return R.choice((('closeUp',), ('closeDown',)))
        if k == 10: return R.choice((('sendUp',), ('sendDown',)))
        return ('offerDown', 5)
    def progress(z):
        """The moves that lead on, by end."""
        l, R = z.l, z.R
        c, s = [], []
        if l.said[0] == 'Send': c.append('sendUp')
        if l.said[0] == 'Read': c.append('body')
        if l.said[0] == 'Part': c.append('partTaken')
        if l.client.awaits == 'Bytes' and l.down: c.append('offerDown')
        if l.client.awaits == 'Bytes' and l.told[0] == 'End' and not l.down: c.append('closeDown')
        if l.engine.awaits == 'Bytes' and l.up: s.append('offerUp')
        if l.told[0] == 'Reply': s.append('sendDown')
        if l.told[0] == 'Request': s.append('host')
        if l.said[0] == 'End' and not l.up and l.engine.awaits == 'Bytes': s.append('closeUp')
        return c, s
    def step(z):
        """One random move; None if the session is over, 'stuck' if nothing leads on."""
        l, R = z.l, z.R
        if R.random() < z.noise: return z.noise_move()
        if l.client.awaits == 'Call':
            if l.run is None and z.ops < z.most_ops: return ('user', z.op())
            return None
        if l.client.awaits == 'Nothing' and e_ended(l): return None
        if l.run and abort_fits(l.client) and R.random() < z.abort_p: return ('user', ('abort',))
        c, s = z.progress()
        both = c + s
        if not both: return None if l.client.awaits == 'Nothing' else 'stuck'
        pool = both
        if z.bias == 'client' and c and R.random() < .9: pool = c
        if z.bias == 'server' and s and R.random() < .9: pool = s
        if z.bias == 'down' and 'offerDown' in c and R.random() < .8: pool = ['offerDown']
        m = R.choice(pool)
        def n(q): return len(q) if R.random() < z.cut else (R.choice((1, 2, 3, 4, 7, 50, 255, 256, 300, len(q), MAXP)) if len(q) < 3000 else R.choice((1, 3, 300, len(q) // 3, len(q) - 1, len(q), MAXP)))
        if m == 'offerUp': return (m, n(l.up))
        if m == 'offerDown': return (m, n(l.down))
        if m == 'body': return ('user', ('body', z.body_piece(l.said[1])))
        if m == 'partTaken': return ('user', (m,))
        if m == 'host': return ('host', z.answer(l.told))
        return (m,)

def stores(R, st):
    """The server's stores and the client's, with garbage in them."""
    g = R.randbytes(MAXP + 200)
    def some(k): n = MAXP + R.choice((0, 0, 0, 7)); return g[k:k + n]
    big = (g * (st.limit // len(g) + 1))[:st.limit]
    return VSt(some(1), some(2), big, some(3)), St(some(4), some(5), some(6), some(7))

# ---- liveness: a fair order and a host that answers, from a state that was reached

def fair(l, most=6000):
    """Returns how many moves it takes until the client's operation is over, or None."""
    import copy
    q = copy.copy(l)
    q.journal, q.run, q.log, q.records_all = Journal(l.engine.st), None, [], []
    k = 0
    while k < most:
        if q.said[0] in OVER or q.client.awaits in ('Call', 'Nothing'): return k
        before = k
        for m in ('sendUp', 'user', 'offerUp', 'host', 'sendDown', 'offerDown', 'closeDown'):
            if m == 'sendUp' and q.said[0] == 'Send': mv = (m,)
            elif m == 'user' and q.said[0] == 'Read': mv = ('user', ('body', b''))
            elif m == 'user' and q.said[0] == 'Part': mv = ('user', ('partTaken',))
            elif m == 'offerUp' and q.engine.awaits == 'Bytes' and q.up: mv = (m, MAXP)
            elif m == 'sendDown' and q.told[0] == 'Reply': mv = (m,)
            elif m == 'offerDown' and q.client.awaits == 'Bytes' and q.down: mv = (m, MAXP)
            elif m == 'closeDown' and q.told[0] == 'End' and not q.down and q.client.awaits == 'Bytes': mv = (m,)
            elif m == 'host' and q.told[0] == 'Request':
                a = {'Connect': ('reply', 0x20, b''), 'Disconnect': ('reply', 0x20, b''), 'Put': ('reply', 0x20, b''), 'Get': ('object', b'', True), 'Read': ('body', b''),
                     'Abort': ('ack',), 'Password': ('password', None), 'Nonce': ('nonce', b'%016d' % k), 'Credentials': ('creds', None)}[q.told[1]]
                mv = ('host', a)
            else: continue
            q.move(mv); k += 1
            if q.said[0] in OVER: return k
        if k == before: return None
    return None

def replay(st, cs, realm, seed, moves):
    """A list of moves from two fresh ends: the fields that fail, at the first operation where some do."""
    l = Link(st, cs, realm, *stores(random.Random(seed), st))
    for k, m in enumerate(moves):
        bad = do(l, st, m)
        if bad: return sorted(set(bad)), k + 1, l
    return [], len(moves), l
def minimise(st, cs, realm, moves, want):
    global STAT
    keep, STAT = STAT, collections.Counter()
    def fails(ms):
        try: return replay(st, cs, realm, 5, ms)
        except Exception: return [], 0, None
    bad, n, _ = fails(moves); moves = moves[:n]
    size = max(1, len(moves) // 2)
    while bad and size:
        k = 0
        while k < len(moves):
            t = moves[:k] + moves[k + size:]
            b, n, _ = fails(t)
            if set(b) & set(want): moves = t[:n]
            else: k += size
        size //= 2
    STAT = keep
    return moves
def show(m):
    def f(x): return x.hex() if isinstance(x, bytes) and len(x) <= 24 else '<%d bytes>' % len(x) if isinstance(x, bytes) else str(x) if not isinstance(x, tuple) else '(' + ' '.join(map(f, x)) + ')'
    return f(m)

# ---- client_model/specs/Refusals: the claim ClientRefusals, on the client alone with any responses

class Known:
    def __init__(k): k.waits, k.opened, k.aborted, k.last, k.limit, k.id = ('operation',), 'closed', False, False, MINP, None
    def expected(k, c):
        w, n = k.waits[0], c[0]
        if n in ('connect', 'disconnect', 'put', 'get'): return w == 'operation'
        if n == 'sent': return w == 'sending'
        if n == 'body': return w == 'reading' and len(c[1]) <= k.waits[1]
        if n == 'partTaken': return w == 'part'
        if n == 'abort':
            if k.aborted: return False
            if k.opened == 'putting': return w in ('sending', 'reading') or w == 'answer' and not k.last
            if k.opened == 'getting': return w in ('sending', 'answer') or w == 'part' and not k.last
            return False
        if n == 'bytes': return w == 'answer'
        return w in ('answer', 'operation')
    def verdict(k, c):
        if not k.expected(c): return 9
        if c[0] not in ('connect', 'disconnect', 'put', 'get'): return None
        if c_bad(c[1]): return 8
        long = {'connect': lambda: 248 < len(c[1]), 'disconnect': lambda: 248 < len(leading(k.id, False) + c[1])}.get(c[0], lambda: too_long(k.limit - 3, c[1]))()
        return 24 if long else None
    def learns(k, c, o, p, q, mended):
        opens = {'connect': 'connecting', 'disconnect': 'disconnecting', 'put': 'putting', 'get': 'getting'}.get(c[0], k.opened)
        if o[0] == 'Refused': return
        if o[0] == 'Send': k.waits, k.opened, k.aborted, k.last = ('sending',), 'aborting' if q[0] == 0xFF else opens, False, q[0] == 0x82
        elif o[0] == 'WantsBytes': k.waits, k.aborted = ('answer',), k.aborted or c[0] == 'abort'
        elif o[0] == 'Read': k.waits, k.opened, k.aborted, k.last = ('reading', o[1]), opens, False, False
        elif o[0] == 'Part': k.waits, k.aborted, k.last = ('part',), False, (p[0] % 128 != 0x10) if mended else p[0] != 0x90
        elif o[0] == 'End': k.waits, k.opened, k.aborted, k.last = ('nothing',), 'closed', False, False
        else:
            was = k.opened
            k.waits, k.opened, k.aborted, k.last = ('operation',), 'closed', False, False
            if o[0] == 'Done' and was == 'connecting':
                r = response_packet(True, p[:o[2]])
                if r is not None and is_success(r.code):
                    v = first(CID, r.headers); k.limit, k.id = at_least_255(be16(r.bytes, 5)), None if v is None else int.from_bytes(v, 'big')
            if o[0] == 'Done' and was == 'disconnecting': k.limit, k.id = MINP, None
def client_call(c, s, x):
    if x[0] == 'connect': return connect_step(c, x[1], s)
    if x[0] == 'disconnect': return disconnect_step(c, x[1], s)
    if x[0] == 'put': return request_step(c, 'Put', x[1], x[2], s)
    if x[0] == 'get': return request_step(c, 'Get', x[1], False, s)
    if x[0] == 'sent': return request_sent_step(c, s)
    if x[0] == 'body': return c_body_step(c, x[1], s)
    if x[0] == 'partTaken': return part_taken_step(c, s)
    if x[0] == 'abort': return abort_step(c, s)
    if x[0] == 'bytes': return c_bytes_step(c, x[1], s)
    return c_ended_step(c, s)
def alone(R, mended):
    """One client with random calls and responses. Returns the calls up to one whose verdict is not the due one, or None."""
    _, s = stores(R, SS(0, 255, 0, False, False, False, False, False, False, False))
    c, k, log, said = c_started(CS(R.choice((0, 255, 1024, 65535)), R.random() < .6)), Known(), [], ('Ready',)
    for _ in range(80):
        a = c.awaits
        if R.random() < .25: x = R.choice((('connect', b''), ('disconnect', exact(R, R.choice((243, 244, 248, 249)))), ('put', headers(R, cap(c)), True), ('get', bad_headers(R, cap(c))), ('sent',),
                                           ('body', b'zz'), ('partTaken',), ('abort',), ('abort',), ('bytes', b''), ('ended',) if R.random() < .1 else ('abort',)))
        elif a == 'Call': x = R.choice((('connect', R.choice((b'', exact(R, 248), exact(R, 249)))), ('put', headers(R, cap(c)), R.random() < .8), ('get', headers(R, cap(c))), ('disconnect', b'')))
        elif a == 'Sent': x = ('sent',)
        elif a == 'Body': x = ('body', bytes(R.choice((0, 1, said[1], said[1], said[1] + 1, max(0, said[1] - 1)))))
        elif a == 'Taken': x = ('partTaken',)
        elif a == 'Nothing': break
        else:
            code = R.choice((0x90, 0x90, 0x90, 0x10, 0xA0, 0xA0, 0x20, 0xA1, 0xC4, 0x44, 0xD0, R.choice((0xFF, 0, 0x91, R.randrange(256)))))
            hs = R.choice((b'', b'', b'\x97\1', b'\x97\0', bytes_of((BODY, b'abc')), bytes_of((EOB, b'')), b'\xcb' + rb(R, 4), headers(R, 100)))
            q = packet_bytes(code, b'\x10\0' + b16(R.choice((0, 255, 300, 65535))) if c.op[0] == 'Connecting' and R.random() < .98 else b'', hs)
            if R.random() < .02: q = rb(R, 10)
            x = ('bytes', q if R.random() < .8 else q[:R.randrange(len(q))])
            if c.begun: x = ('bytes', rb(R, R.randrange(1, 300)))
        log.append(x)
        due = k.verdict(x)
        c2, t, o, s2 = client_call(c, s, x)
        got = o[1] if o[0] == 'Refused' else None
        STAT['ClientRefusals: verdict %s' % got] += 1
        if got != due: return log, got, due, c
        if got is not None and (c2 != c or s2 != s or t): return log, 'moved', due, c
        if o[0] != 'Refused': said = o
        k.learns(x, o, s2.packet, s2.request, mended)
        c, s = c2, s2
    return None
def client_refusals(seed, n):
    for mended in (False, True):
        bad, least = 0, None
        for i in range(n):
            r = alone(random.Random(seed * 10 ** 7 + i), mended)
            if r: bad += 1; least = r if least is None or len(r[0]) < len(least[0]) else least
        print('ClientRefusals%s: %d lists of calls, %d with a wrong verdict' % (', last by the code' if mended else ' as stated', n, bad))
        if least: print('   shortest: got %s, due %s, client %s' % (least[1], least[2], least[3]), *['\n      ' + show(x) for x in least[0]])

# ---- rows of link/proofs/Examples, which the checker has computed from the definitions: the transcription must give the same

def selftest():
    up, down = [('sendUp',), ('offerUp', MAXP)], [('sendDown',), ('offerDown', MAXP)]
    def U(*u): return [('user', u)]
    def H(*c): return [('host', c)]
    def replies(code, hs=b''): return H('reply', code, hs) + down
    def ct(b, n): return bytes((b + i) % 251 for i in range(n))
    T, A, B, I = b'\x46\0\6\1\2\3', b'\1\0\7\0a\0\0', b'\1\0\7\0b\0\0', b'\xcb\0\0\0\1'
    long = b'\x42\0\xfd' + b'a' * 249 + b'\0'
    con, bare = U('connect', T) + up + replies(0x20), U('connect', b'') + up + replies(0x20)
    def dock(limit, most, srm, pw, refuse): return SS(most, limit, 0, False, srm, pw, False, False, False, refuse)
    def plainp(n): return CS(n, False), dock(255, 2000, False, False, False)
    def srmp(n): return CS(n, True), dock(255, 2000, True, False, False)
    def bt(csrm, most, vsrm=False, pw=False, refuse=False): return CS(255, csrm), dock(255, most, vsrm, pw, refuse)
    b, none = (lambda d: U('body', d)), (b'', None)
    over = U('put', A, True) + b(ct(0, 238)) + up + down + b(ct(238, 249)) + up + down
    nonce, pw = bytes(range(16)), b'pw'
    ans = b'\x4e\0\x15\0\x10' + bytes((26, 88, 250, 174, 42, 58, 239, 154, 87, 249, 230, 45, 249, 187, 19, 223))
    chal = U('connect', T) + up + H('nonce', nonce) + down
    rows = [
        (plainp(255), con + U('put', A, True) + b(b'\1\2') + b(b'') + up + replies(0x20), ('Done', 0x20, 3), [(I + A, b'\1\2')], none),
        (plainp(65535), con + U('put', A, True) + b(ct(0, 238)) + up + H('reply', 0x44, b'') + down + b(ct(238, 249)) + up + down + b(ct(487, 113)) + b(b'') + up + replies(0x20), ('Done', 0x20, 3), [(I + A, ct(0, 600))], none),
        (srmp(65535), con + U('put', A, True) + b(ct(0, 236)) + up + down + b(ct(236, 249)) + [('sendUp',)] + b(ct(485, 115)) + b(b'') + [('sendUp',), ('offerUp', 7), ('offerUp', 300), ('offerUp', 2), ('offerUp', MAXP)]
         + H('reply', 0x20, b'') + [('sendDown',), ('offerDown', 1), ('offerDown', 9)], ('Done', 0x20, 3), [(I + A, ct(0, 600))], none),
        (plainp(255), bare + U('put', b'', False) + up + replies(0x20) + U('put', b'', True) + b(b'') + up + replies(0x21), ('Done', 0x21, 3), [(b'', None), (b'', b'')], none),
        (plainp(255), con + U('put', A, False) + up + replies(0x43), ('Done', 0x43, 3), [(I + A, None)], none),
        (plainp(255), con + U('put', A, False) + up + replies(0x20, long), ('Done', 0x50, 3), [(I + A, None)], none),
        (plainp(256), con + U('put', A, False) + up + replies(0x20, long), ('Done', 0x20, 256), [(I + A, None)], none),
        (bt(False, 300), con + over, ('Stopped', 0x4D, 3), [], none),
        (bt(False, 300, refuse=True), con + over + U('put', T, True) + b(ct(0, 239)) + up + down + U('put', B, False) + up + replies(0x20), ('Done', 0x20, 3), [(I + B, None)], none),
        (bt(False, 300, refuse=True), con + over + U('put', T, False) + up + down, ('Done', 0x4D, 3), [], none),
        (bt(True, 300, True), con + U('put', A, True) + b(ct(0, 236)) + up + down + b(ct(236, 249)) + [('sendUp',)] + b(b'') + up + [('offerUp', MAXP)] + down, ('Done', 0x4D, 3), [], none),
        (plainp(255), con + U('put', A, False) + U('abort') + up + H('ack') + down, ('Aborted', 0x20, 3), [], none),
        (plainp(255), con + U('put', A, True) + b(ct(0, 238)) + [('sendUp',)] + U('abort') + U('abort') + [('offerUp', MAXP)] + down + up + H('ack') + down, ('Aborted', 0x20, 3), [], none),
        (plainp(255), con + U('put', A, False) + [('sendUp',)] + U('abort') + [('offerUp', MAXP)] + replies(0x20), ('Done', 0x20, 3), [(I + A, None)], none),
        (bt(False, 200), con + U('put', A, True) + b(ct(0, 238)) + [('sendUp',)] + U('abort') + [('offerUp', MAXP)] + down, ('Stopped', 0x4D, 3), [], none),
        (srmp(255), con + U('put', A, True) + b(ct(0, 236)) + up + down + b(ct(236, 249)) + [('sendUp',)] + U('abort') + [('sendUp',), ('offerUp', MAXP), ('offerUp', MAXP)] + H('ack') + down, ('Aborted', 0x20, 3), [], none),
        (plainp(255), con + U('get', A) + up + H('object', B, False) + [('sendDown',)] + U('abort') + [('offerDown', MAXP)], ('Aborted', 0x20, 10), [], none),
        (plainp(255), con + U('get', A) + up + H('object', B, True) + H('body', ct(0, 243)) + down + U('abort') + up + H('ack') + down, ('Aborted', 0x20, 3), [], (B, ct(0, 242))),
        (srmp(255), con + U('get', A) + up + H('object', B, True) + H('body', ct(0, 241)) + down + U('abort') + H('body', ct(241, 59)) + H('body', b'') + down, ('Aborted', 0x20, 66), [], (B, ct(0, 240))),
        (plainp(255), con + U('get', A) + up + H('object', B, True) + H('body', ct(0, 243)) + down + U('partTaken') + up + H('body', ct(243, 57)) + H('body', b'') + down + U('partTaken'), ('Done', 0x20, 64), [], (B, ct(0, 300))),
        (srmp(255), con + U('get', A) + up + H('object', B, True) + H('body', ct(0, 241)) + [('sendDown',)] + H('body', ct(241, 59)) + H('body', b'') + [('sendDown',), ('offerDown', 100), ('offerDown', MAXP), ('offerDown', MAXP)]
         + U('partTaken') + [('offerDown', MAXP)] + U('partTaken'), ('Done', 0x20, 66), [], (B, ct(0, 300))),
        (plainp(255), con + U('get', A) + up + replies(0x22, B) + U('partTaken'), ('Done', 0x22, 10), [], (B, None)),
        (plainp(255), con + U('get', A) + up + replies(0x44, B), ('Done', 0x44, 10), [], none),
        (plainp(255), con + U('get', A) + up + H('object', long, True) + down, ('Done', 0x50, 3), [], none),
        (plainp(255), con + U('get', A) + up + H('object', B, True) + H('body', ct(0, 243)) + down + U('partTaken') + up + H('failed') + down, ('Done', 0x50, 3), [], (B, ct(0, 242))),
        (plainp(255), bare + U('get', b'') + up + H('object', b'', True) + H('body', b'') + down + U('partTaken'), ('Done', 0x20, 6), [], (b'', b'')),
        (bt(False, 300, pw=True), chal + U('connect', T + ans) + up + H('password', pw) + replies(0x20) + U('put', A, False) + up + replies(0x20), ('Done', 0x20, 3), [(I + A, None)], none),
        (bt(False, 300, pw=True), chal + U('put', A, False) + up + down, ('Done', 0x41, 3), [], none),
    ]
    for i, ((cs, st), ms, said, recs, parts) in enumerate(rows):
        l = Link(st, cs, b'', *stores(random.Random(i), st))
        for m in ms: do(l, st, m)
        assert (l.said, l.records_all, l.parts_all) == (said, recs, parts), (i, l.said, said, l.records_all == recs, l.parts_all == parts)
    # frames byte by byte
    R = random.Random(3)
    for _ in range(3000):
        b, i = R.randrange(0, 6), R.randbytes(R.randrange(0, 30)); p = bytes((1, 0, R.choice((0, 2, 3, 5, 9, 20)))) + R.randbytes(60)
        if b >= 3 and be16(p, 1) < b: continue
        x, q, t, c, res = b, bytearray(p), 0, 0, 'More'
        for y in i:
            q[x] = y; x += 1; t += 1
            if x >= 3 and be16(q, 1) < 3: res = 'Short'; break
            if x >= 3 and be16(q, 1) <= x: res = 'Whole'; break
        assert framed(p, b, i) == (x, t, res, bytes(q)), (b, i, p)
    print('selftest: %d rows of link/proofs/Examples and 3000 frames agree' % len(rows))

def main():
    global MUT
    a = argparse.ArgumentParser()
    a.add_argument('--seconds', type=float, default=60); a.add_argument('--runs', type=int, default=10 ** 9); a.add_argument('--seed', type=int, default=1)
    a.add_argument('--mutant'); a.add_argument('--stop', action='store_true'); a.add_argument('--quiet', action='store_true'); a.add_argument('--mode')
    a.add_argument('--alone', type=int, default=0, help='lists of calls for ClientRefusals')
    o = a.parse_args(); MUT = o.mutant
    if not MUT: selftest()
    if o.alone: client_refusals(o.seed, o.alone)
    STAT.clear()
    t0, k, found, moves = time.time(), 0, collections.Counter(), 0
    examples, longest, deadlocks = {}, 0, 0
    while k < o.runs and time.time() - t0 < o.seconds:
        if k % 2000 == 1999: print('..', k, 'sessions', moves, 'moves', dict(found), file=sys.stderr, flush=True)
        R = random.Random(o.seed * 10 ** 9 + k)
        mode = o.mode or R.choices(('any', 'tail', 'password', 'lockout', 'huge', 'ids', 'big'), (60, 15, 10, 3, 2, 1, 4))[0]
        z = Session(R, mode); k += 1
        STAT['sessions %s' % mode] += 1
        l, quiet = z.l, 0
        while len(l.log) < 30000:
            m = z.step()
            if m is None: break
            if m == 'stuck':
                deadlocks += 1; found['DEADLOCK'] += 1
                examples.setdefault('DEADLOCK', (z, list(l.log), (l.client, l.engine.op, l.engine.awaits, l.up, l.down)))
                break
            was = l.client.op[0]
            bad = do(l, z.st, m)
            if was == 'Connecting' and l.said[0] == 'Done':
                STAT['Connect said %02x%s' % (l.said[1], ' while connected' if l.connected and not is_success(l.said[1]) else '')] += 1
                if l.said[1] == 0x41:
                    r = response_packet(True, l.stores.packet[:l.client.length]); v = first(CHAL, r.headers)
                    ch = None if v is None else challenge_of(v); z.nonce = z.nonce if ch is None else ch[0]
            for f in set(bad):
                found[f] += 1
                if f not in examples or len(l.log) < len(examples[f][1]): examples[f] = (z, list(l.log), None)
            if l.client.awaits not in ('Call', 'Nothing') and R.random() < .02:
                n = fair(l); STAT['liveness: states tried'] += 1
                if l.run: STAT['liveness: states tried, %s%s' % (l.run.kind, ' aborted' if l.run.aborted else '')] += 1
                if n is None: found['NO END'] += 1; examples.setdefault('NO END', (z, list(l.log), (l.client, l.engine.op, l.engine.awaits)))
                else: longest = max(longest, n)
        else: found['TOO LONG'] += 1; examples.setdefault('TOO LONG', (z, list(l.log), (l.client, l.engine.op)))
        moves += len(l.log)
        j, e = l.journal, l.engine                                          # the two transcriptions of the server against one another
        six = l.told == ('End', 6)
        if not six and j.records != l.records_all: found['transcription: records'] += 1
        if tuple(j.ids) != e.peer.ids or j.auth != e.peer.authenticated or j.srm != e.peer.srm or j.challenge != e.peer.challenge or j.next != e.peer.next: found['transcription: standing'] += 1
        if not six and l.told[0] != 'End' and e.awaits == 'Bytes' and j.busy() != v_busy(e.op): found['transcription: opened'] += 1
        if e.peer.srm: found['session SRM on'] += 1
        if o.stop and found: break
    print('mutant %s: ' % MUT if MUT else '', 'sessions %d, moves %d, seconds %.0f, longest fair end %d moves, deadlocks %d' % (k, moves, time.time() - t0, longest, deadlocks), sep='')
    print('violations:', dict(found) or 'none')
    for f, (z, log, info) in sorted(examples.items()):
        if o.quiet: continue
        if info: print('==', f, z.st, z.cs, 'moves', len(log), info); continue
        ms = minimise(z.st, z.cs, z.realm, log, [f])
        print('==', f, z.st, z.cs, 'moves', len(ms))
        for m in ms: print('   ', show(m))
    if not o.quiet:
        for x in sorted(STAT): print('  %-70s %d' % (x, STAT[x]))
    return bool(found)

if __name__ == '__main__': sys.exit(main())
