#!/usr/bin/env python3
"""test/oracle_server.py: the original's server at a TCP port, for tools/test/interop. The original runs in `oracle engine`, which plays whole sessions; so after each
packet of the client the session is played again from its start, and what it sends beyond the last time goes to the client. Its Puts are written to files of
DIR and its Gets read them.

Usage: oracle_server.py PORT DIR [PASSWORD]

The original makes its nonces itself, another one in each run. A digest over the nonce that the client was told is given as the oracle's mark for it."""
import hashlib, os, socket, subprocess, sys

ORACLE = os.path.join(os.path.dirname(os.path.abspath(__file__)), '..', '..', 'oracle', 'target', 'release', 'oracle')


class Session:
    def __init__(z, folder, password):
        z.folder, z.password = folder, password
        z.lines, z.sent, z.asked, z.put, z.got, z.nonces = [], 0, 0, 0, 0, []
        z.first = 'session srm=1 max_object_size=2000000' + (' auth=1' if password else '')

    def piece(z, packet):
        """A packet in the oracle's words: what is made of a nonce that the client was told is a mark."""
        text = packet.hex()
        for k, nonce in enumerate(reversed(z.nonces)):
            text = text.replace(nonce.hex(), '[nonce.%d]' % k)
            if z.password:
                text = text.replace(hashlib.md5(nonce + b':' + z.password).hexdigest(), '[digest.%d=%s]' % (k, z.password.hex()))
        return text

    def name(z, headers):
        """The first Name among header bytes, in hexadecimal."""
        b, at = bytes.fromhex(headers.replace('-', '')), 0
        while at < len(b):
            n = b[at + 1] << 8 | b[at + 2] if b[at] < 0x80 else 2 if b[at] < 0xC0 else 5
            if b[at] == 1:
                return b[at + 3:at + n - 2].decode('utf-16-be')
            at += n
        return ''

    def path(z, headers):
        return os.path.join(z.folder, os.path.basename(z.name(headers)) or 'unnamed')

    def run(z):
        script = '\n'.join([z.first] + (['password ' + z.password.hex()] * 20 if z.password else []) + z.lines) + '\n'
        out = subprocess.run([ORACLE, 'engine'], input=script.encode(), stdout=subprocess.PIPE, check=True).stdout.decode()
        return [line.split(' ') for line in out.splitlines()]

    def told(z, events):
        """What the host does: a Put is written once, a Get is answered from its file, and all else with success. The oracle's answers are one queue, so each
        request that was answered has its own line in the next run. Returns whether a Get has a new answer."""
        asked = [e for e in events if e[0] in ('connect', 'disconnect', 'put', 'get')]
        z.lines += ['reply 20 -' for e in asked[z.asked:] if e[0] != 'get']
        z.asked = len(asked)
        gets = [e for e in events if e[0] == 'get']
        puts = [e for e in events if e[0] == 'put']
        for e in puts[z.put:]:
            fields = dict(x.split('=', 1) for x in e[1:])
            with open(z.path(fields['headers']), 'wb') as f:
                f.write(bytes.fromhex(fields['body'].replace('-', '')))
        z.put = len(puts)
        if len(gets) <= z.got:
            return False
        z.got += 1
        path = z.path(dict(x.split('=', 1) for x in gets[-1][1:])['headers'])
        if not os.path.exists(path):
            z.lines.append('reply 44 -')
            return True
        with open(path, 'rb') as f:
            b = f.read()
        z.lines += ['object - body'] + (['read ' + b.hex()] if b else []) + ['read -']
        return True

    def packet(z, p):
        """Plays a packet of the client. Returns the replies."""
        z.lines.append('bytes ' + z.piece(p))
        events = z.run()
        if z.told(events):
            events = z.run()
        stop = max((i for i, e in enumerate(events) if e == ['read', '0']), default=len(events))
        events = events[:stop]
        nonces = [bytes.fromhex(e[1]) for e in events if e[0] == 'nonce']
        z.nonces += nonces[len(z.nonces):]
        replies = [bytes.fromhex(e[1]) for e in events if e[0] == 'out']
        new, z.sent = replies[z.sent:], len(replies)
        return new


def serve(s, z):
    store = b''
    while True:
        b = s.recv(65536)
        if not b:
            return
        store += b
        while 3 <= len(store) and store[1] << 8 | store[2] <= len(store):
            n = store[1] << 8 | store[2]
            for reply in z.packet(store[:n]):
                s.sendall(reply)
            store = store[n:]


def main():
    port, folder = int(sys.argv[1]), sys.argv[2]
    password = sys.argv[3].encode() if 3 < len(sys.argv) else None
    with socket.create_server(('127.0.0.1', port)) as listener:
        while True:
            s, _ = listener.accept()
            with s:
                serve(s, Session(folder, password))


if __name__ == '__main__':
    main()
