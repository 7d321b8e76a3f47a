#!/usr/bin/env python3
"""interop_peer: connections that no stock client was seen to make, against a server on a port of the loopback: one that goes on after an Abort,
one that drops a Put and sends another, and one to two services. For tools/test/interop, which makes the folders of the services `rules` and `records`.

Usage: tools/test/interop_peer.py PORT        Prints a line 'ok ..' or 'failed ..' for each step."""
import os, socket, sys
sys.path.insert(0, os.path.join(os.path.dirname(os.path.abspath(__file__)), '..', 'lib'))
from obex import (ABORT, BODY, CONTINUE, DISCONNECT, END_OF_BODY, FINAL, GET, PUT, SUCCESS, TARGET_ID, connect, connection, long_header, name,
                  packet)


class Peer:
    """A connection to the server: a request goes out, and its reply comes back before the next."""

    def __init__(self, port):
        self.socket = socket.create_connection(('127.0.0.1', port), timeout=20)

    def read(self, n):
        got = b''
        while len(got) < n:
            piece = self.socket.recv(n - len(got))
            if not piece:
                raise EOFError('the server closed the connection')
            got += piece
        return got

    def ask(self, request):
        """Sends `request` and returns the first byte of its reply, and the rest."""
        self.socket.sendall(request)
        head = self.read(3)
        return head[0], self.read(int.from_bytes(head[1:], 'big') - 3)


def put(final, *headers):
    return packet(PUT if final else PUT & ~FINAL, b''.join(headers))


def session(port, what, steps):
    """Plays `steps`, a request and the reply that is due to it each, between Connect and Disconnect."""
    try:
        peer = Peer(port)
        said = [peer.ask(request)[0] for request, _ in [(connect(1024), SUCCESS)] + steps + [(packet(DISCONNECT), SUCCESS)]]
        due = [SUCCESS] + [reply for _, reply in steps] + [SUCCESS]
        print('ok %s' % what if said == due else 'failed %s: %s' % (what, bytes(said).hex()))
    except (OSError, EOFError) as why:
        print('failed %s: %s' % (what, why))


def end_of_body(text):
    return long_header(END_OF_BODY, text)


def services(port):
    """Two services in one connection, each under an id of its own; the ids are 1 and 2, as the engine counts them."""
    peer = Peer(port)
    for target in (b'rules', b'records'):
        peer.ask(connect(1024, long_header(TARGET_ID, target)))
    for id, text in ((connection(1), b'of rules'), (connection(2), b'of records'), (b'', b'of none')):
        peer.ask(put(True, id, name('same'), end_of_body(text)))
    got = [peer.ask(packet(GET, id + name('same'))) for id in (connection(1), connection(2), b'')]
    due = [(SUCCESS, end_of_body(text)) for text in (b'of rules', b'of records', b'of none')]
    print('%s two services in one connection' % ('ok' if got == due else 'failed'))


def main(port):
    session(port, 'an Abort, and another Put in the same connection', [
        (put(False, name('begun'), long_header(BODY, b'begun')), CONTINUE),
        (packet(ABORT), SUCCESS),
        (put(True, name('later'), end_of_body(b'later')), SUCCESS)])
    session(port, 'a Put that is dropped, and another', [
        (put(False, name('dropped'), long_header(BODY, b'first ')), CONTINUE),
        (put(True, name('second'), end_of_body(b'second')), SUCCESS)])
    try:
        services(port)
    except (OSError, EOFError) as why:
        print('failed two services in one connection: %s' % why)


if len(sys.argv) != 2:
    sys.exit(__doc__)
main(int(sys.argv[1]))
