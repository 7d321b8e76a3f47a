#!/usr/bin/env python3
"""test/interop_transfer.py: the program `transfer` against five servers, for tools/test/interop: this project's `serve` and `receiver`, the original's, Debian's obexftpd and
obex_test, the example server of libopenobex. Files of 0 bytes, 1 byte, 48 KiB and 1 MiB are put and got, a missing one is asked for, a Put and a Get are aborted in the
middle, and a server that wants a password is given it, a wrong one, and none. At the receiver a Put is a record of its archive, 1 MiB is over its limit, and a Get is of a
rule file.

Usage: interop_transfer.py serve|receiver|original|obexftpd|obex_test WORK      prints a line for each step: 'ok ..', 'failed ..' or 'skipped ..'

WORK is a folder for files and logs. obexftpd and obex_test listen at port 650 alone and end with their session, so each transfer has its own."""
import glob, os, shutil, socket, struct, subprocess, sys, time
sys.path.insert(0, os.path.join(os.path.dirname(os.path.abspath(__file__)), '..', 'run'))
import audit

TOOLS = os.path.dirname(os.path.dirname(os.path.abspath(__file__)))
ORACLE = os.path.join(TOOLS, '..', 'oracle', 'target', 'release', 'oracle')
PROGRAM = os.path.join(TOOLS, '..', 'target', 'bin', 'transfer')
SIZES = (0, 1, 49152, 1048576)
PASSWORD = 'open sesame'


class Server:
    """A server that a command starts in a folder of its own, at a port. `said` is what it reads on standard input."""
    def __init__(z, name, work, port, command, said=b'', once=False):
        z.name, z.port, z.command, z.said, z.once = name, port, command, said, once
        z.folder = os.path.join(work, name.replace(' ', '-'))
        os.makedirs(z.folder)
        z.log = open(os.path.join(work, name.replace(' ', '-') + '.log'), 'wb')
        z.process = None

    def listens(z):
        """Whether a process listens at the port. It is not asked by a connection, which would be the session of a server that has one."""
        wanted = '%04X' % z.port
        rows = [row.split() for table in ('tcp', 'tcp6') for row in open('/proc/net/' + table).readlines()[1:]]
        return any(row[1].endswith(':' + wanted) and row[3] == '0A' for row in rows)

    def start(z):
        if z.process:
            return
        z.process = subprocess.Popen([x.format(folder=z.folder) for x in z.command], cwd=z.folder, stdin=subprocess.PIPE, stdout=z.log, stderr=z.log)
        z.process.stdin.write(z.said)
        z.process.stdin.flush()
        for _ in range(100):
            if z.listens():
                return
            time.sleep(0.05)
        sys.exit('failed transfer, %s: it does not listen' % z.name)

    def stop(z):
        if z.process:
            z.process.kill()
            z.process.wait()
        z.process = None


class Steps:
    """The steps against a server. `words` are those of each transfer; `unkept` says of a Put's size why the server does not keep it, if it does not."""
    def __init__(z, server, work, words={}, unkept=lambda size: None):
        z.server, z.words, z.unkept = server, words, unkept
        z.work = os.path.join(work, 'files of ' + server.name)
        z.back = os.path.join(z.work, 'back')
        os.makedirs(z.work)

    def transfer(z, kind, name, path, **more):
        """Runs a transfer. Returns whether it was done, and what was told."""
        pairs = [x for pair in {**z.words, **more}.items() if pair[1] is not None for x in pair]
        z.server.start()
        run = run_once if z.server.once else run_tool
        said = run(z.server.port, [kind, name, path] + pairs)
        if z.server.once:
            time.sleep(0.2)
            z.server.stop()
        return said.rpartition('\n')[0].rpartition('\n')[2].startswith('transferred '), said

    def say(z, what, good, said=''):
        print('%s transfer, %s: %s%s' % ('ok' if good else 'failed', z.server.name, what, '' if good else ' [%s]' % said.strip().replace('\n', ', ')), flush=True)

    def skip(z, what, why):
        print('skipped transfer, %s: %s, since %s' % (z.server.name, what, why), flush=True)

    def stored(z, name):
        return os.path.join(z.server.folder, name)

    def make(z, name, size):
        path = os.path.join(z.work, name)
        with open(path, 'wb') as f:
            f.write(os.urandom(size))
        return path

    def put(z, size):
        name = 'put-%d.bin' % size
        path = z.make(name, size)
        done, said = z.transfer('put', name, path)
        is_gone = z.unkept(size) and not os.path.exists(z.stored(name))
        z.say('put of %d bytes%s' % (size, ', accepted' if is_gone else ''), done and (is_gone or same(path, z.stored(name))), said)
        if is_gone:
            z.skip('whether it has these %d bytes' % size, z.unkept(size))

    def get(z, size):
        name = 'get-%d.bin' % size
        shutil.copy(z.make(name, size), z.stored(name))
        done, said = z.transfer('get', name, z.back)
        z.say('get of %d bytes' % size, done and same(z.stored(name), z.back), said)
        if os.path.exists(z.back):
            os.unlink(z.back)

    def failures(z):
        done, said = z.transfer('get', 'missing.bin', z.back)
        z.say('get of a missing file', not done and 'get ' in said and 'failed' in said and not os.path.exists(z.back), said)
        done, said = z.transfer('put', 'aborted.bin', z.make('aborted.bin', 1048576), abort='2')
        z.say('a Put aborted in the middle', not done and 'put aborted' in said and not os.path.exists(z.stored('aborted.bin')), said)
        done, said = z.transfer('get', 'get-1048576.bin', z.back, abort='3')
        z.say('a Get aborted in the middle', not done and 'get aborted' in said and not os.path.exists(z.back), said)

    def refused(z, what, password, asked):
        """A Put with a wrong password, or with none: so many Connects are answered with 0x41, and nothing is kept."""
        done, said = z.transfer('put', 'secret.bin', z.make('secret.bin', 5000), password=password)
        z.say(what, not done and said.count('connect 41') == asked and not os.path.exists(z.stored('secret.bin')), said)

    def all(z):
        for size in SIZES:
            z.put(size)
            z.get(size)
        z.failures()
        z.server.stop()


class FiledSteps(Steps):
    """The steps against the receiver: what is put is a record of the archive, if it is within the limit, and what is got is a rule file."""
    LIMIT = 49152

    def stored(z, name):
        return os.path.join(z.server.folder, 'rules', name)

    def records(z):
        return {p for p in glob.glob(os.path.join(z.server.folder, 'archive', '*', '*')) if os.path.basename(p).isdigit()}

    def filed(z, name, path, **more):
        """Puts a file. Returns whether it was done, the bodies of the records that were filed then, and what was told."""
        before = z.records()
        done, said = z.transfer('put', name, path, **more)
        return done, [audit.body_of(audit.read(os.path.join(p, 'body'))) for p in sorted(z.records() - before)], said

    def put(z, size):
        name = 'put-%d.bin' % size
        path = z.make(name, size)
        done, bodies, said = z.filed(name, path)
        if size > z.LIMIT:
            z.say('put of %d bytes, which is over the limit' % size, not done and 'put 4d' in said.lower() and bodies == [], said)
        else:
            z.say('put of %d bytes' % size, done and bodies == [audit.read(path)], said)

    def failures(z):
        done, said = z.transfer('get', 'missing.bin', z.back)
        z.say('get of a missing file', not done and 'get 44' in said and not os.path.exists(z.back), said)
        done, bodies, said = z.filed('aborted.bin', z.make('aborted.bin', z.LIMIT), abort='2')
        z.say('a Put aborted in the middle', not done and 'put aborted' in said and bodies == [], said)
        done, said = z.transfer('get', 'get-1048576.bin', z.back, abort='3')
        z.say('a Get aborted in the middle', not done and 'get aborted' in said and not os.path.exists(z.back), said)

    def refused(z, what, password, asked):
        done, bodies, said = z.filed('secret.bin', z.make('secret.bin', 5000), password=password)
        z.say(what, not done and said.count('connect 41') == asked and bodies == [], said)


def run_tool(port, words):
    """A transfer by tools/run/transfer. Returns what was told."""
    done = subprocess.run([os.path.join(TOOLS, 'run', 'transfer'), '--port', str(port)] + words, stderr=subprocess.PIPE, timeout=120)
    return done.stderr.decode(errors='replace')


def run_once(port, words):
    """A transfer at a server that leaves first. The connection is reset behind it: otherwise the system would keep the next server from the port for a minute."""
    with socket.create_connection(('127.0.0.1', port)) as s:
        s.setsockopt(socket.SOL_SOCKET, socket.SO_LINGER, struct.pack('ii', 1, 0))
        done = subprocess.run([PROGRAM] + words, stdin=s, stdout=s, stderr=subprocess.PIPE, timeout=120)
    return done.stderr.decode(errors='replace')


def same(a, b):
    return os.path.exists(a) and os.path.exists(b) and open(a, 'rb').read() == open(b, 'rb').read()


def serve(work):
    steps = Steps(Server('serve', work, 6501, [os.path.join(TOOLS, 'run', 'serve'), '--port', '6501', '--dir', '{folder}']), work)
    steps.all()
    steps.skip('passwords', 'it has none; pair plays the engine with them')


def receiver(work):
    def steps(name, port, conf, words):
        server = Server(name, work, port, [os.path.join(TOOLS, 'run', 'receiver'), '--port', str(port), '--dir', '{folder}'])
        for inner in ('archive', 'rules'):
            os.mkdir(os.path.join(server.folder, inner))
        for file, text in (('conf', conf), ('users', '\t%s\n' % PASSWORD)):
            with open(os.path.join(server.folder, file), 'w') as f:
                f.write(text)
        return FiledSteps(server, work, words)
    steps('receiver', 6504, 'packet 8192\n', {}).all()
    asks = steps('receiver with a password', 6505, 'password required\n', {'password': PASSWORD})
    asks.put(49152)
    asks.get(49152)
    asks.refused('a wrong password', 'wrong', 2)
    asks.refused('no password', None, 1)
    asks.server.stop()


def original(work):
    if not os.path.exists(ORACLE):
        print('skipped transfer, original: all, since the oracle is not built (make oracle)')
        return
    server = [os.path.join(TOOLS, 'test', 'oracle_server.py')]
    Steps(Server('original', work, 6502, server + ['6502', '{folder}']), work).all()
    steps = Steps(Server('original with a password', work, 6503, server + ['6503', '{folder}', PASSWORD]), work, {'password': PASSWORD})
    steps.put(49152)
    steps.get(49152)
    steps.refused('a wrong password', 'wrong', 2)
    steps.refused('no password', None, 1)
    steps.server.stop()


def obexftpd(work):
    def unkept(size):
        return None if size == 1 else 'obexftpd 0.24 deletes what comes in several packets or without bytes, from its own client too'
    steps = Steps(Server('obexftpd', work, 650, ['obexftpd', '-c', '{folder}', '-n', '650'], once=True), work, unkept=unkept)
    steps.all()
    steps.skip('passwords', 'it has none')


def obex_test(work):
    def unkept(size):
        return 'it keeps no file without bytes' if size == 0 else None
    steps = Steps(Server('obex_test', work, 650, ['obex_test', '-i'], said=b's\n', once=True), work, unkept=unkept)
    steps.all()
    steps.skip('passwords', 'it has none')


SERVERS = {'serve': serve, 'receiver': receiver, 'original': original, 'obexftpd': obexftpd, 'obex_test': obex_test}
NEEDED = {'obexftpd': 'obexftp', 'obex_test': 'openobex-apps'}

if __name__ == '__main__':
    name, work = sys.argv[1:]
    if name in NEEDED and not shutil.which(name):
        print('skipped transfer, %s: all, since the package %s is not there' % (name, NEEDED[name]))
    else:
        SERVERS[name](work)
