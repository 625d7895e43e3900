#!/usr/bin/env python3
"""The proxies of examples/ before a server: ./proxies.py FLOORHUB [PROXY ..]

Each of haproxy, nginx and stunnel (all, or those that are named) is started on its file of examples/, with
certificates made here by openssl in the place of those that the file names, before a floorhub with a door, at
7900, and a port for probes, at 7902, on examples/conferences.toml; the ports of these files have to be free.
Then each user is answered, as nobody else; whoever has no certificate, another's, one of another authority or of
no user is ended unheard; what is beyond the bound on connections is ended, and what is within it goes on; and
the sockets to the users have TCP's keep-alive.

A haproxy on fingerprints.cfg knows certificates that their owners signed by their fingerprints: each is answered as
the user that the map says, nobody else is heard, and one that is added to the map is let in.

haproxy needs no line for a user: so users of both conferences are answered at its one port, and one whose
session is resumed by a ticket, and a certificate of two names counts as the first. It is run once more with
certificates optional and their faults let through, so that the server has to refuse them. Each refusal at the
door has its name in the log: whatever stands at the door, in any pieces. At last two servers stand behind one
haproxy, and one is killed: its users alone are ended, and are answered again when it is there again.

The status is 1 where anything is otherwise.
"""
import hashlib
import os
import pathlib
import shutil
import signal
import ssl
import socket
import subprocess
import sys
import tempfile
import time

from server import Server, configuration, greet, hear, hello, proxy_header

EXAMPLES = pathlib.Path(__file__).resolve().parent.parent / 'examples'
# The name of each user of conference 1, its number, and its own port before stunnel.
USERS = {'ann': (10, 17010), 'ben': (11, 17011), 'chair': (12, 17012)}
TOGETHER = 17000
DOOR, HEALTH, BY_ID = 7900, 7902, 7901
ROOMS = 17001
# Who is who at the door, by the certificate's name.
NAMED = {'1.10': (1, 10), '1.11': (1, 11), '1.12': (1, 12), '2.10': (2, 10), '2.11': (2, 11)}
# Certificates whose names name nobody: the subject, and by which name the server refuses them.
NOBODY = {
    'dan': ('/CN=dan', 'BadName'),
    'long': ('/CN=1.' + '1' * 62, 'BadName'),
    'space': ('/CN=1. 10', 'BadName'),
    'zero': ('/CN=01.10', 'BadName'),
    'nameless': ('/O=nobody', 'NoName'),
    'no-user': ('/CN=1.99', 'NoUser'),
    'no-conference': ('/CN=9.10', 'NoConference'),
}
COMMANDS = {
    'haproxy': ['haproxy', '-db', '-f'],
    'nginx': ['nginx', '-g', 'daemon off; pid nginx.pid; error_log stderr;', '-p', '.', '-c'],
    'stunnel': ['stunnel'],
}
FILES = {'haproxy': 'haproxy.cfg', 'nginx': 'nginx.conf', 'stunnel': 'stunnel.conf'}
# How many connections of one user, or of one address, are served at once.
BOUNDS = {'haproxy': 8, 'nginx': 8}


def openssl(*words):
    subprocess.run(['openssl', *words], check=True, stderr=subprocess.DEVNULL, stdout=subprocess.DEVNULL)


def certificate(folder, file, subject, authority, days=2):
    """A certificate of this subject by an authority; one of -1 days has expired."""
    path = f'{folder}/{file}'
    openssl('req', '-newkey', 'rsa:2048', '-nodes', '-subj', subject, '-keyout', path + '.key', '-out', path + '.csr')
    openssl('x509', '-req', '-in', path + '.csr', '-days', str(days), '-CA', f'{folder}/{authority}.pem',
            '-CAkey', f'{folder}/{authority}.key', '-CAcreateserial', '-out', path + '.crt')
    pathlib.Path(path + '.pem').write_text(
        pathlib.Path(path + '.crt').read_text() + pathlib.Path(path + '.key').read_text())


def certificates(folder):
    """An authority of users and another one; certificates for the server and for each user, for ann by the
    other authority, and at the door for those who are nobody, for two names, and one that has expired."""
    for authority in ('users', 'others'):
        openssl('req', '-x509', '-newkey', 'rsa:2048', '-nodes', '-days', '2', '-subj', '/CN=' + authority,
                '-keyout', f'{folder}/{authority}.key', '-out', f'{folder}/{authority}.pem')
    for name in ('server', *USERS, *NAMED, '3.10'):
        certificate(folder, name, '/CN=' + name, 'users')
    for name in ('ann', '1.10'):
        certificate(folder, 'false-' + name, '/CN=' + name, 'others')
    for file, (subject, _) in NOBODY.items():
        certificate(folder, file, subject, 'users')
    certificate(folder, 'two', '/CN=1.10/CN=1.11', 'users')
    certificate(folder, 'expired', '/CN=1.10', 'users', -1)
    for name in ('room', 'other-room'):
        openssl('req', '-x509', '-newkey', 'rsa:2048', '-nodes', '-days', '2', '-subj', '/CN=' + name,
                '-keyout', f'{folder}/{name}.key', '-out', f'{folder}/{name}.crt')
        pathlib.Path(f'{folder}/{name}.pem').write_text(
            pathlib.Path(f'{folder}/{name}.crt').read_text() + pathlib.Path(f'{folder}/{name}.key').read_text())


def fingerprint(folder, name):
    """The SHA-256 of a certificate, in capitals without colons."""
    der = ssl.PEM_cert_to_DER_cert(pathlib.Path(f'{folder}/{name}.crt').read_text())
    return hashlib.sha256(der).hexdigest().upper()


class Proxy:
    """A proxy that runs on a file of its own."""

    def __init__(self, kind, text, folder):
        # HAProxy and stunnel check who may read the keys; nobody but this script does.
        path = pathlib.Path(folder) / FILES[kind]
        path.write_text(text.replace(f'/etc/{kind}/', folder + '/'))
        program = next((it for it in (kind, kind + '4') if shutil.which(it)), None)
        if program is None:
            raise SystemExit(f'{kind} is not installed')
        modules = '/usr/lib/nginx/modules/'
        path.write_text(path.read_text().replace('load_module modules/', 'load_module ' + modules))
        self.process = subprocess.Popen([program, *COMMANDS[kind][1:], str(path)], cwd=folder,
                                        stdout=subprocess.DEVNULL, stderr=open(folder + '/' + kind + '.log', 'w'))
        self.folder = folder

    def stop(self):
        self.process.send_signal(signal.SIGTERM)
        self.process.wait(20)


def reach(folder, port, name, seconds=10, session=None, context=None):
    """A connection under a certificate, or under none, to a port that may not be open yet; of a session that is
    resumed, where one is given with its context."""
    context = context or context_of(folder, name)
    end = time.monotonic() + seconds
    while True:
        try:
            plain = socket.create_connection(('127.0.0.1', port), 5)
            break
        except ConnectionRefusedError:
            if time.monotonic() > end:
                raise
            time.sleep(0.1)
    plain.settimeout(8)
    return context.wrap_socket(plain, session=session)


def context_of(folder, name):
    """What a client knows: whom it trusts, and its certificate, if it has one."""
    context = ssl.SSLContext(ssl.PROTOCOL_TLS_CLIENT)
    context.check_hostname = False
    context.load_verify_locations(folder + '/users.pem')
    if name is not None:
        context.load_cert_chain(f'{folder}/{name}.pem')
    return context


def answered(client, conference, user):
    """Whether a Hello is answered; an end or a reset is no answer."""
    try:
        return len(greet(client, conference, user)) == 48
    except (ssl.SSLError, ConnectionError, OSError):
        return False


def is_heard(folder, port, name, user=10, conference=1):
    """Whether a Hello is answered on a new connection."""
    try:
        with reach(folder, port, name) as client:
            return answered(client, conference, user)
    except (ssl.SSLError, ConnectionError):
        return False


def claim(holds, what):
    print(('  ' if holds else '  NOT ') + what, flush=True)
    return 0 if holds else 1


def keep_alive(port):
    """Whether each connection that was accepted at a port has a keep-alive timer."""
    rows = subprocess.run(['ss', '-tnoH', 'state', 'established', f'( sport = :{port} )'],
                          capture_output=True, text=True).stdout.splitlines()
    return bool(rows) and all('keepalive' in row for row in rows)


def refused(log, before):
    """The names of the refusals that the log has told of since, once it has had time to."""
    time.sleep(0.5)
    lines = pathlib.Path(log).read_text().splitlines()[before:]
    return [line.rsplit(' ', 1)[1] for line in lines if f' door {DOOR} ' in line and ' refused ' in line]


def told(log):
    """How many lines the log has."""
    return len(pathlib.Path(log).read_text().splitlines())


def try_proxy(kind, folder):
    port_of = {name: TOGETHER if kind != 'stunnel' else port for name, (_, port) in USERS.items()}
    proxy = Proxy(kind, (EXAMPLES / FILES[kind]).read_text(), folder)
    print(kind, flush=True)
    wrong = 0
    try:
        for name, (user, _) in USERS.items():
            wrong += claim(is_heard(folder, port_of[name], name, user), f'{name} is answered')
        wrong += try_ann(folder, port_of['ann'], 'ann')
        for name, what in ((None, 'without a certificate'), ('false-ann', 'by another authority'),
                           ('dan', 'of no user')):
            wrong += claim(not is_heard(folder, port_of['ann'], name), f'nobody is heard {what}')
        if kind == 'stunnel':
            wrong += claim(not is_heard(folder, port_of['ann'], 'ben', 11), 'ben is not heard at ann\'s port')
        else:
            wrong += try_bound(kind, folder, 'ann')
    finally:
        proxy.stop()
    return wrong


def try_ann(folder, port, name):
    """She is nobody else, and her socket has a keep-alive."""
    with reach(folder, port, name) as ann:
        ann.sendall(hello(1, 1, 11))
        wrong = claim(hear(ann, 16)[1] == 13, 'ann as ben is answered by an Error')
        # Only a socket of which nothing is under way shows its keep-alive timer.
        time.sleep(3)
        wrong += claim(keep_alive(port), 'the socket to ann has TCP keep-alive')
        return wrong + claim(answered(ann, 1, 10), 'ann is answered after three silent seconds')


def try_haproxy(folder, log):
    """One port for all, by the name of the certificate."""
    proxy = Proxy('haproxy', (EXAMPLES / FILES['haproxy']).read_text(), folder)
    print('haproxy', flush=True)
    wrong = 0
    try:
        for name, (conference, user) in NAMED.items():
            wrong += claim(is_heard(folder, TOGETHER, name, user, conference), f'{name} is answered')
        wrong += try_ann(folder, TOGETHER, '1.10')
        wrong += try_resumed(folder)
        with reach(folder, TOGETHER, 'two') as client:
            client.sendall(hello(1, 1, 11))
            wrong += claim(hear(client, 16)[1] == 13 and answered(client, 1, 10), 'two names are the first of them')
        before = told(log)
        for name, what in ((None, 'without a certificate'), ('false-1.10', 'by another authority'),
                           ('expired', 'by a certificate that has expired')):
            wrong += claim(not is_heard(folder, TOGETHER, name), f'nobody is heard {what}')
        wrong += claim(refused(log, before) == [], 'nor do they come to the door')
        for name, (_, refusal) in NOBODY.items():
            wrong += try_refused(folder, log, name, refusal)
        wrong += try_bound('haproxy', folder, '1.10')
    finally:
        proxy.stop()
    return wrong


def try_fingerprints(folder):
    """Certificates that their owners signed, known by their fingerprints."""
    rooms = pathlib.Path(folder) / 'rooms.map'
    rooms.write_text(fingerprint(folder, 'room') + ' 1.10\n')
    text = (EXAMPLES / 'fingerprints.cfg').read_text().replace('/run/haproxy/', folder + '/')
    proxy = Proxy('haproxy', text, folder)
    print('haproxy, by fingerprints', flush=True)
    wrong = 0
    try:
        wrong += claim(is_heard(folder, ROOMS, 'room'), 'who is in the map is answered')
        with reach(folder, ROOMS, 'room') as client:
            client.sendall(hello(1, 1, 11))
            wrong += claim(hear(client, 16)[1] == 13 and answered(client, 1, 10), 'as nobody else')
        for name, what in ((None, 'without a certificate'), ('other-room', 'who is not in it'),
                           ('1.10', 'by a certificate of an authority')):
            wrong += claim(not is_heard(folder, ROOMS, name), f'nobody is heard {what}')
        with socket.socket(socket.AF_UNIX) as order:
            order.connect(folder + '/rooms.sock')
            order.sendall(f'add map {rooms} {fingerprint(folder, "other-room")} 1.11\n'.encode())
            order.recv(4096)
        wrong += claim(is_heard(folder, ROOMS, 'other-room', 11), 'one that is added is answered')
    finally:
        proxy.stop()
    return wrong


def try_refused(folder, log, name, refusal):
    """Who has this certificate isn't heard, and the log says why."""
    before = told(log)
    wrong = claim(not is_heard(folder, TOGETHER, name), f'nobody is heard under {name}')
    return wrong + claim(refused(log, before) == [refusal], f'and the log says {refusal}')


def try_resumed(folder):
    """A session that is resumed by a ticket has no certificate on its connection."""
    context = context_of(folder, '1.10')
    with reach(folder, TOGETHER, '1.10', context=context) as first:
        wrong = claim(answered(first, 1, 10), 'a session begins')
        session = first.session
    with reach(folder, TOGETHER, '1.10', session=session, context=context) as again:
        return wrong + claim(again.session_reused and answered(again, 1, 10), 'it is resumed, and is answered')


def try_optional(folder, log):
    """Where the proxy asks for no certificate and lets its faults through, the server refuses."""
    text = (EXAMPLES / FILES['haproxy']).read_text()
    text = text.replace('verify required', 'verify optional ca-ignore-err all crt-ignore-err all')
    proxy = Proxy('haproxy', text, folder)
    print('haproxy, with certificates optional', flush=True)
    wrong = 0
    try:
        wrong += claim(is_heard(folder, TOGETHER, '1.10'), '1.10 is answered')
        for name, refusal in ((None, 'NoCertificate'), ('false-1.10', 'NotVerified'), ('expired', 'NotVerified')):
            wrong += try_refused(folder, log, name, refusal)
    finally:
        proxy.stop()
    return wrong


def ends_in(client):
    """After how many seconds a connection is ended; None where it isn't within ten."""
    start = time.monotonic()
    client.settimeout(10)
    try:
        return time.monotonic() - start if client.recv(1) == b'' else None
    except socket.timeout:
        return None
    except ConnectionError:
        return time.monotonic() - start


def try_door(server, log):
    """What stands at the door itself, in any pieces."""
    print('the door', flush=True)
    wrong, ann = 0, proxy_header('1.10')
    for at in range(len(ann) + 13):
        with socket.create_connection(('127.0.0.1', DOOR), 5) as client:
            client.settimeout(8)
            client.setsockopt(socket.IPPROTO_TCP, socket.TCP_NODELAY, 1)
            whole = ann + hello(1, 1, 10)
            client.sendall(whole[:at])
            time.sleep(0.01)
            client.sendall(whole[at:])
            if len(hear(client, 48)) != 48:
                wrong += claim(False, f'a header and a Hello that are cut at {at} are answered')
    wrong += claim(wrong == 0, 'a header and a Hello are answered, wherever they are cut')
    for what, bytes_, refusal, seconds in (
            ('a header of version 1', b'PROXY TCP4 127.0.0.1 127.0.0.1 1 2\r\n', ['BadHeader'], 1),
            ('a message of BFCP', hello(1, 1, 10), ['BadHeader'], 1),
            ('an unknown command', ann[:12] + b'\x22', ['BadHeader'], 1),
            ('a health check', ann[:12] + b'\x20', [], 1),
            ('a header that lacks its last byte', ann[:-1], ['NoHeader'], 7),
            ('nothing', b'', ['NoHeader'], 7)):
        before = told(log)
        with socket.create_connection(('127.0.0.1', DOOR), 5) as client:
            client.sendall(bytes_)
            took = ends_in(client)
        wrong += claim(took is not None and took < seconds, f'{what} is ended within {seconds} s')
        wrong += claim(refused(log, before) == refusal, f'and the log says {" ".join(refusal) or "nothing"}')
    before, journal = told(log), server.journal(1)
    for _ in range(100):
        socket.create_connection(('127.0.0.1', HEALTH), 5).close()
    time.sleep(0.5)
    wrong += claim(told(log) == before and server.journal(1) == journal, 'a hundred probes change nothing')
    before = told(log)
    socket.create_connection(('127.0.0.1', DOOR), 5).close()
    wrong += claim(refused(log, before) == ['NoHeader'], 'a probe of the door is a line of the log')
    return wrong + try_many(log, 8)


def try_many(log, bound):
    """One user at the door 64 times: as many as the conference's connections say are served, and another user
    still finds room."""
    before, clients = told(log), []
    try:
        for _ in range(64):
            clients.append(socket.create_connection(('127.0.0.1', DOOR), 5))
            clients[-1].settimeout(8)
            clients[-1].sendall(proxy_header('1.10'))
            time.sleep(0.01)
        count = sum(answered(client, 1, 10) for client in clients)
        wrong = claim(count == bound, f'of 64 connections of ann {bound} are answered')
        wrong += claim(refused(log, before) == ['UserConnections'] * (64 - bound), 'and the log says UserConnections')
        with socket.create_connection(('127.0.0.1', DOOR), 5) as bridge:
            bridge.settimeout(8)
            bridge.sendall(proxy_header('1.12'))
            return wrong + claim(answered(bridge, 1, 12), 'another user finds room')
    finally:
        for client in clients:
            client.close()


def try_bound(kind, folder, name):
    """Connections of ann up to the bound are answered, one beyond isn't, and those go on."""
    clients = []
    for _ in range(BOUNDS[kind]):
        clients.append(reach(folder, TOGETHER, name))
    try:
        wrong = claim(all(answered(client, 1, 10) for client in clients),
                      f'{len(clients)} connections of ann are answered')
        wrong += claim(not is_heard(folder, TOGETHER, name), 'one more is not')
        wrong += claim(all(answered(client, 1, 10) for client in clients), 'the others go on')
    finally:
        for client in clients:
            client.close()
    time.sleep(0.5)
    return wrong + claim(is_heard(folder, TOGETHER, name), 'when they have left ann is answered again')


def try_two(floorhub, folder):
    """Two servers behind one haproxy, of which one is killed: a conference is looked for by its number."""
    text = (EXAMPLES / FILES['haproxy']).read_text()
    text = text.replace('    default_backend floorhub', '    use_backend other if { ssl_c_s_dn(cn) -m beg 3. }\n    default_backend floorhub')
    text += 'backend other\n    server other 127.0.0.1:7910 send-proxy-v2-ssl-cn check port 7912\n'
    first = served(floorhub)
    second = Server(floorhub, configuration(1, 1)[0].replace('id = 1', 'id = 3', 1),
                    words=('--door', '7910', '--health', '7912'))
    proxy = Proxy('haproxy', text, folder)
    print('two servers behind one haproxy', flush=True)
    try:
        ann, other = reach(folder, TOGETHER, '1.10'), reach(folder, TOGETHER, '3.10')
        wrong = claim(answered(ann, 1, 10) and answered(other, 3, 10), 'a user of each is answered')
        first.process.kill()
        first.process.wait()
        try:
            ended = ann.recv(1) == b''
        except (ssl.SSLError, ConnectionError):
            ended = True
        wrong += claim(ended, 'one server is killed: its user\'s connection ends')
        wrong += claim(not is_heard(folder, TOGETHER, '1.10'), 'who connects again is ended unanswered')
        wrong += claim(answered(other, 3, 10), 'the other server\'s user goes on')
        first = served(floorhub)
        end = time.monotonic() + 20
        while not (heard := is_heard(folder, TOGETHER, '1.10')) and time.monotonic() < end:
            time.sleep(0.5)
        return wrong + claim(heard, 'it is started again: its user is answered once a probe was')
    finally:
        proxy.stop()
        for server in (first, second):
            if server.process.poll() is None:
                server.stop()


def served(floorhub, log=None):
    """A floorhub on the example's configuration, with a door and a port for probes; its log goes to a file."""
    words = ('--door', str(DOOR), '--health', str(HEALTH), '--door-by-id', str(BY_ID), *(['--log'] if log else []))
    return Server(floorhub, (EXAMPLES / 'conferences.toml').read_text(), words=words,
                  errors=open(log, 'w') if log else None)


def main():
    if len(sys.argv) < 2:
        raise SystemExit(__doc__)
    floorhub, kinds = sys.argv[1], sys.argv[2:] or list(COMMANDS)
    wrong = 0
    with tempfile.TemporaryDirectory() as folder:
        os.chmod(folder, 0o755)
        certificates(folder)
        log = folder + '/floorhub.log'
        server = served(floorhub, log)
        try:
            for kind in kinds:
                wrong += try_haproxy(folder, log) if kind == 'haproxy' else try_proxy(kind, folder)
            if 'haproxy' in kinds:
                wrong += try_fingerprints(folder)
                wrong += try_optional(folder, log)
                wrong += try_door(server, log)
        finally:
            answer, status = server.stop()
        print(answer)
        wrong += status
        if 'haproxy' in kinds:
            wrong += try_two(floorhub, folder)
    print(f'{wrong} wrong')
    sys.exit(1 if wrong else 0)


if __name__ == '__main__':
    main()
