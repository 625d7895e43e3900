#!/usr/bin/env python3
"""A gateway for browsers, tried over sockets: ./web.py SERVER FLOORWEB FOLDER [GROUP ..]

Starts a server, a floord or a floorhub, and a floorweb of its own and runs each group of tries (or those
that are named): starts, heads, sockets, floods, many, unread, proxy (which wants nginx and openssl),
service, refused (which wants a C compiler), door (before a floorhub), ends; and, where it is named, loads, of
which each takes five minutes. Each try has the answer that it wants: a status of HTTP,
a close code of WebSocket (RFC 6455, section 7.4.1), or what is in the frames. Prints a line for each that
fails, and how many passed; status 1 where one failed.
"""
import collections
import fcntl
import os
import re
import resource
import select
import shlex
import shutil
import socket
import ssl
import struct
import subprocess
import sys
import tempfile
import termios
import threading
import time

import server
from browsers import (
    ACCEPT, CONFERENCES, ERROR, FLOOR_ID_1, FLOOR_QUERY, FLOOR_RELEASE, FLOOR_REQUEST, FLOOR_STATUS, HEAD, HELLO,
    HELLO_ACK, HOST, KEY, LONGEST, LOST_USERS, NOT_TAKEN, NO_SERVER, PORT, QUIET, USERS, Browser, Gateway, answer_of,
    ask, check, configuration, connect, failed, frame, get, message, number_of, passed, reply, status_of, token_of,
    upgrade)
from loads import loads
from server import FIRST_PORT, Server, hello

# A browser that takes nothing is cut: a write waits 30 seconds, and as long again for each part that the
# system's buffers still took.
CUT = 130
# How often a floor that 15 wait for is requested and given back beside one that reads nothing: it is
# told more by it than all buffers hold.
FLOOD = 3_000
# How many lines a log is told that nobody reads: more than a pipe holds.
UNREAD = 1_600


# Starts

def starts(program, folder):
    empty = tempfile.mkdtemp()
    with open(empty + '/style.css', 'w') as file:
        file.write('p { }')
    user = '[[conference]]\nid = 1\n[[conference.user]]\nid = 10\n'
    strong = 'token = "0123456789012345678901"\n'
    for name, text, at, address, fault, place in [
            ('no TOML', '[[conference', folder, HOST, 'Syntax', ''),
            ('a server\'s fault', '[[conference]]\nid = 1\nlimit = 17\n', folder, HOST, 'OutOfRange', ''),
            ('no conference', '', folder, HOST, 'MissingKey', ''),
            ('no token', user, folder, HOST, 'NoToken', ''),
            ('a short token', user + 'port = 1\ntoken = "012345678901234567890"\n', folder, HOST,
             'WeakToken', 'conference 1, user 10'),
            ('a token with a space', user + 'port = 1\ntoken = "01234567890123456789 1"\n', folder,
             HOST, 'WeakToken', 'conference 1, user 10'),
            ('a number', user + 'port = 1\ntoken = 7\n', folder, HOST, 'WeakToken', 'user 10'),
            ('no port', user + strong, folder, HOST, 'MissingPort', 'conference 1, user 10'),
            ('one token twice', user + 'port = 1\n' + strong + '[[conference.user]]\nid = 11\n'
             'port = 2\n' + strong, folder, HOST, 'DoubleToken', 'conference 1, user 10'),
            ('no page', user + 'port = 1\n' + strong, empty, HOST, 'NoPage', empty),
            ('no folder', user + 'port = 1\n' + strong, empty + '/none', HOST, 'CannotRead', 'none'),
            ('no address', user + 'port = 1\n' + strong, folder, '127.0.0.1:x', 'CannotListen', ''),
            ('an address of another', user + 'port = 1\n' + strong, folder, '192.0.2.1:80',
             'CannotListen', '192.0.2.1:80')]:
        status, printed, errors = Gateway(program, at, text, address=address).end()
        rows = errors.splitlines()
        check('start: ' + name, (status, printed, rows[-1:]), (1, '', ['floorweb: ' + fault]))
        check('start, its place: ' + name, len(rows) == 2 and place in rows[0], True)
    gone = subprocess.run([program, HOST, '/none.toml', folder], capture_output=True, text=True)
    check('start: no file', (gone.returncode, gone.stderr.splitlines()[-1:]),
          (1, ['floorweb: CannotRead']))
    for words, status in [(['--help'], 0), ([], 2), ([HOST], 2), (['--what', HOST, 'a', 'b'], 2)]:
        ran = subprocess.run([program] + words, capture_output=True, text=True)
        check('words: %s' % words, ran.returncode, status)
    shutil.rmtree(empty)


# Heads

def heads(program, folder):
    token = token_of(1, 10)
    own = 'http://' + HOST
    deaf = socket.create_server(('127.0.0.1', FIRST_PORT + 172), backlog=0)
    fillers = [socket.socket() for _ in range(4)]
    for filler in fillers:
        filler.setblocking(False)
        filler.connect_ex(deaf.getsockname())
    bearer = 'Authorization: Bearer %s\r\n' % token
    offered = 'bfcp, token.' + token
    for name, request, status in [
            ('the page', get('/'), 200), ('a file', get('/app.js'), 200),
            ('a query', get('/app.js?v=1'), 200), ('HEAD', get('/style.css', 'HEAD'), 200),
            ('an absent file', get('/nothing.js'), 404), ('a file without a kind', get('/NOTES'), 404),
            ('out of the folder', get('/../meeting.toml'), 404),
            ('out of it, escaped', get('/%2e%2e/meeting.toml'), 404),
            ('out of it, within', get('/page/../../meeting.toml'), 404),
            ('a root', get('//etc/passwd'), 404), ('no path', get('app.js'), 400),
            ('a star', get('*'), 400), ('POST', get('/', 'POST'), 405),
            ('OPTIONS', get('/', 'OPTIONS'), 405), ('a small method', get('/', 'get'), 405),
            ('no Host', b'GET / HTTP/1.1\r\n\r\n', 400),
            ('two Hosts', get('/', more='host: b\r\n'), 400),
            ('a body', get('/', more='Content-Length: 3\r\n') + b'abc', 400),
            ('a body in chunks', get('/', more='Transfer-Encoding: chunked\r\n'), 400),
            ('a folded field', get('/', more='A: b\r\n c\r\n'), 400),
            ('a field without a name', get('/', more=': b\r\n'), 400),
            ('a zero byte', get('/', more='A: \0\r\n'), 400),
            ('TLS', b'\x16\x03\x01\x02\x00\x01\x00', 400),
            ('64 fields', get('/', more=''.join('A%d: b\r\n' % n for n in range(63))), 200),
            ('65 fields', get('/', more=''.join('A%d: b\r\n' % n for n in range(64))), 431),
            ('a long head', get('/', more='A: %s\r\n' % ('a' * 9_000)), 431),
            ('a head without an end', b'GET / HTTP/1.1\r\nA: ' + b'a' * 9_000, 431),
            ('what a user is told', get('/meeting', more=bearer), 200),
            ('the same by its path', get('/meeting/' + token), 200),
            ('the same, HEAD', get('/meeting', 'HEAD', bearer), 200),
            ('without a token', get('/meeting'), 404),
            ('by another scheme', get('/meeting', more='Authorization: Basic %s\r\n' % token), 404),
            ('by nobody\'s token', get('/meeting/abc'), 404),
            ('by a part of a token', get('/meeting/' + token[:-1]), 404),
            ('by a longer one', get('/meeting/' + token + 'x'), 404),
            ('no upgrade', get('/bfcp/' + token), 426),
            ('HEAD of a socket', upgrade('/bfcp/' + token).replace(b'GET', b'HEAD', 1), 405),
            ('version 8', upgrade('/bfcp/' + token, Sec_WebSocket_Version='8'), 426),
            ('no version', upgrade('/bfcp/' + token, Sec_WebSocket_Version=None), 426),
            ('two versions', upgrade('/bfcp/' + token, 'Sec-WebSocket-Version: 13\r\n'), 400),
            ('another upgrade', upgrade('/bfcp/' + token, Upgrade='h2c'), 426),
            ('no connection', upgrade('/bfcp/' + token, Connection='close'), 426),
            ('no subprotocol', upgrade('/bfcp/' + token, Sec_WebSocket_Protocol=None), 400),
            ('another one', upgrade('/bfcp/' + token, Sec_WebSocket_Protocol='chat'), 400),
            ('a longer one', upgrade('/bfcp/' + token, Sec_WebSocket_Protocol='bfcp2'), 400),
            ('a foreign origin', upgrade('/bfcp/' + token, Origin='https://evil.example'), 403),
            ('a longer origin', upgrade('/bfcp/' + token, Origin=own + '.evil.example'), 403),
            ('the null origin', upgrade('/bfcp/' + token, Origin='null'), 403),
            ('two origins', upgrade('/bfcp/' + token, 'Origin: %s\r\n' % own, Origin=own), 400),
            ('no key', upgrade('/bfcp/' + token, Sec_WebSocket_Key=None), 400),
            ('a bad key', upgrade('/bfcp/' + token, Sec_WebSocket_Key='abc'), 400),
            ('two keys', upgrade('/bfcp/' + token, 'Sec-WebSocket-Key: %s\r\n' % KEY), 400),
            ('nobody\'s token', upgrade('/bfcp/nobody'), 404),
            ('no token', upgrade('/bfcp'), 404),
            ('nobody\'s token offered', upgrade('/bfcp', Sec_WebSocket_Protocol='bfcp, token.x'), 404),
            ('a server that accepts nothing', upgrade('/bfcp/' + token_of(99, 2)), 502),
            ('the version ahead of the token',
             upgrade('/bfcp/nobody', Sec_WebSocket_Version='8'), 426),
            ('the origin ahead of the key',
             upgrade('/bfcp/' + token, Origin='null', Sec_WebSocket_Key='abc'), 403)]:
        got = ask(request)
        check('head: ' + name, status_of(got), status)
        body = got.split(b'\r\n\r\n', 1)[-1]
        if request.startswith(b'HEAD'):
            check('head, no body: ' + name, body, b'')
        if status == 200:
            check('head, its policy: ' + name, b"default-src 'none'" in got, True)
    for one in fillers + [deaf]:
        one.close()
    for name, request in [
            ('in the path', upgrade('/bfcp/' + token)),
            ('offered', upgrade('/bfcp', Sec_WebSocket_Protocol=offered)),
            ('offered first', upgrade('/bfcp', Sec_WebSocket_Protocol='token.%s,bfcp' % token)),
            ('in a field of its own', upgrade('/bfcp', 'Sec-WebSocket-Protocol: token.%s\r\n' % token)),
            ('of this origin', upgrade('/bfcp/' + token, Origin=own)),
            ('of this origin by TLS', upgrade('/bfcp/' + token, Origin='https://' + HOST)),
            ('in small letters', upgrade('/bfcp/' + token).replace(b'Upgrade: websocket', b'upgrade: WEBSOCKET'))]:
        browser = Browser(token, request)
        check('socket: ' + name, (b' 101 ' in browser.head, ACCEPT in browser.head,
                                  b'Sec-WebSocket-Protocol: bfcp\r\n' in browser.head + b'\r\n'),
              (True, True, True))
        browser.close()
    request = get('/hand.svg')
    whole = ask(request)
    for cut in range(1, len(request)):
        stream = connect()
        stream.sendall(request[:cut])
        time.sleep(0.002)
        stream.sendall(request[cut:])
        check('head cut at %d' % cut, reply(stream), whole)
    stream = connect()
    for at in range(len(request)):
        stream.sendall(request[at:at + 1])
    check('head byte by byte', reply(stream), whole)
    began = time.monotonic()
    stream, other = connect(), connect()
    stream.sendall(b'GET / HTTP/1.1\r\nHo')
    for _ in range(8):
        time.sleep(1)
        other.sendall(b'G')
    check('a head that stops', status_of(reply(stream)), 408)
    check('in its time', HEAD <= time.monotonic() - began < HEAD + 3, True)
    check('a head that drips', status_of(reply(other)), 408)
    check('in its time too', HEAD <= time.monotonic() - began < HEAD + 3, True)
    for name, request, status in [('the page', get('/'), 200), ('an absent file', get('/none'), 404)]:
        stream = connect()
        stream.sendall(request)
        try:
            stream.sendall(b'x' * 300_000)
        except OSError as error:
            check('what comes behind a request: ' + name, error, None)
        time.sleep(0.2)
        got = reply(stream)
        check('an answer isn\'t taken back: ' + name, (status_of(got), got.endswith(b'<reset>')), (status, False))


# Sockets

def sockets(program, folder):
    token = token_of(1, 10)
    ack = message(HELLO)
    browser = Browser(token)
    browser.send(2, ack)
    check('an answer in one frame', browser.primitive(), HELLO_ACK)
    browser.send(9, b'hi')
    check('a ping is answered', browser.read(), (10, b'hi'))
    browser.send(9, b'p' * 125)
    check('the longest ping', browser.read(), (10, b'p' * 125))
    browser.send(10, b'nobody asked')
    browser.send(2, ack + b'', width=8)
    check('a long form of a length', browser.ends(), 1002)
    browser = Browser(token)
    browser.send(8, struct.pack('>H', 1000))
    check('a close is answered', browser.ends(), 1000)
    browser = Browser(token)
    browser.send(8, b'')
    check('a close without a code', browser.ends(), None)
    browser = Browser(token, behind=frame(2, ack))
    check('a message behind the head', browser.primitive(), HELLO_ACK)
    sent = frame(9, b'x') + frame(2, ack)
    for cut in range(1, len(sent)):
        browser.stream.sendall(sent[:cut])
        time.sleep(0.002)
        browser.stream.sendall(sent[cut:])
        check('frames cut at %d' % cut, (browser.read(), browser.primitive()), ((10, b'x'), HELLO_ACK))
    browser.stream.sendall(sent * 50)
    check('many frames at once', [browser.read()[0] for _ in range(100)].count(10), 50)
    browser.close()
    for name, sent, code in [
            ('a text', frame(1, b'hello'), 1003), ('a text that is a message', frame(1, ack), 1003),
            ('a text that is no UTF-8', frame(1, b'\xff'), 1007), ('no message', frame(2, b'abc'), 1007),
            ('nothing', frame(2, b''), 1007), ('half a message', frame(2, ack[:11]), 1007),
            ('two messages', frame(2, ack + ack), 1007), ('a byte too much', frame(2, ack + b'\0'), 1007),
            ('a first fragment', frame(2, ack[:5], last=False), 1002),
            ('an empty fragment', frame(2, b'', last=False), 1002),
            ('a fragment and a ping', frame(2, ack[:5], last=False) + frame(9, b'x'), 1002),
            ('a last fragment', frame(0, ack), 1002), ('no mask', frame(2, ack, mask=False), 1002),
            ('an unknown opcode', frame(3, b''), 1002), ('an unknown control', frame(11, b''), 1002),
            ('a reserved bit', frame(2, ack, bits=0x40), 1002), ('a long ping', frame(9, b'p' * 126), 1002),
            ('a ping in fragments', frame(9, b'p', last=False), 1002),
            ('a close of one byte', frame(8, b'\3'), 1002),
            ('a close by a code that isn\'t sent', frame(8, struct.pack('>H', 1005)), 1002),
            ('a close whose reason is no UTF-8', frame(8, struct.pack('>H', 1000) + b'\xff'), 1007),
            ('a long frame', frame(2, b'\x20' * 300_000), 1009),
            ('a byte above the longest', frame(2, b'\x20' * (LONGEST + 1)), 1009),
            ('a length alone', b'\x82\xff' + struct.pack('>Q', 1 << 40) + b'abcd', 1009)]:
        browser = Browser(token)
        browser.send(2, ack)
        check('before: ' + name, browser.primitive(), HELLO_ACK)
        browser.stream.sendall(sent + frame(2, ack))
        check('close: ' + name, browser.ends(), code)
    check('close: a server that isn\'t there', Browser(token_of(99, 1)).ends(), NO_SERVER)
    browser = Browser(token)
    browser.send(2, message(HELLO, payload=bytes([0x7e, 252] + [0] * 250) * 1_040))
    check('the longest message but some', browser.primitive() in (HELLO_ACK, ERROR), True)
    browser.stream.shutdown(socket.SHUT_WR)
    check('a browser that ends its side', browser.ends(), 'end')
    browser = Browser(token)
    times = []
    for transaction in range(1, 201):
        start = time.perf_counter()
        browser.stream.sendall(frame(9, b'x') + frame(2, message(HELLO, transaction=transaction)))
        browser.read(), browser.read()
        times.append(time.perf_counter() - start)
    # One that waited for the other's acknowledgement would come 40 ms later.
    check('of two small frames none waits for the other', sorted(times)[100] < 0.03, True)
    browser.close()
    browser = Browser(token)
    pings = 1_000
    hellos = 3_000

    def feed():
        for transaction in range(1, hellos + 1):
            browser.send(2, message(HELLO, transaction=transaction))
            if transaction % 3 == 0:
                browser.send(9, b'%d' % transaction)
    feeding = threading.Thread(target=feed)
    feeding.start()
    transactions, pongs = [], []
    while len(transactions) < hellos or len(pongs) < pings:
        opcode, payload = browser.read()
        if opcode == 2:
            transactions.append(struct.unpack('>H', payload[8:10])[0])
        else:
            pongs.append((opcode, payload))
    feeding.join()
    check('a storm: messages in order', transactions, list(range(1, hellos + 1)))
    check('a storm: pongs in order', pongs, [(10, b'%d' % n) for n in range(3, hellos + 1, 3)])
    browser.close()
    quiet, silent = Browser(token), Browser(token_of(2, 10))
    began = time.monotonic()
    check('a quiet browser is pinged', quiet.read(), (9, b''))
    check('after a while', QUIET - 1 < time.monotonic() - began < QUIET + 3, True)
    quiet.send(10, b'')
    check('a silent one is pinged', silent.read(), (9, b''))
    check('a silent one is given up', silent.ends(), 'end')
    check('after another', 2 * QUIET - 2 < time.monotonic() - began < 2 * QUIET + 5, True)
    check('one that answered isn\'t', quiet.read(), (9, b''))
    quiet.close()


# Ends

def ends(program, folder, floord_path, floord, gateway):
    place = tempfile.mkdtemp()
    shutil.copytree(folder, place, dirs_exist_ok=True)
    with open(place + '/two.dots.js', 'w') as file:
        file.write('// a file whose name has two dots')
    other = Gateway(program, place, configuration() + LOST_USERS, '--log', '--origin', 'https://meet.example.com',
                    address='127.0.0.1:%d' % (PORT + 1)).ready()
    for origin, status in [('https://meet.example.com', 101), ('http://' + HOST, 403),
                           ('https://meet.example.com.evil.example', 403), (None, 101)]:
        stream = socket.create_connection(('127.0.0.1', PORT + 1))
        stream.settimeout(10)
        stream.sendall(upgrade('/bfcp/' + token_of(3, 10), Origin=origin))
        check('listed origin: %s' % origin, status_of(stream.recv(4_096)), status)
        stream.close()
    stream = socket.create_connection(('127.0.0.1', PORT + 1))
    stream.sendall(get('/two.dots.js'))
    check('a name with two dots', status_of(reply(stream)), 200)
    stream.close()
    shutil.rmtree(place)
    stream = socket.create_connection(('127.0.0.1', PORT + 1))
    stream.sendall(upgrade('/bfcp/' + token_of(99, 1)))
    check('a server that isn\'t there', reply(stream)[-4:], b'\x88\x02' + struct.pack('>H', NO_SERVER))
    stream.close()
    stream = socket.create_connection(('127.0.0.1', PORT + 1))
    stream.sendall(upgrade('/bfcp/' + token_of(3, 11)))
    while not select.select([stream], [], [], 5)[0]:
        pass
    stream.recv(4_096)
    told = []

    def hear():
        told.append(stream.recv(100))
        stream.close()
    hearing = threading.Thread(target=hear)
    hearing.start()
    time.sleep(0.5)
    status, printed, errors = other.end()
    hearing.join()
    check('the end of its input', (status, printed), (0, ''))
    check('browsers are told', told, [b'\x88\x02\x03\xe9'])
    rows = [line.split(' ', 1) for line in errors.splitlines()]
    check('the log', sorted(row[1] for row in rows), sorted(
        ['joined conference 3 user 10', 'left conference 3 user 10: Gone'] * 2
        + ['joined conference 3 user 11', 'left conference 3 user 11: ServerGone']
        + ['no server for conference 99 user 1'] + ['refused 403 Forbidden'] * 2))
    check('its times', all(len(row[0]) == 24 and row[0].endswith('Z') for row in rows), True)
    check('no token in it', 'token-of' in errors, False)
    browsers = [Browser(token_of(n, 10)) for n in range(1, 5)]
    for n, browser in enumerate(browsers, 1):
        browser.send(2, message(HELLO, conference=n))
        browser.primitive()
    floord.process.kill()
    floord.process.wait()
    check('the server is killed', [browser.ends() for browser in browsers], [1001] * 4)
    check('nobody is there', Browser(token_of(1, 10)).ends(), NO_SERVER)
    check('the page is', status_of(ask(get('/'))), 200)
    back = Server(floord_path, configuration(), limits={resource.RLIMIT_NOFILE: 4_096})
    browser = Browser(token_of(1, 10))
    browser.send(2, message(HELLO))
    check('the server is back', browser.primitive(), HELLO_ACK)
    browser.close()
    back.process.kill()
    back.process.wait()


# Browsers that take nothing

def floods(floord, gateway):
    """Each is cut, nobody else notices, and nothing of it stays."""
    before = gateway.at_rest()
    deaf = Browser(token_of(5, 10))
    deaf.stream.settimeout(5)
    try:
        while True:
            deaf.stream.sendall(frame(9, b'p' * 125) * 500)
    except TimeoutError:
        pass
    check('a flood of pings is cut', gateway.freed(before, CUT), before[1:])
    deaf.close()
    deaf, watcher, busy = [Browser(token_of(6, user), narrow=user == 10) for user in (10, 11, 12)]
    for turn in range(15):
        busy.send(2, message(FLOOR_REQUEST, 6, turn + 1, 12, FLOOR_ID_1 + bytes([16, 64]) + b'why ' * 15 + b'me'))
        busy.read()
    for user, browser in ((10, deaf), (11, watcher)):
        browser.send(2, message(FLOOR_QUERY, 6, 1, user, FLOOR_ID_1))
    check('a watcher is answered', watcher.primitive(), FLOOR_STATUS)
    told = []

    def hear():
        try:
            while True:
                told.append(watcher.primitive())
        except (EOFError, OSError, AssertionError):
            pass
    hearing = threading.Thread(target=hear, daemon=True)
    hearing.start()
    answers = 0
    for turn in range(FLOOD):
        busy.send(2, message(FLOOR_REQUEST, 6, 2 * turn + 1, 12, FLOOR_ID_1))
        request = number_of(busy.read()[1])
        busy.send(2, message(FLOOR_RELEASE, 6, 2 * turn + 2, 12, struct.pack('>BBH', 6, 4, request)))
        answers += 1 if number_of(busy.read()[1]) == request else 0
    check('others go on beside one that reads nothing', answers, FLOOD)
    for _ in range(300):
        if len(told) >= 2 * FLOOD or not hearing.is_alive():
            break
        time.sleep(0.1)
    check('a watcher is told of each', told.count(FLOOR_STATUS), 2 * FLOOD)
    for _ in range(600):
        time.sleep(0.1)
        if 'members 2 ' in floord.ask('status 6'):
            break
    check('one that reads nothing is cut', floord.ask('status 6').split()[:4],
          ['conference', '6', 'members', '2'])
    busy.close()
    watcher.stream.shutdown(socket.SHUT_RDWR)
    check('floods: all freed, also of one that still reads nothing', gateway.freed(before, CUT), before[1:])
    deaf.close()
    half = [connect() for _ in range(200)]
    for stream in half:
        stream.sendall(b'GET / HTTP/1.1\r\n')
    check('a page beside 200 heads that stop', status_of(ask(get('/'))), 200)
    for stream in half[:100]:
        stream.close()
    check('the others are told', [status_of(reply(stream)) for stream in half[100:]], [408] * 100)
    check('heads that stop: all freed', gateway.freed(before, 5), before[1:])


# A log that nobody reads

def unread(program, folder):
    """Standard error is a pipe that is full: pages and WebSockets are served as before, also by the thread that
    accepts, and the end of the input ends the program."""
    port = PORT + 4
    gateway = Gateway(program, folder, configuration(), '--log', address='127.0.0.1:%d' % port).ready()

    def reach():
        stream = socket.create_connection(('127.0.0.1', port))
        stream.settimeout(20)
        return stream

    def asked(request):
        stream = reach()
        stream.sendall(request)
        try:
            return status_of(reply(stream))
        except TimeoutError:
            return 'no answer'
        finally:
            stream.close()

    answers = collections.Counter(asked(get('/none')) for _ in range(UNREAD))
    check('unread: each request is answered', answers, {404: UNREAD})
    waits = fcntl.ioctl(gateway.process.stderr, termios.FIONREAD, bytes(4))
    check('unread: the pipe is full', struct.unpack('i', waits)[0] > 60_000, True)
    check('unread: a page', asked(get('/')), 200)
    stream = reach()
    stream.sendall(upgrade('/bfcp/' + token_of(8, 11)) + frame(2, message(HELLO, conference=8, user=11)))
    got = b''
    try:
        while b'\r\n\r\n\x820\x20\x0c' not in got and (piece := stream.recv(4_096)):
            got += piece
    except TimeoutError:
        pass
    check('unread: a WebSocket', b'\r\n\r\n\x820\x20\x0c' in got, True)
    held = [reach() for _ in range(1_023)]
    time.sleep(1)
    check('unread: beside 1,023 that say nothing', asked(get('/')), 200)
    for one in held:
        one.close()
    time.sleep(1)
    check('unread: and room again', asked(get('/')), 200)
    gateway.process.stdin.close()
    try:
        check('unread: the end of the input', gateway.process.wait(10), 0)
    except subprocess.TimeoutExpired:
        check('unread: the end of the input', 'it goes on', 0)
        gateway.process.kill()
    stream.close()
    lines = gateway.process.stderr.read().decode().splitlines()
    check('unread: what the pipe held', set(line.split(' ', 1)[1] for line in lines[:1_000]), {'refused 404 Not Found'})
    os.unlink(gateway.path)


# A proxy

def proxy(program, folder):
    """nginx with the block of docs/operate/browsers.md before the gateway, with a certificate made here."""
    page = open(os.path.join(os.path.dirname(os.path.abspath(__file__)), '../docs/operate/browsers.md')).read()
    block = re.search(r'^limit_conn_zone .*?^\}\n', page, re.M | re.S).group()
    name = re.search(r'server_name (\S+);', block).group(1)
    with tempfile.TemporaryDirectory() as place:
        subprocess.run(['openssl', 'req', '-x509', '-newkey', 'rsa:2048', '-nodes', '-days', '2', '-subj',
                        '/CN=' + name, '-addext', 'subjectAltName=DNS:' + name, '-keyout', place + '/key.pem',
                        '-out', place + '/own.pem'], check=True, stderr=subprocess.DEVNULL)
        block = block.replace('listen 443 ssl;', 'listen 127.0.0.1:%d ssl; ssl_certificate %s/own.pem; '
                              'ssl_certificate_key %s/key.pem;' % (PORT + 2, place, place))
        block = block.replace('127.0.0.1:7080', HOST)
        paths = ''.join('%s_temp_path %s;\n' % (kind, place)
                        for kind in ('client_body', 'proxy', 'fastcgi', 'uwsgi', 'scgi'))
        with open(place + '/nginx.conf', 'w') as file:
            file.write('daemon off; pid %s/pid; error_log %s/errors; events { }\nhttp { access_log %s/log;\n%s%s}\n' % (
                place, place, place, paths, block))
        running = subprocess.Popen(['nginx', '-p', place, '-c', place + '/nginx.conf'], stderr=subprocess.DEVNULL)
        try:
            through_tls(name, place)
        finally:
            running.terminate()
            running.wait()


def through_tls(name, place):
    trust = ssl.create_default_context(cafile=place + '/own.pem')

    def reach():
        for _ in range(100):
            try:
                plain = socket.create_connection(('127.0.0.1', PORT + 2))
                break
            except ConnectionRefusedError:
                time.sleep(0.1)
        plain.settimeout(90)
        return trust.wrap_socket(plain, server_hostname=name)

    stream = reach()
    stream.sendall(get('/').replace(HOST.encode(), name.encode()))
    check('proxy: the page', status_of(stream.recv(65_536)), 200)
    stream.close()
    offered = 'bfcp, token.' + token_of(7, 10)
    for origin, status in [('https://' + name, 101), ('https://evil.example', 403), ('https://' + HOST, 403)]:
        stream = reach()
        stream.sendall(upgrade('/bfcp', Host=name, Origin=origin, Sec_WebSocket_Protocol=offered))
        check('proxy: from ' + origin, status_of(stream.recv(65_536)), status)
        if status == 101:
            quiet = stream
        else:
            stream.close()
    pings = []
    began = time.monotonic()
    while time.monotonic() - began < 3 * QUIET:
        pings.append(quiet.recv(100))
        quiet.sendall(frame(10, b''))
    check('proxy: a quiet browser is pinged', set(pings), {b'\x89\x00'})
    quiet.sendall(frame(2, message(HELLO, conference=7)))
    check('proxy: and answered after more than a minute', quiet.recv(100)[:4][1:], b'\x30\x20\x0c')
    quiet.close()
    with open(place + '/log') as file:
        check('proxy: no token in its log', 'token' in file.read(), False)


# Allocations

# By each library: what it refuses, in which forms, and by which faults a run may end early by it.
REFUSING = (
    ('refused', 'allocation', ('%d', '%d-'), ('Memory', 'CannotListen', 'CannotRead')),
    ('refused_calls', 'read, write or accept', ('%d',), ('CannotRead', 'CannotWrite', 'NoPage')),
)


def refused(program, folder):
    """One allocation is refused, and all from one on: the first, the second, up to as many as a run makes.
    So is one read, write or accept.

    A run ends by itself. What it answers is whole, or the connection ends; where one call alone is
    refused, whoever comes again is answered. Where it ends early it names the fault."""
    here = os.path.dirname(os.path.abspath(__file__))
    for library, what, forms, faults in REFUSING:
        with tempfile.TemporaryDirectory() as place:
            path = '%s/%s.so' % (place, library)
            subprocess.run(['cc', '-O2', '-shared', '-fPIC', '-o', path, '%s/%s.c' % (here, library)], check=True)
            count = place + '/count'

            def run(which):
                return refused_run(program, folder, faults, {'LD_PRELOAD': path, 'REFUSE': which, 'REFUSE_COUNT': count})

            end, _ = run('0')
            check('%s: none is refused' % what, end, 'well')
            if library == 'refused_calls':
                variables = {'LD_PRELOAD': path, 'REFUSE': '0', 'SHORT': '1'}
                check('each write takes a byte', refused_run(program, folder, faults, variables)[0], 'well')
            with open(count) as file:
                made = int(file.read())
            for form in forms:
                ends = collections.Counter()
                for number in range(1, made + 10):
                    end, heard = run(form % number)
                    ends[end] += 1
                    names = [name for pair in heard for name in pair]
                    case = '%s %s refused: ' % (what, form % number)
                    check(case + 'its end', end.startswith('WRONG'), False)
                    check(case + 'its answers', [n for n in names if n.startswith('WRONG')], [])
                    if form == '%d' and heard:
                        check(case + 'who comes again', ('page' in names, 'hello' in names), (True, True))
                print('%s, %d, %s: %s' % (
                    what, made, 'one is refused' if form == '%d' else 'all from one on are refused',
                    ', '.join('%d %s' % (count, end) for end, count in ends.most_common())))


def refused_run(program, folder, faults, variables):
    """How a run ends of which something is refused, and what became of whoever came to it twice."""
    gateway = Gateway(program, folder, configuration(), '--log', address='127.0.0.1:%d' % (PORT + 3), variables=variables)
    heard = []
    if gateway.process.stdout.readline() == b'ready\n':
        heard = [page_and_hello(), page_and_hello()]
    status, _, errors = gateway.end()
    rows = errors.splitlines()
    if status == 0 and heard:
        return 'well' if heard == [('page', 'hello')] * 2 else 'served in part', heard
    if status == 1 and rows[-1:] and rows[-1].removeprefix('floorweb: ') in faults:
        return rows[-1].split()[1], heard
    return 'WRONG: %d, %r' % (status, errors), heard


def page_and_hello():
    """What became of a request for a file, and of a Hello over a WebSocket."""
    def reach():
        stream = socket.create_connection(('127.0.0.1', PORT + 3))
        stream.settimeout(20)
        return stream
    stream = reach()
    stream.sendall(get('/hand.svg'))
    got = reply(stream)
    stream.close()
    page = 'page' if got.endswith(b'</svg>\n') else 'ended' if got in (b'', b'<reset>') else 'WRONG: %r' % got
    stream = reach()
    stream.sendall(upgrade('/bfcp/' + token_of(4, 10)) + frame(2, message(HELLO, conference=4)))
    got = b''
    try:
        while not got.endswith(b'\x88\x02\x03\xf3') and b'\r\n\r\n\x820\x20\x0c' not in got:
            piece = stream.recv(4_096)
            if not piece:
                break
            got += piece
    except ConnectionResetError:
        got = b''
    except TimeoutError:
        return page, 'WRONG: no answer behind %r' % got[-40:]
    stream.close()
    if b'\x820\x20\x0c' in got:
        return page, 'hello'
    if got == b'' or got.endswith(b'\r\n\r\n') or got.endswith(b'\x88\x02\x03\xf3') or got.endswith(b'\x88\x02\x03\xe9') or got.endswith(b'\x88\x02\x11\x33'):
        # By 4403 where a read of the server failed before it had said anything.
        return page, 'ended'
    return page, 'WRONG: %r' % got


# A service

def service(program, folder):
    """The commands of examples/floorweb.service, as systemd runs them, over folders made here."""
    page = os.path.join(os.path.dirname(os.path.abspath(__file__)), '../examples/floorweb.service')
    text = open(page).read()
    with tempfile.TemporaryDirectory() as place:
        with open(place + '/conferences.toml', 'w') as file:
            file.write(configuration())
        for old, new in [('/run/floorweb', place), ('/usr/local/bin/floorweb', os.path.abspath(program)),
                         ('/usr/local/share/floorweb', os.path.abspath(folder)),
                         ('127.0.0.1:7080', '127.0.0.1:%d' % (PORT + 1))]:
            text = text.replace(old, new)
        commands = dict(re.findall(r'^(Exec\w+)=(.*)$', text, re.M))
        subprocess.run(shlex.split(commands['ExecStartPre']), check=True)
        with open(place + '/printed', 'w') as printed:
            running = subprocess.Popen(shlex.split(commands['ExecStart']), stdin=subprocess.DEVNULL, stdout=printed,
                                       stderr=printed, env={**os.environ, 'CREDENTIALS_DIRECTORY': place})
        while 'ready' not in open(place + '/printed').read() and running.poll() is None:
            time.sleep(0.1)
        stream = socket.create_connection(('127.0.0.1', PORT + 1))
        stream.settimeout(10)
        stream.sendall(upgrade('/bfcp/' + token_of(8, 10)))
        check('service: a browser', status_of(stream.recv(4_096)), 101)
        told = []
        hearing = threading.Thread(target=lambda: told.append(reply(stream)) or stream.close())
        hearing.start()
        time.sleep(2)
        check('service: it stays', running.poll(), None)
        # systemd takes up what has ended by itself.
        ended = threading.Thread(target=running.wait)
        ended.start()
        subprocess.run(shlex.split(commands['ExecStop']), check=True, timeout=20,
                       env={**os.environ, 'MAINPID': str(running.pid)})
        ended.join(10)
        hearing.join(10)
        check('service: it is stopped', running.returncode, 0)
        check('service: the browser is told', told, [b'\x88\x02\x03\xe9'])
        check('service: its log', [row.split(' ', 1)[1] for row in open(place + '/printed').read().splitlines()[1:]],
              ['joined conference 8 user 10', 'left conference 8 user 10: ServerGone'])


# A door

# How many connections of one user the server of this group serves.
BOUND = 3


def door(program, folder, server_path):
    """Users without ports, who come by a door of floorhub; a floord has none."""
    if not server.is_hub(server_path):
        return
    at = PORT + 4
    text = ''.join(
        '[[conference]]\nid = %d\nconnections = %d\n%s[[conference.floor]]\nid = 1\n' % (conference, BOUND, ''.join(
            '[[conference.user]]\nid = %d\ntoken = "%s"\n' % (user, token_of(conference, user)) for user in (10, 11)))
        for conference in (1, 2))
    words = ('--door-by-id', str(at))
    hub = Server(server_path, text, words=words)
    gateway = Gateway(program, folder, text + LOST_USERS, *words, '--log', address='127.0.0.1:%d' % (PORT + 5)).ready()

    def browser(conference, user):
        one = Browser(token_of(conference, user), port=PORT + 5)
        one.send(2, message(HELLO, conference=conference, user=user))
        return one

    def end_of(one):
        end = one.ends()
        one.close()
        return end
    before = gateway.at_rest()
    ann, ben, other = browser(1, 10), browser(1, 11), browser(2, 10)
    check('door: each is answered', [one.primitive() for one in (ann, ben, other)], [HELLO_ACK] * 3)
    ann.send(2, message(HELLO, user=11))
    check('door: nobody is another', ann.primitive(), ERROR)
    ben.send(2, message(FLOOR_QUERY, user=11, payload=FLOOR_ID_1))
    check('door: a floor is watched', ben.primitive(), FLOOR_STATUS)
    ann.send(2, message(FLOOR_REQUEST, payload=FLOOR_ID_1))
    check('door: a floor is granted, and who watches it is told', (ann.primitive(), ben.primitive()), (4, FLOOR_STATUS))
    more = [browser(1, 10) for _ in range(BOUND - 1)]
    check('door: more browsers of one user', [one.primitive() for one in more], [HELLO_ACK] * (BOUND - 1))
    check('door: one too many', end_of(browser(1, 10)), NOT_TAKEN)
    check('door: nobody of the configuration', end_of(Browser(token_of(99, 1), port=PORT + 5)), NOT_TAKEN)
    check('door: they are members', hub.ask('status 1').split(' events')[0], 'conference 1 members 4 ongoing 1')
    check('door: the meeting ends', hub.ask('close 1'), 'ok closed 1')
    check('door: its browsers are told', [end_of(one) for one in [ann, ben] + more], [1001] * 4)
    check('door: nobody comes to it again', end_of(browser(1, 10)), NOT_TAKEN)
    other.send(2, message(HELLO, conference=2, transaction=2))
    check('door: the other goes on', other.primitive(), HELLO_ACK)
    check('door: the server stops', hub.stop()[1], 0)
    check('door: its browser is told', end_of(other), 1001)
    check('door: nobody is there', end_of(Browser(token_of(2, 10), port=PORT + 5)), NO_SERVER)
    check('door: all freed', gateway.freed(before, 10), before[1:])
    status, _, errors = gateway.end()
    rows = [line.split(' ', 1)[1] for line in errors.splitlines()]
    check('door: the log', (status, rows.count('left conference 1 user 10: ServerGone'),
                            rows.count('left conference 1 user 10: Refused'), rows[-1:]),
          (0, BOUND, 2, ['no server for conference 2 user 10']))


# Many

def many(program, folder, gateway, count=500):
    before = gateway.at_rest()
    began = time.monotonic()
    browsers = []
    for n in range(count):
        conference = n % CONFERENCES + 1
        browsers.append((conference, 10 + n // CONFERENCES % USERS,
                         Browser(token_of(conference, 10 + n // CONFERENCES % USERS))))
    took = time.monotonic() - began
    time.sleep(1)
    during = gateway.use()
    for conference, user, browser in browsers:
        browser.send(2, message(HELLO, conference=conference, user=user))
    check('many: answered', [b.primitive() for _, _, b in browsers].count(HELLO_ACK), count)
    print('%d browsers in %.2f s: %.0f kB, %.1f threads and %.1f descriptors for each' % (
        count, took, (during[0] - before[0]) / count, (during[1] - before[1]) / count,
        (during[2] - before[2]) / count))
    times = []
    conference, user, browser = browsers[0]
    for n in range(2_000):
        start = time.perf_counter()
        browser.send(2, message(HELLO, conference=conference, transaction=n + 1, user=user))
        browser.read()
        times.append(time.perf_counter() - start)
    port = socket.create_connection(('127.0.0.1', FIRST_PORT))
    port.setsockopt(socket.IPPROTO_TCP, socket.TCP_NODELAY, 1)
    direct = []
    for n in range(2_000):
        start = time.perf_counter()
        port.sendall(hello(1, n + 1, 10))
        port.recv(4_096)
        direct.append(time.perf_counter() - start)
    port.close()
    print('a Hello among them: %.0f us through the gateway, %.0f us at the port (medians)' % (
        1e6 * sorted(times)[1_000], 1e6 * sorted(direct)[1_000]))
    for _, _, browser in browsers:
        browser.close()
    check('many: all freed', gateway.freed(before, 10), before[1:])
    held = []
    for _ in range(1_024):
        held.append(connect())
    time.sleep(1)
    silent = [connect() for _ in range(40)]
    began = time.monotonic()
    answers = []
    for _ in range(20):
        stream = connect()
        stream.sendall(get('/'))
        answers.append(answer_of(stream, 3))
    check('begun requests shut nobody out', answers, [200] * 20)
    check('nor do they hold anybody up', time.monotonic() - began < 5, True)
    # The oldest were ended, without an answer.
    ended = select.select(held[:700], [], [], 0)[0]
    check('the oldest were ended', [len(ended), {stream.recv(10) for stream in ended}], [700, {b''}])
    for stream in held + silent:
        stream.close()


def main():
    if len(sys.argv) < 4:
        raise SystemExit(__doc__)
    floord_path, program, folder = sys.argv[1:4]
    groups = sys.argv[4:] or ['starts', 'heads', 'sockets', 'floods', 'many', 'unread', 'proxy', 'service', 'refused',
                              'door', 'ends']
    resource.setrlimit(resource.RLIMIT_NOFILE, (8_192, 8_192))
    if 'starts' in groups:
        starts(program, folder)
    floord = Server(floord_path, configuration(), limits={resource.RLIMIT_NOFILE: 4_096})
    gateway = Gateway(program, folder, configuration() + LOST_USERS).ready()
    if 'heads' in groups:
        heads(program, folder)
    if 'sockets' in groups:
        sockets(program, folder)
    if 'floods' in groups:
        floods(floord, gateway)
    if 'proxy' in groups:
        proxy(program, folder)
    if 'service' in groups:
        service(program, folder)
    if 'refused' in groups:
        refused(program, folder)
    if 'door' in groups:
        door(program, folder, floord_path)
    if 'many' in groups:
        many(program, folder, gateway)
    if 'loads' in groups:
        loads(floord_path, program, folder)
    if 'unread' in groups:
        unread(program, folder)
    if 'ends' in groups:
        ends(program, folder, floord_path, floord, gateway)
    check('it ends, without a log', gateway.end(), (0, '', ''))
    floord.process.kill()
    print('%d tries passed, %d failed' % (len(passed), len(failed)))
    sys.exit(1 if failed else 0)


main()
