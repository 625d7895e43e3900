"""Loads of a gateway for browsers, each for some minutes: the group `loads` of web.py.

A thousand browsers over fifty conferences, of which in each one raises a hand and lowers it again, twice a second,
and all others are told; and beside them one that takes nothing, a head that drips, and a page that is loaded anew
each second; before them others come and go. LOADS_SECONDS in the environment is how long it goes on, if not 300.
"""
import os
import resource
import selectors
import struct
import threading
import time

from browsers import (
    FLOOR_ID_1, FLOOR_QUERY, FLOOR_RELEASE, FLOOR_REQUEST, HEAD, HELLO, Browser, Gateway, check, connect, get,
    message, number_of, reply, status_of, token_of)
from server import FIRST_PORT, Server

CONFERENCES = 50
USERS = 4
# Browsers of one user: so a conference has 20.
WINDOWS = 5
SECONDS = float(os.environ.get('LOADS_SECONDS', 300))
# How often a hand is raised and lowered again in each conference, in seconds.
EACH = 1
PORT = FIRST_PORT + 480
# More than there may be at once by themselves: what comes beside the thousand is to be seen for itself.
PLACES = 1_200
# glibc keeps what was given back, for each thread and in up to eight arenas a processor, which looks like growth: some
# 20 kB for each browser. Without caches and with one arena the gateway's memory is what it holds.
PLAIN = {'MALLOC_ARENA_MAX': '1', 'GLIBC_TUNABLES': 'glibc.malloc.tcache_count=0'}
# By how many kB it may grow then for each browser that stays and is told some hundred messages (half of it was seen,
# with what waits for the one that takes nothing), and for each that came and went (nothing was).
GROWTH = 1
LEFT = 0.25
# How many rounds of how many browsers come and go, behind some that aren't counted.
ROUNDS = 40
FIRST_ROUNDS = 5
TOGETHER = 50
# How long the last answers are waited for, in seconds: the browsers, the server and the gateway share the machine.
LAST = 60


def configuration():
    rows = []
    port = FIRST_PORT + 200
    for conference in range(1, CONFERENCES + 1):
        rows.append('[[conference]]\nid = %d\n' % conference)
        for user in range(10, 10 + USERS):
            rows.append('[[conference.user]]\nid = %d\nport = %d\ntoken = "%s"\n' % (user, port, token_of(conference, user)))
            port += 1
        rows.append('[[conference.floor]]\nid = 1\n')
    return ''.join(rows)


class Crowd:
    """The browsers, which one thread reads: what each is told is counted, and who asks is told of the answer."""

    def __init__(self):
        self.poll = selectors.DefaultSelector()
        self.members = []
        self.told = 0
        self.closed = []
        self.times = []
        self.asked = {}
        self.granted = []
        self.lock = threading.Lock()
        self.is_over = False
        self.began = time.monotonic()

    def add(self, conference, user, place):
        browser = Browser(token_of(conference, user), port=PORT)
        browser.send(2, message(HELLO, conference, 1, user))
        browser.primitive()
        browser.send(2, message(FLOOR_QUERY, conference, 2, user, FLOOR_ID_1))
        browser.primitive()
        browser.conference, browser.user, browser.transaction, browser.requests = conference, user, 2, set()
        browser.is_raising = {}
        browser.stream.setblocking(False)
        self.members.append(browser)
        self.poll.register(browser.stream, selectors.EVENT_READ, browser)
        return browser

    def ask(self, browser, primitive, payload):
        browser.transaction = browser.transaction % 65_000 + 1
        if primitive == FLOOR_REQUEST:
            browser.is_raising[browser.transaction] = True
        with self.lock:
            self.asked[browser.conference, browser.user, browser.transaction] = time.monotonic()
        browser.stream.setblocking(True)
        try:
            browser.send(2, message(primitive, browser.conference, browser.transaction, browser.user, payload))
        except OSError as error:
            self.closed.append((browser.conference, browser.user, error))
        browser.stream.setblocking(False)

    def hear(self, browser):
        try:
            piece = browser.stream.recv(65_536)
        except BlockingIOError:
            return
        except OSError:
            piece = b''
        if not piece:
            self.poll.unregister(browser.stream)
            if not self.is_over:
                self.closed.append((browser.conference, browser.user, 'end', round(time.monotonic() - self.began)))
            return
        browser.held += piece
        while len(browser.held) >= 2:
            length, at = browser.held[1] & 127, 2
            if length == 126 and len(browser.held) >= 4:
                length, at = struct.unpack('>H', browser.held[2:4])[0], 4
            if len(browser.held) < at + length:
                return
            opcode, payload = browser.held[0] & 15, browser.held[at:at + length]
            browser.held = browser.held[at + length:]
            self.take(browser, opcode, payload)

    def take(self, browser, opcode, payload):
        if opcode == 9:
            browser.stream.setblocking(True)
            browser.send(10, payload)
            browser.stream.setblocking(False)
            return
        if opcode != 2:
            self.closed.append((browser.conference, browser.user, opcode, payload, round(time.monotonic() - self.began)))
            return
        self.told += 1
        transaction = struct.unpack('>H', payload[8:10])[0]
        if transaction == 0:
            return
        with self.lock:
            asked = self.asked.pop((browser.conference, browser.user, transaction), None)
        if asked is not None:
            self.times.append(time.monotonic() - asked)
            if payload[1] == 4 and browser.is_raising.pop(transaction, False):
                self.granted.append(transaction)
                browser.requests.add(number_of(payload))

    def read(self):
        while not self.is_over:
            for key, _ in self.poll.select(0.2):
                self.hear(key.data)


def raising(crowd, askers, end):
    """In each conference a hand is raised and lowered again."""
    turns = 0
    while time.monotonic() < end:
        began = time.monotonic()
        for browser in askers:
            crowd.ask(browser, FLOOR_REQUEST, FLOOR_ID_1)
        time.sleep(EACH / 2)
        for browser in askers:
            for request in list(browser.requests):
                browser.requests.remove(request)
                crowd.ask(browser, FLOOR_RELEASE, struct.pack('>BBH', 6, 4, request))
        turns += 1
        time.sleep(max(0, EACH - (time.monotonic() - began)))
    return turns


def reload(end, seen):
    """A page is loaded each second: its files, its meeting and its WebSocket, as app.js does."""
    names = ['/'] + ['/' + name for name in sorted(os.listdir(seen['folder'])) if name.endswith(('.js', '.css', '.svg'))]
    token = token_of(1, 13)
    while time.monotonic() < end:
        began = time.monotonic()
        for name in names:
            stream = connect(port=PORT)
            stream.sendall(get(name))
            seen['files'] += status_of(reply(stream)) == 200
            stream.close()
        stream = connect(port=PORT)
        stream.sendall(get('/meeting', more='Authorization: Bearer %s\r\n' % token))
        seen['meetings'] += status_of(reply(stream)) == 200
        stream.close()
        browser = Browser(token, port=PORT)
        browser.send(2, message(HELLO, 1, 1, 13))
        seen['hellos'] += browser.primitive() == 12
        browser.close()
        seen['loads'] += 1
        seen['slowest'] = max(seen['slowest'], time.monotonic() - began)
        time.sleep(max(0, 1 - (time.monotonic() - began)))
    seen['wanted'] = len(names)


def drip(end, seen):
    """A head comes a byte a second, again and again: each is given up in its time."""
    while time.monotonic() + HEAD + 3 < end:
        began = time.monotonic()
        stream = connect(port=PORT)
        stream.settimeout(1)
        got, sent = b'', 0
        while not got and time.monotonic() < began + 3 * HEAD:
            try:
                stream.sendall(b'GET / HTTP/1.1\r\nHost: h\r\nA: ' [sent:sent + 1] or b'a')
                sent += 1
                got = stream.recv(4_096)
            except TimeoutError:
                pass
            except OSError:
                break
        stream.close()
        seen['drips'].append((status_of(got), round(time.monotonic() - began)))


def deaf(end, seen):
    """A browser that watches a floor and reads nothing."""
    browser = Browser(token_of(2, 13), narrow=True, port=PORT)
    browser.send(2, message(HELLO, 2, 1, 13))
    browser.send(2, message(FLOOR_QUERY, 2, 2, 13, FLOOR_ID_1))
    seen['deaf'] = browser


def come_and_go(gateway, rounds):
    """Browsers come, are answered and go, in each round some at once, and all is freed behind it."""
    before = gateway.use()
    freed = before[1:]
    for _ in range(rounds):
        browsers = [Browser(token_of(conference, 10), port=PORT) for conference in range(1, TOGETHER + 1)]
        for conference, browser in enumerate(browsers, 1):
            browser.send(2, message(HELLO, conference, 1, 10))
            browser.primitive()
            browser.close()
        freed = gateway.freed(before, LAST)
        if freed != before[1:]:
            break
    check('loads: those that came and went are freed', freed, before[1:])


def loads(server_path, program, folder):
    """All of it at once."""
    server = Server(server_path, configuration(), limits={resource.RLIMIT_NOFILE: 8_192})
    gateway = Gateway(program, folder, configuration(), '--connections', str(PLACES),
                      address='127.0.0.1:%d' % PORT, descriptors=8_192, variables=PLAIN).ready()
    come_and_go(gateway, FIRST_ROUNDS)
    before = gateway.use()
    come_and_go(gateway, ROUNDS)
    left = gateway.use()[0] - before[0]
    check('loads: those that came and went leave nothing', left < LEFT * ROUNDS * TOGETHER, True)
    before = gateway.use()
    crowd = Crowd()
    began = time.monotonic()
    askers = []
    for conference in range(1, CONFERENCES + 1):
        members = [crowd.add(conference, 10 + place % USERS, place) for place in range(USERS * WINDOWS)]
        askers.append(members[0])
    took = time.monotonic() - began
    count = len(crowd.members)
    reading = threading.Thread(target=crowd.read)
    reading.start()
    seen = {'folder': folder, 'files': 0, 'meetings': 0, 'hellos': 0, 'loads': 0, 'slowest': 0, 'drips': []}
    time.sleep(1)
    first = gateway.use()
    end = time.monotonic() + SECONDS
    beside = [threading.Thread(target=work, args=(end, seen)) for work in (reload, drip, deaf)]
    for thread in beside:
        thread.start()
    told = crowd.told
    turns = raising(crowd, askers, end)
    for thread in beside:
        thread.join()
    while (crowd.asked or len(crowd.granted) < CONFERENCES * turns) and time.monotonic() < end + LAST:
        time.sleep(0.1)
    time.sleep(2)
    last = gateway.use()
    told = crowd.told - told
    times = sorted(crowd.times)
    check('loads: nobody is closed', crowd.closed, [])
    check('loads: each hand is answered', (len(crowd.granted), len(crowd.asked)), (CONFERENCES * turns, 0))
    check('loads: each is told of each hand', told >= count * turns, True)
    check('loads: each page', (seen['files'], seen['meetings'], seen['hellos']),
          (seen['loads'] * seen['wanted'], seen['loads'], seen['loads']))
    check('loads: each head that drips is given up in its time',
          [one for one in seen['drips'] if one[0] != 408 or not HEAD <= one[1] <= HEAD + 2], [])
    check('loads: those that stay take no more for what they are told', last[0] - first[0] < GROWTH * count, True)
    crowd.is_over = True
    reading.join()
    print('%d browsers came and went, and left %d kB' % (ROUNDS * TOGETHER, left))
    print('%d browsers in %.1f s: %.0f kB and %.1f threads for each; behind %d s %d kB more' % (
        count, took, (first[0] - before[0]) / count, (first[1] - before[1]) / count, SECONDS, last[0] - first[0]))
    print('%d hands raised and lowered, %d messages told, %.0f each second; an answer %.1f ms (median), %.0f ms (of 100 '
          '99), %.0f ms at most' % (CONFERENCES * turns, told, told / SECONDS, 1e3 * times[len(times) // 2],
                                    1e3 * times[len(times) * 99 // 100], 1e3 * times[-1]))
    print('%d pages loaded, %.2f s at most; %d heads that dripped, each a place for %d s, so %d in an hour' % (
        seen['loads'], seen['slowest'], len(seen['drips']), HEAD, 3_600 // HEAD))
    for browser in crowd.members:
        browser.close()
    seen['deaf'].close()
    check('loads: all freed', gateway.freed(before, 30), before[1:])
    check('loads: it ends', gateway.end()[0], 0)
    server.process.kill()
