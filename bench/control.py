#!/usr/bin/env python3
"""Clients of the control socket: ./control.py FLOORHUB [CASE ..]

Runs each case (or those that are named) against a floorhub of its own. Clients that mean no good are answered by the
name that docs/operate/names.md has for it, and lose or hold up nothing: meanwhile another client's lines are answered,
each within DEADLINE, and at the end of a case threads and descriptors are what they were. Clients that watch are
killed at any moment, and whoever goes on behind the last place that ended has lost and doubled no line: reckoning.py
says what the journal's events show. Status 1 where anything is otherwise. (together.py has many clients that do what
they may.)
"""
import collections
import multiprocessing
import os
import random
import re
import resource
import shutil
import signal
import socket
import stat
import struct
import subprocess
import sys
import tempfile
import threading
import time

import reckoning
from messages import (BENEFICIARY_ID, CHAIR_ACTION, FLOOR_RELEASE, FLOOR_REQUEST, FLOOR_REQUEST_ID, HELLO, floors,
                      message, number, verdict)
from server import Control, Server, connect, greet, hear, header_by_id, hello

DEADLINE = 20
FIRST_PORT, DOOR = 24400, 24440
MAX_LINE, MAX_CLIENTS = 65_536, 64
USERS, FLOORS, LIMIT = range(10, 16), range(1, 5), 8


class Failed(Exception):
    """What was otherwise."""


def conference(identifier, port=None):
    """A conference's table: user 10 may ask for others, floor 1 has a chair, floor 2 room for two."""
    rows = ['[[conference]]\nid = %d\nlimit = %d\n' % (identifier, LIMIT)]
    for user in USERS:
        rows.append('[[conference.user]]\nid = %d\nproxy = %s\nname = "N%d"\n' % (user, str(user == 10).lower(), user))
        if port is not None:
            rows.append('port = %d\n' % (port + user - USERS[0]))
    for floor in FLOORS:
        rows.append('[[conference.floor]]\nid = %d\nroom = %d\n%s' % (
            floor, 1 + (floor == 2), 'chair = 10\n' if floor in (1, 4) else ''))
    return ''.join(rows)


def wanted(got, *answers):
    if got not in answers:
        raise Failed('%s is answered, not %s' % (got, ' or '.join(map(str, answers))))


def first_line(control, line):
    return control.ask(line)[0]


class Case:
    """A floorhub with conference 1, and a client whose lines are answered all the while."""

    def __init__(self, floorhub, folder, text=None, **how):
        self.path = os.path.join(folder, 'control')
        self.text = conference(1, FIRST_PORT) if text is None else text
        words = ('--control', self.path, '--door-by-id', str(DOOR))
        self.server = Server(floorhub, self.text, words=words, **how)
        self.before = self.settled()
        self.slowest, self.fault, self.goes_on, self.is_stopped = 0, None, True, False
        self.other = threading.Thread(target=self.ask_on, daemon=True)
        self.other.start()

    def ask_on(self):
        """Asks how conference 1 stands, again and again."""
        try:
            control = Control(self.path, DEADLINE)
            while self.goes_on:
                began = time.monotonic()
                lines = control.ask('floors 1')
                self.slowest = max(self.slowest, time.monotonic() - began)
                if not lines[-1].startswith('end ') and lines != ['error Ended']:
                    raise Failed('floors 1 is answered by %s' % lines)
                time.sleep(0.005)
            control.close()
        except (OSError, Failed) as fault:
            if self.goes_on:
                self.fault = fault

    def client(self):
        return Control(self.path, DEADLINE)

    def raw(self):
        """A client of bytes."""
        client = socket.socket(socket.AF_UNIX)
        client.settimeout(DEADLINE)
        client.connect(self.path)
        return client

    def said(self, data, ends=True):
        """What a client is sent until its stream ends, which sends these bytes, and then perhaps no more."""
        client = self.raw()
        try:
            client.sendall(data)
            if ends:
                client.shutdown(socket.SHUT_WR)
        except OSError:
            pass  # It was closed before it had sent all.
        heard = b''
        try:
            while piece := client.recv(1 << 16):
                heard += piece
        except ConnectionError:
            pass
        client.close()
        return heard

    def settled(self):
        """Threads and descriptors, once they stay."""
        before = None
        for _ in range(100):
            held = self.server.held()
            held = held['Threads'], held['descriptors']
            if held == before:
                return held
            before = held
            time.sleep(0.1)
        return before

    def end(self):
        """Ends the case: what was held is given back, and the server stops."""
        self.goes_on = False
        self.other.join(DEADLINE)
        if self.fault:
            raise Failed('the other client: %s' % self.fault)
        if self.is_stopped:
            return
        end = time.monotonic() + DEADLINE
        while self.settled() != self.before:
            if time.monotonic() > end:
                raise Failed('threads and descriptors are %s, and were %s' % (self.settled(), self.before))
        report, status = self.server.stop()
        if not re.match('ok stopped', report) or status or os.path.exists(self.path):
            raise Failed('the report is "%s", status %d, the socket %s' % (
                report, status, 'stays' if os.path.exists(self.path) else 'is gone'))

    def abandon(self):
        self.goes_on = False
        self.server.process.kill()
        self.server.process.wait()


# What is sent and what is answered, in turn, by one client of conference 1, where nobody is connected.
LINES = r'''
@a status 1 = @a conference 1 members 0 ongoing 0 events 0 open
list = conference 1 members 0 ongoing 0 events 0 open|end 1
@x-_.9 list = @x-_.9 conference 1 members 0 ongoing 0 events 0 open|@x-_.9 end 1
@aaaaaaaaaaaaaaaaaaaaaaaaaaaaaaaa list = @aaaaaaaaaaaaaaaaaaaaaaaaaaaaaaaa conference 1 members 0 ongoing 0 events 0 open|@aaaaaaaaaaaaaaaaaaaaaaaaaaaaaaaa end 1
@aaaaaaaaaaaaaaaaaaaaaaaaaaaaaaaaa list = error UnknownCommand
@ list = error UnknownCommand
@a! list = error UnknownCommand
@a = @a error UnknownCommand
@a nothing = @a error UnknownCommand
nothing = error UnknownCommand
list 1 = error UnknownCommand
@1 users 1 = @1 user 10 proxy port 24400 name 4e3130|@1 user 11 port 24401 name 4e3131|@1 user 12 port 24402 name 4e3132|@1 user 13 port 24403 name 4e3133|@1 user 14 port 24404 name 4e3134|@1 user 15 port 24405 name 4e3135|@1 end 6 1
members 1 = end 0 1
floors 1 = floor 1 room 1 chair 10|floor 2 room 2 chair -|floor 3 room 1 chair -|floor 4 room 1 chair 10|end 4 1
users 9 = error NoConference
members 9 = error NoConference
floors 9 = error NoConference
watch 9 = error NoConference
watch x = error BadNumber
watch 1 from 0 = error BadPlace
watch 1 from 2 = error BadPlace
watch 1 from 1 = ok watching 1 1
watch 1 = error Watching
user 1 20 proxy name A b = ! 1 1 user 20 proxy name 412062|! 1 1 .|ok user 1 20 at 1
@u user 1 20 = @u error DoubleUser
floor 1 9 room 3 chair 20 = ! 1 2 floor 9 room 3 chair 20|! 1 2 .|ok floor 1 9 at 2
chair 1 9 = ! 1 3 chair 9 -|! 1 3 .|ok chair 1 9 at 3
chair 1 9 = ! 1 4 chair 9 -|! 1 4 .|ok chair 1 9 at 4
chair 1 77 = error NoFloor
unwatch 1 = ok unwatched 1
unwatch 1 = ok unwatched 1
journal 1 from 3 = 3 chair 9 -|4 chair 9 -|end 4
journal 1 from 5 = end 4
journal 1 from 6 = error BadPlace
journal 1 from 0 = error BadPlace
journal 1 = 1 user 20 1 412062 -|2 floor 9 3 20|3 chair 9 -|4 chair 9 -|end 4
watch 1 from 3 = ok watching 1 5|! 1 3 chair 9 -|! 1 3 .|! 1 4 chair 9 -|! 1 4 .
revoke 1 1 = error NoRequest
leave 1 1 = error NoMember
leave 9 1 = error NoConference
forget 1 = error Running
forget 9 = error NoConference
word 1 title 4142 = ok word 1 title
word 1 10.token 00ff = ok word 1 10.token
words 1 = word 10.token 00ff|word title 4142|end 2
word 1 title - = ok word 1 title
words 1 = word 10.token 00ff|end 1
word 9 title 41 = error NoConference
words 9 = error NoConference
close 1 = ! 1 5 closed|! 1 5 .|ok closed 1 at 5
close 1 = error Ended
revoke 1 1 = error Ended
status 1 = conference 1 members 0 ongoing 0 events 5 ended
forget 1 = ok forgotten 1
forget 1 = error Forgotten
list = end 0
status 1 = error Forgotten
users 1 = error Forgotten
members 1 = error Forgotten
floors 1 = error Forgotten
journal 1 = error Forgotten
watch 1 = error Forgotten
unwatch 1 = error Forgotten
close 1 = error Ended
user 1 5 = error Ended
leave 1 1 = error Ended
'''
# Configurations behind `open .`, and what is answered.
OPENED = (
    ('conference = []\n', 'ok opened 0'),
    (conference(7) + conference(8), 'ok opened 2'),
    (conference(7), 'error Used'),
    ('[[conference]]\n', 'error MissingKey line 1'),
    ('\n\n[[conference]]\nid = 9\n[[conference.user]]\nport = 4\n', 'error MissingKey line 5'),
    ('[[conference]]\nid = "x"\n', 'error WrongType line 2'),
    ('[[conference]]\nid = 9\n[[conference.floor]]\nid = 1\nroom = 0\n', 'error OutOfRange line 5'),
    ('[[conference]]\nid = 9\n[[conference.user]]\nid = 1\n\n[[conference.user]]\nid = 1\n', 'error DoubleUser line 7'),
    ('[[conference]]\nid = 9\n[[conference]]\nid = 9\n', 'error DoubleConference line 4'),
    ('[[conference]]\nid = 9\n[[conference.floor]]\nid = 1\nchair = 3\n', 'error UnknownChair line 5'),
    ('[[conference]]\nid = 9\nx\n', 'error Syntax line 3'),
    ('[[conference]]\nid = 9\n[[conference.user]]\nid = 1\nport = %d\n' % DOOR, 'error CannotListen'),
)


def lines(case):
    """Each line has its answer: tags, places, refusals."""
    control = case.client()
    case.goes_on = False
    case.other.join(DEADLINE)
    rows = [row.split(' = ') for row in LINES.split('\n') if row]
    rows += [('@o open .\n%s.' % text, '@o ' + answer) for text, answer in OPENED]
    wrong = []
    for line, answers in rows:
        # Behind it a line that is known, so that its answer is what comes before that one's.
        control.socket.sendall(line.encode() + b'\n')
        if ' from ' in line:
            time.sleep(0.5)  # What is made for it is made beside all else.
        control.socket.sendall(b'@behind nothing\n')
        got = list(iter(control.line, '@behind error UnknownCommand'))
        if got != answers.split('|'):
            wrong.append('"%s" is answered by "%s", and not by "%s"' % (line, '|'.join(got), answers))
    if wrong:
        raise Failed('; '.join(wrong))
    control.socket.sendall(b'@o open .\nconference = []\n# \xff\n.\n@p list\n')
    wanted(control.line(), 'error NotText', '@o error NotText')
    for end in ('conference 7', 'conference 8', 'end 2'):
        wanted(control.line()[:3 + len(end)], '@p ' + end)
    control.close()
    # The ports of conference 1 are free.
    case.before = case.settled()
    return '%d lines, of which %d open configurations, have their answers' % (len(rows), len(OPENED))


def long_lines(case):
    """Lines of 65,536 bytes and of one more, without end, and configurations of more than 1 MiB."""
    most = b'@l word 1 k '
    most += b'a' * (MAX_LINE - len(most))
    wanted(case.said(most + b'\nlist\n').split(b'\n')[-2], b'end 1')
    wanted(case.said(most + b'a\nlist\n'), b'error TooLong\n')
    wanted(case.said(b'a' * (MAX_LINE + 1), ends=False), b'error TooLong\n')
    wanted(case.said(b'list\n' * 3 + b'a' * 10_000_000).split(b'\n')[-2], b'error TooLong')
    text = b'conference = []\n' + b'#' * 60_000 + b'\n'
    row = b'# ' + b'x' * 1021 + b'\n'
    wanted(case.said(b'open .\n' + text + row * 900 + b'.\n'), b'ok opened 0\n')
    wanted(case.said(b'open .\n' + row * 1025 + b'.\nlist\n'), b'error TooLong\n')
    return 'a line of %d bytes is read, and one more is TooLong, as a configuration of more than 1 MiB is' % MAX_LINE


def not_text(case):
    """Bytes that aren't UTF-8, a tag that is none, and random bytes."""
    wanted(case.said(b'\xff\n@a status \xfe\n@a status 2\n'), b'error NotText\nerror NotText\n@a error NoConference\n')
    chance, known = random.Random(8855), re.compile(rb'(@[\w.-]{1,32} )?error \w+$')
    for _ in range(300):
        data = chance.randbytes(chance.randint(1, 4000)).replace(b'stop', b'stoq') + b'\n'
        answers = case.said(data).split(b'\n')
        if answers.pop() or len(answers) > data.count(b'\n') or not all(map(known.match, answers)):
            raise Failed('%s is answered by %s' % (data.hex(), answers))
    return '300 clients with random bytes: each line is an error, or has no answer'


def ends_sending(case):
    """Clients that end their sending: within a line, behind lines with long answers, in `open .`."""
    wanted(case.said(b'@a status 2\n@b stat'), b'@a error NoConference\n')
    wanted(case.said(b''), b'')
    heard = case.said(b'floors 1\n' * 2000)
    if heard.count(b'\nend ') != 2000 or not heard.endswith(b'end 4 1\n'):
        raise Failed('2,000 lines have %d answers' % heard.count(b'\nend '))
    for k in range(100):
        case.said((b'open .\n' + conference(50).encode())[:1 + 3 * k])
    control = case.client()
    wanted(control.ask('list')[-1], 'end 1')
    control.close()
    return '2,000 answers came behind the end; 100 that ended inside `open .` opened nothing'


def sixty_four(case):
    """64 clients, and the 65th."""
    clients = [case.client() for _ in range(MAX_CLIENTS - 1)]
    for client in clients:
        wanted(client.ask('list')[-1], 'end 1')
    for _ in range(100):
        wanted(case.said(b'', ends=False), b'error Full\n')
    clients.pop().close()
    time.sleep(0.2)
    again = case.client()
    wanted(again.ask('list')[-1], 'end 1')
    for client in clients + [again]:
        client.close()
    return '100 that came to 64 are told Full; where one went another comes'


def flooded(case, count, ahead=50):
    """A member that asks for floor 2 and gives it back, so many times, some of them ahead of the answers. It alone
    asks, so it knows the numbers of its requests."""
    client = connect(DOOR)
    client.settimeout(DEADLINE)
    client.sendall(header_by_id('1.11') + message(HELLO, 1, 1, 11) + message(FLOOR_REQUEST, 1, 1, 11, floors(2)))
    hear(client, 48)
    request = struct.unpack('>H', told(client)[14:16])[0]
    while count:
        some = min(ahead, count)
        asked = [message(FLOOR_RELEASE, 1, 1, 11, number(FLOOR_REQUEST_ID, request + k))
                 + message(FLOOR_REQUEST, 1, 1, 11, floors(2)) for k in range(some)]
        client.sendall(b''.join(asked))
        for _ in range(2 * some):
            told(client)
        request += some
        count -= some
    client.close()


def told(client):
    """The next message."""
    head = hear(client, 12)
    if len(head) < 12:
        raise Failed('a member was shut down')
    return head + hear(client, 4 * struct.unpack('>H', head[2:4])[0])


def moved_up(case, count, of=1):
    """A member that asks for floor 2 for everybody, and so many times gives back what holds it and asks again: so each
    time all that wait in that conference move up."""
    client = connect(DOOR)
    client.settimeout(DEADLINE)
    client.sendall(header_by_id('%d.10' % of) + message(HELLO, of, 1, 10))
    hear(client, 48)
    waiting = LIMIT * len(USERS)
    asked = [message(FLOOR_REQUEST, of, 1, 10, floors(2) + number(BENEFICIARY_ID, user)) for user in USERS]
    answers = waiting
    for k in range(waiting):
        client.sendall(asked[k % len(USERS)])
    for k in range(count):
        client.sendall(message(FLOOR_RELEASE, of, 1, 10, number(FLOOR_REQUEST_ID, 1 + k)) + asked[k % len(USERS)])
        answers += 2
        while answers > 8:
            # A notice has transaction 0.
            answers -= told(client)[8:10] == b'\0\1'
    while answers:
        answers -= told(client)[8:10] == b'\0\1'
    client.close()


def never_reads(case):
    """Clients that never read: of long answers without end, and of live lines."""
    moved_up(case, 20)
    asking, watching = [case.raw() for _ in range(8)], [case.raw() for _ in range(8)]
    for client in asking:
        client.setblocking(False)
        try:
            while True:
                client.send(b'journal 1\n' * 1000)
        except BlockingIOError:
            pass
    for client in watching:
        client.sendall(b'watch 1\n')
    before = case.server.held()['VmRSS']
    moved_up(case, 800)
    grown = case.server.held()['VmRSS'] - before
    control = case.client()
    reckoned, _ = reckoning.live_lines(reckoning.tables(case.text)[1], control.ask('journal 1')[:-1])
    control.close()
    lens = []
    for client in watching:
        heard, is_closed = until_closed(client)
        first, *lines_ = heard.decode().split('\n')
        at = next((k for k, line in enumerate(reckoned) if lines_ and line == lines_[0]), None)
        if not is_closed or at is None or lines_[:-1] != reckoned[at:at + len(lines_) - 1]:
            raise Failed('a watcher heard "%s" and %d lines, and is %s' % (
                first, len(lines_), 'closed' if is_closed else 'not closed'))
        lens.append(len(lines_))
    for client in asking:
        client.close()
    return ('8 that asked for journals are held up alone; 8 that watched were closed behind %d to %d lines of %d; '
            '%d kB more meanwhile' % (min(lens), max(lens), len(reckoned), grown))


def read_as_it_comes(case):
    """A client that reads an answer of long lines as fast as it comes: it goes on until its end."""
    member = connect(DOOR)
    member.settimeout(DEADLINE)
    # An attribute that nobody knows and that nobody has to know (RFC 8855, section 5.2), 238 times in each Hello.
    unknown = (bytes([60 << 1, 252]) + b'x' * 250) * 238
    member.sendall(header_by_id('1.11'))
    for k in range(4):
        member.sendall(message(HELLO, 1, 1 + k, 11, unknown))
        told(member)
    client, rounds, heard = case.raw(), 20, bytearray(1 << 20)
    began = time.monotonic()
    for k in range(rounds):
        client.sendall(b'@%d journal 1\n' % k)
        tail = b''
        while b'\n@%d end ' % k not in tail or not tail.endswith(b'\n'):
            count = client.recv_into(heard)
            if not count:
                raise Failed('the stream ended within journal %d' % k)
            tail = (tail + bytes(heard[:count]))[-100:]
    took = time.monotonic() - began
    client.close()
    member.close()
    return '%d journals with four lines of 120 kB were read to their ends in %.1f s' % (
        rounds, took)


def until_closed(client):
    """What is still to be read, and whether the stream ends behind it."""
    client.settimeout(3)
    heard = b''
    try:
        while piece := client.recv(1 << 20):
            heard += piece
        return heard, True
    except TimeoutError:
        return heard, False
    except OSError:
        return heard, True
    finally:
        client.close()


def two_close(case):
    """Two clients close the same conferences at the same time."""
    count, answers = 200, collections.Counter()
    control = case.client()
    control.socket.sendall(b'open .\n%s.\n' % ''.join(map(conference, range(100, 100 + count))).encode())
    wanted(control.line(), 'ok opened %d' % count)
    pair = [case.client(), case.client()]
    for k in range(100, 100 + count):
        tags = [client.send('close %d' % k) for client in pair]
        got = sorted(client.answer(tag)[0] for client, tag in zip(pair, tags))
        wanted(got, ['error Ended', 'ok closed %d at 1' % k])
        tags = [client.send('forget %d' % k) for client in pair]
        answers.update(client.answer(tag)[0].split()[0] for client, tag in zip(pair, tags))
    wanted(answers, collections.Counter(ok=count, error=count))
    for client in pair + [control]:
        client.close()
    return '%d conferences: one is told closed, the other Ended; one forgotten, the other Ended' % count


def forgotten(case):
    """A conference is forgotten while four who watch it never read, and by two who aren't told of all of it yet."""
    control, text = case.client(), conference(50)
    control.socket.sendall(b'open .\n%s.\n' % text.encode())
    wanted(control.line(), 'ok opened 1')
    moved_up(case, 900, 50)
    while 'members 0' not in first_line(control, 'status 50'):
        time.sleep(0.05)
    silent, askers, heard = [case.raw() for _ in range(4)], [case.raw() for _ in range(2)], {}
    for client in silent:
        client.sendall(b'watch 50 from 1\n')
    last = int(first_line(control, 'close 50').split()[-1])
    reckoned, _ = reckoning.live_lines(reckoning.tables(text)[50], control.ask('journal 50')[:-1])
    shown = ''.join('%s\n' % line for line in reckoned)
    began = time.monotonic()

    def listen(client):
        client.sendall(b'watch 50 from 1\nforget 50\n')
        said = b''
        while not re.search(rb'\n(ok|error) .*\n$', said[-40:]):
            piece = client.recv(1 << 16)
            if not piece:
                break
            said += piece
        heard[client] = said.decode()

    threads = [threading.Thread(target=listen, args=(client,)) for client in askers]
    for thread in threads:
        thread.start()
    for thread in threads:
        thread.join(10 * DEADLINE)
    took, answers = time.monotonic() - began, []
    for client in askers:
        first, _, rest = heard.get(client, '').partition('\n')
        answers.append(rest[len(shown):])
        if first != 'ok watching 50 %d' % (last + 1) or not rest.startswith(shown):
            raise Failed('one that asked heard "%s" and %d of %d bytes' % (first, len(rest), len(shown)))
        client.close()
    wanted(sorted(answers), ['error Forgotten\n', 'ok forgotten 50\n'])
    for client in silent:
        said, is_closed = until_closed(client)
        first, _, rest = said.decode().partition('\n')
        if not is_closed or not shown.startswith(rest):
            raise Failed('a silent one heard "%s" and %d bytes, and is %s' % (
                first, len(rest), 'closed' if is_closed else 'not closed'))
    wanted(control.ask('status 50'), ['error Forgotten'])
    control.close()
    return 'two were told of %d events in %d kB, and answered behind that, within %.1f s; the silent ones were closed' % (
        last, len(shown) // 1000, took)


def like_lines(case):
    """Names and reasons that look like lines."""
    reason = b'x\n! 1 9 closed\n@1 ok\n'
    control = case.client()
    wanted(control.ask('watch 1 from 1'), ['ok watching 1 1'])
    wanted(control.ask('user 1 30 name ! 1 9 "closed" @1 ok'), ['ok user 1 30 at 1'])
    chair, client = (connect(DOOR) for _ in range(2))
    for one, user in ((chair, 10), (client, 11)):
        one.sendall(header_by_id('1.%d' % user) + hello(1, 1, user))
        hear(one, 48)
    client.sendall(message(FLOOR_REQUEST, 1, 1, 11, floors(1)))
    told(client)
    chair.sendall(message(CHAIR_ACTION, 1, 1, 10, verdict(1, 1, 4, reason)))
    told(chair)
    lines_ = control.ask('journal 1')
    place = next(line.split()[0] for line in lines_ if reason.hex() in line)
    control.listen(0.5)
    row = '! 1 %s request 1 user 11 Denied:0 floors 1 reason %s' % (place, reason.hex())
    if row not in control.live or control.live[0] != '! 1 1 user 30 name %s' % b'! 1 9 "closed" @1 ok'.hex():
        raise Failed('the live lines are %s' % control.live)
    for one in (control, chair, client):
        one.close()
    return 'they are hexadecimal, in a reason with line feeds too'


def ended_by(case, control):
    """`stop` at the socket, and how floorhub ends."""
    case.goes_on, case.is_stopped = False, True
    answer = first_line(control, 'stop')
    if not answer.startswith('ok stopped seats 1 events ') or case.server.process.wait(DEADLINE):
        raise Failed('stop is answered by "%s", status %d' % (answer, case.server.process.poll()))
    return answer


def no_console(case):
    """The reader of standard output is gone, and then standard input ends."""
    member = connect(FIRST_PORT)
    greet(member, 1, 10)
    case.server.process.stdout.close()
    for _ in range(10):
        try:
            case.server.process.stdin.write(b'status 1\n')
            case.server.process.stdin.flush()
        except OSError:
            break  # The console has ended.
        time.sleep(0.02)
    try:
        case.server.process.stdin.close()
    except OSError:
        pass
    time.sleep(0.2)
    greet(member, 1, 10, 2)
    member.close()
    return 'the meeting goes on; `stop` at the socket is answered by "%s"' % ended_by(case, case.client())


def no_input(case):
    """Standard input ends."""
    member = connect(FIRST_PORT)
    greet(member, 1, 10)
    case.server.process.stdin.close()
    time.sleep(0.2)
    greet(member, 1, 10, 2)
    member.close()
    answer = ended_by(case, case.client())
    return 'the meeting goes on; `stop` at the socket is answered by "%s"' % answer


def full_disk(case):
    """Standard output is a file that may grow no more, and a device that is full."""
    results = []
    for k, (name, most) in enumerate((('output', 4096), ('/dev/full', None))):
        folder, port = os.path.dirname(case.path), FIRST_PORT + 10
        path, name = os.path.join(folder, 'full%d' % k), os.path.join(folder, name)
        config = os.path.join(folder, 'full.toml')
        with open(config, 'w') as file:
            file.write(conference(2, port))

        def limit():
            # Python has SIGXFSZ ignored, so that a write beyond the limit fails.
            if most:
                resource.setrlimit(resource.RLIMIT_FSIZE, (most, most))
        with open(name, 'w') as output:
            process = subprocess.Popen([os.path.abspath(sys.argv[1]), '--control', path, config], stdin=subprocess.PIPE,
                                       stdout=output, preexec_fn=limit, restore_signals=False)
        control = attached(path)
        member = connect(port)
        greet(member, 2, 10)
        try:
            process.stdin.write(b'status 2\n' * 2000)
            process.stdin.flush()
        except OSError:
            pass
        time.sleep(0.5)
        greet(member, 2, 10, 2)
        member.close()
        answer = first_line(control, 'stop')
        if not answer.startswith('ok stopped seats 1 events ') or process.wait(DEADLINE):
            raise Failed('stop is answered by "%s", status %s' % (answer, process.poll()))
        results.append('%s: %d bytes were written' % (name, os.path.getsize(name)))
    return 'the meeting goes on (%s)' % ', '.join(results)


def attached(path):
    """A client of a floorhub that is about to listen."""
    end = time.monotonic() + DEADLINE
    while True:
        try:
            return Control(path, DEADLINE)
        except OSError:
            if time.monotonic() > end:
                raise Failed('nobody listens at the socket')
            time.sleep(0.05)


def the_file(case):
    """The socket's file: its mode, what stands there before, and its end."""
    mode = stat.S_IMODE(os.stat(case.path).st_mode)
    if mode != 0o600 or not stat.S_ISSOCK(os.stat(case.path).st_mode):
        raise Failed('its mode is %o' % mode)
    folder = tempfile.mkdtemp(prefix='bridge-')
    config = os.path.join(folder, 'none.toml')
    with open(config, 'w') as file:
        file.write('conference = []\n')

    def started(path):
        """How a floorhub ends that has the end of its standard input, and a console that says stop."""
        done = subprocess.run([os.path.abspath(sys.argv[1]), '--control', path, config], input=b'stop\n',
                              stdout=subprocess.PIPE, stderr=subprocess.PIPE, timeout=DEADLINE)
        return done.returncode, done.stdout.decode(), done.stderr.decode().split('\n')[-2:]
    refused, fine = (1, '', ['floorhub: CannotListen', '']), (0, 'ready\nok stopped seats 0 events 0\n', [''])
    wanted(started(case.path), refused)
    wanted(started(config), refused)
    wanted(started(os.path.join(folder, 'nowhere/control')), refused)
    stale = socket.socket(socket.AF_UNIX)
    stale.bind(os.path.join(folder, 'stale'))
    stale.close()
    wanted(started(os.path.join(folder, 'stale')), fine)
    wanted(os.path.exists(os.path.join(folder, 'stale')), False)
    wanted(started(os.path.join(folder, 'new')), fine)
    shutil.rmtree(folder)
    case.client().close()
    return 'mode 600; a stale one is replaced; one that is served, another file and no folder are CannotListen'


def drained(case):
    """`drain`: nothing is opened any more, and with the last conference floorhub ends."""
    control, other = case.client(), case.client()
    wanted(control.ask('drain'), ['ok draining'])
    wanted(control.ask('drain'), ['ok draining'])
    other.socket.sendall(b'open .\n%s.\n' % conference(5).encode())
    wanted(other.line(), 'error Draining')
    wanted(case.server.ask('open %s' % case.server.path), 'error Draining')
    time.sleep(0.5)
    wanted(first_line(control, 'status 1'), 'conference 1 members 0 ongoing 0 events 0 open')
    case.goes_on, case.is_stopped = False, True
    wanted(first_line(other, 'close 1'), 'ok closed 1 at 1')
    wanted(case.server.line(DEADLINE), 'ok stopped seats 0 events 1')
    wanted(case.server.process.wait(DEADLINE), 0)
    for client in (control, other):
        client.close()
    return 'open is Draining; behind the last close floorhub ends with status 0'


def figures(case):
    """`metrics`, read by Prometheus' own parser, where that is there."""
    flooded(case, 100)
    control = case.client()
    # That its connection has ended is heard behind what it was answered.
    limit = time.monotonic() + DEADLINE
    while ' members 0 ' not in first_line(control, 'status 1') and time.monotonic() < limit:
        time.sleep(0.01)
    lines_ = control.ask('metrics')
    wanted(lines_[-1], 'end %d' % (len(lines_) - 1))
    text = '\n'.join(lines_[:-1]) + '\n'
    found = dict(line.rsplit(' ', 1) for line in lines_[:-1] if not line.startswith('#'))
    events = int(first_line(control, 'status 1').split()[7])
    for name, value in (('floorhub_conferences', 1), ('floorhub_members', 0), ('floorhub_connections', 0),
                        ('floorhub_events_total', events), ('floorhub_messages_total', 202),
                        ('floorhub_told_total', 202), ('floorhub_cut_total', 0),
                        ('floorhub_refused_total{name="Full"}', 0), ('floorhub_accept_failures_total', 0),
                        ('floorhub_event_seconds_count', events)):
        if float(found.get(name, 'nan')) != value:
            raise Failed('%s is %s, and not %d' % (name, found.get(name), value))
    control.close()
    if not shutil.which('promtool'):
        return '%d lines; promtool is not there' % len(lines_)
    done = subprocess.run(['promtool', 'check', 'metrics'], input=text.encode(), stdout=subprocess.PIPE,
                          stderr=subprocess.STDOUT)
    if done.returncode:
        raise Failed('promtool says %s' % done.stdout.decode())
    return '%d lines, in which promtool finds no fault' % len(lines_)


def follow(path, file, place):
    """Watches conference 1 from a place on, and writes each line down at once, until it is killed."""
    control = Control(path, DEADLINE)
    wanted(control.ask('watch 1 from %d' % place)[0][:14], 'ok watching 1 ')
    out = os.open(file, os.O_WRONLY | os.O_APPEND | os.O_CREAT)
    for line in control.live:
        os.write(out, line.encode() + b'\n')
    while True:
        os.write(out, control.line().encode() + b'\n')


def flood_on(case, over):
    while not over.is_set():
        flooded(case, 20, 1)


def next_place(file):
    """Cuts off what stands behind the last place that ended, and says which one to go on from."""
    with open(file, 'a+b') as heard:
        heard.seek(0)
        text = heard.read()
        end = text.rfind(b' .\n')
        heard.truncate(end + 3 if end >= 0 else 0)
    return int(text[:end].rsplit(b' ', 1)[1]) + 1 if end >= 0 else 1


def resumed(case):
    """Clients that watch are killed 200 times, and go on behind the last place that ended."""
    file = os.path.join(os.path.dirname(case.path), 'heard')
    chance, over, kills = random.Random(8855), threading.Event(), 200
    load = threading.Thread(target=flood_on, args=(case, over), daemon=True)
    load.start()
    for _ in range(kills):
        client = multiprocessing.Process(target=follow, args=(case.path, file, next_place(file)), daemon=True)
        client.start()
        time.sleep(0.2 * chance.random())
        os.kill(client.pid, signal.SIGKILL)
        client.join()
    over.set()
    load.join(DEADLINE)
    control = case.client()
    journal = control.ask('journal 1')[:-1]
    control.ask('watch 1 from 1')
    control.settle()
    control.close()
    reckoned, _ = reckoning.live_lines(reckoning.tables(case.text)[1], journal)
    client = multiprocessing.Process(target=follow, args=(case.path, file, next_place(file)), daemon=True)
    client.start()
    end, heard = time.monotonic() + DEADLINE, []
    while len(heard) < len(reckoned) and time.monotonic() < end:
        time.sleep(0.1)
        with open(file) as text:
            heard = text.read().splitlines()
    os.kill(client.pid, signal.SIGKILL)
    client.join()
    compare('who watched all the while', control.live, reckoned)
    compare('who was killed', heard, reckoned)
    return '%d kills; %d lines of %d events, none lost and none doubled' % (kills, len(heard), len(journal))


def compare(who, heard, reckoned):
    """Lines that have to be alike."""
    for k, (line, wanted_) in enumerate(zip(heard, reckoned)):
        if line != wanted_:
            raise Failed('line %d of %s is "%s", and not "%s"' % (k, who, line, wanted_))
    if len(heard) != len(reckoned):
        raise Failed('%s has %d lines, not %d' % (who, len(heard), len(reckoned)))


CASES = (lines, long_lines, not_text, ends_sending, sixty_four, never_reads, read_as_it_comes, two_close, forgotten,
         like_lines, no_console, no_input, full_disk, the_file, drained, figures, resumed)


def main():
    if len(sys.argv) < 2:
        raise SystemExit(__doc__)
    failed = []
    for body in CASES:
        name = body.__name__
        if sys.argv[2:] and name not in sys.argv[2:]:
            continue
        print('%s: %s' % (name, body.__doc__.split('\n')[0]), flush=True)
        with tempfile.TemporaryDirectory(prefix='bridge-') as folder:
            case = Case(sys.argv[1], folder)
            began = time.monotonic()
            try:
                said = body(case)
                case.end()
                print('    %s (%.1f s; the slowest answer to the other client %.0f ms)' % (
                    said, time.monotonic() - began, 1000 * case.slowest), flush=True)
            except (Failed, OSError, SystemExit, subprocess.TimeoutExpired) as fault:
                print('    FAILED: %s' % fault, flush=True)
                failed.append(name)
                case.abandon()
    if failed:
        print('failed: %s' % ', '.join(failed))
        raise SystemExit(1)
    print('all as it has to be')


if __name__ == '__main__':
    main()
