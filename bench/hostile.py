#!/usr/bin/env python3
"""Peers that mean no good: ./hostile.py SERVER [CASE ..]

Runs each case (or those that are named) against a floord or a floorhub of its own, whose conference 1 the case
may do to what it likes; those at a door, and `too_long`, want a floorhub, and are left out before a floord.
Meanwhile a Hello of conference 2 is answered all the while, each within DEADLINE. Every answer is compared with
what messages.py has for it; at the end of a case the events in the conference's journal that are no
acknowledgements, the report of `stop` and its status are what the case did, and threads and descriptors are what
they were. (Acknowledgements depend on how often a writer finds nothing waiting.) Prints what was answered, the
times of conference 2's Hellos, and the server's memory, threads and descriptors: before, at most, after. Status 1
where a case failed.
"""
import multiprocessing
import os
import random
import resource
import select
import signal
import socket
import struct
import sys
import tempfile
import threading
import time

import messages
from messages import (FLOOR_QUERY, FLOOR_RELEASE, FLOOR_REQUEST, FLOOR_REQUEST_ID, GRANTED, HELLO,
                      attribute, floor_request_status, floors, hello_ack, message, number)
from server import Server, connect, hear, is_hub, proxy_header

DEADLINE = 120
FIRST_PORT = 7700
USERS = (10, 11, 12, 13)
OTHER_PORT = FIRST_PORT + len(USERS)
DOOR, HEALTH = OTHER_PORT + 1, OTHER_PORT + 2
DOORS = ('--door', str(DOOR), '--health', str(HEALTH))
CONFERENCE = messages.Conference(1, messages.WORKED.users, range(1, 10))
FLOOD = 100_000
MAX_EVENTS = 2_000_000
# So many messages that aren't acknowledged wait for a member; with one more it is cut. A client that
# keeps fewer than AHEAD unanswered never is.
MAX_WAITING = 1024
AHEAD = 900
# A connection that was cut, or has left, and takes nothing is gone after so many seconds.
GONE = 10
# So many seconds a slow peer takes nothing, and then reads on.
PAUSE = 40
# What a Hello that is waited for and its acknowledgement take of memory, for each of both.
EVENT = 78


class Failed(Exception):
    """What a case found wrong."""


def configuration():
    """Conference 1 as messages.py has it, with a port for each user, and conference 2."""
    rows = ['[[conference]]\nid = 1\nlimit = 16\n']
    for user, (name, _, proxy) in CONFERENCE.users.items():
        rows.append('[[conference.user]]\nid = %d\nname = "%s"\nproxy = %s\nport = %d\n' % (
            user, name, str(proxy).lower(), port_of(user)))
    rows += ['[[conference.floor]]\nid = %d\n' % floor for floor in CONFERENCE.floors]
    rows.append('[[conference]]\nid = 2\n[[conference.user]]\nid = 10\nport = %d\n' % OTHER_PORT)
    return ''.join(rows)


def port_of(user):
    return FIRST_PORT + user - USERS[0]


def hello(transaction=1, user=10):
    return message(HELLO, 1, transaction, user)


def ack(transaction=1, user=10):
    return hello_ack(1, transaction, user)


def greet_all_the_while(pipe):
    """Sends Hellos of conference 2, one each 2 ms; the times so far are sent when asked for."""
    client = connect(OTHER_PORT)
    client.settimeout(DEADLINE)
    wrong = None
    count = 0
    times = []
    while True:
        if pipe.poll():
            if pipe.recv() == 'end':
                client.close()
                pipe.send(count)
                return
            pipe.send((wrong, times))
            times = []
        if wrong:
            time.sleep(0.01)
            continue
        transaction = count % 65536
        began = time.perf_counter()
        try:
            client.sendall(message(HELLO, 2, transaction, 10))
            if hear(client, 48) != hello_ack(2, transaction, 10):
                wrong = 'a Hello of conference 2 was answered wrongly'
        except OSError as fault:
            wrong = 'a Hello of conference 2 was not answered: %s' % fault
        count += 1
        times.append(1e6 * (time.perf_counter() - began))
        time.sleep(0.002)


class Case:
    """A server, the connection of conference 2, and what the report will have to say."""

    def __init__(self, floord, limits=None, variables=None, words=()):
        # What a server with a log tells.
        self.log = tempfile.TemporaryFile('w+')
        self.server = Server(floord, configuration(), limits=limits, variables=variables, words=words,
                             errors=self.log if '--log' in words else None)
        # Without threads for connections, whose members leave when their connections end.
        self.by_loops = self.server.by_loops
        self.seats = 0
        self.events = 0
        self.pipe, theirs = multiprocessing.Pipe()
        self.other = multiprocessing.Process(target=greet_all_the_while, args=(theirs,),
                                             daemon=True)
        self.other.start()
        self.idle = self.some_times(100)
        self.remains = (0,)
        self.is_stopped = False
        self.before = self.most = self.server.held()
        self.goes_on = True
        self.sampler = threading.Thread(target=self.sample, daemon=True)
        self.sampler.start()

    def sample(self):
        while self.goes_on:
            try:
                held = self.server.held()
            except OSError:
                return
            self.most = {name: max(value, self.most[name]) for name, value in held.items()}
            time.sleep(0.05)

    def times(self):
        """The times of the Hellos of conference 2 since the last call, sorted."""
        self.pipe.send('times')
        if not self.pipe.poll(2 * DEADLINE):
            raise Failed('a Hello of conference 2 is not answered')
        wrong, times = self.pipe.recv()
        if wrong:
            raise Failed(wrong)
        return sorted(times)

    def some_times(self, count):
        """The times of at least so many Hellos of conference 2, sorted."""
        times = []
        while len(times) < count:
            time.sleep(0.02)
            times += self.times()
        return sorted(times)

    def member(self, user=10, narrow=False):
        """A connection that becomes a member: a seat, and events for its join and its leave."""
        client = self.connect(user, narrow)
        self.seats += 1
        self.events += 2
        return client

    def connect(self, user=10, narrow=False):
        client = connect(port_of(user), narrow)
        client.settimeout(DEADLINE)
        return client

    def exchange(self, client, asked, wanted, events=1):
        """Sends bytes that are so many messages, and hears their answers."""
        client.sendall(asked)
        self.events += events
        self.hear(client, wanted)

    def hear(self, client, wanted):
        heard = hear(client, len(wanted))
        if heard != wanted:
            at = next((k for k, (a, b) in enumerate(zip(heard, wanted)) if a != b), len(heard))
            raise Failed('heard %s at byte %d, in place of %s' % (
                heard[at // 4 * 4:][:40].hex(), at, wanted[at // 4 * 4:][:40].hex()))

    def status(self):
        return self.server.ask('status 1', DEADLINE)

    def came(self):
        """How many events of conference 1 are no acknowledgements."""
        return sum(' took ' not in line for line in self.server.journal(1, DEADLINE)[:-1])

    def wait_for(self, members, ongoing=0, phase='open', conference=1):
        """Waits until a conference has so many members and ongoing requests; its events."""
        wanted = 'conference %d members %d ongoing %d events ' % (conference, members, ongoing)
        end = time.monotonic() + DEADLINE
        while True:
            seen = self.server.ask('status %d' % conference, DEADLINE)
            if seen.startswith(wanted) and seen.endswith(phase):
                return int(seen.split()[7])
            if time.monotonic() > end:
                raise Failed('the status is "%s", not "%s.. %s"' % (seen, wanted, phase))
            time.sleep(0.01)

    def wait_for_members(self, members, ongoing=0, phase='open'):
        """Waits until so many are members, and all events have come but their leaves."""
        end = time.monotonic() + DEADLINE
        while True:
            self.wait_for(members, ongoing, phase)
            came = self.came()
            if came == self.events - members:
                return
            if came > self.events - members or time.monotonic() > end:
                raise Failed('%d events came, not %d' % (came, self.events - members))
            time.sleep(0.01)

    def wait_until_back(self):
        """Waits until threads and descriptors are what they were before the case."""
        end = time.monotonic() + DEADLINE
        while True:
            held = self.server.held()
            if all(held[name] == self.before[name] for name in ('Threads', 'descriptors')):
                return held
            if time.monotonic() > end:
                raise Failed('threads and descriptors stay: %s, before %s' % (held, self.before))
            time.sleep(0.02)

    def stop(self, leaving=0):
        """Stops the server, while so many members of conference 1 have yet to leave, and compares
        its report; the seconds that it took."""
        self.pipe.send('end')
        hellos = self.pipe.recv()
        self.other.join()
        self.seats += 1
        others = self.wait_for(0, conference=2)
        if not 2 + hellos <= others <= 2 + 2 * hellos:
            raise Failed('%d Hellos of conference 2 are %d events' % (hellos, others))
        events = int(self.status().split()[7]) + leaving + others
        began = time.monotonic()
        report = self.server.stop()
        # By loops whoever leaves is written to for a while yet, and what is written is acknowledged.
        wanted = [('ok stopped seats %d events %d' % (self.seats, events + more), 0)
                  for more in range(1 + (leaving if self.by_loops else 0))]
        if report not in wanted:
            raise Failed('the report is %s, not %s' % (report, wanted[0]))
        return time.monotonic() - began

    def end(self):
        """What stands behind each case: nobody is a member, and all is as before."""
        if self.is_stopped:
            return
        times = self.some_times(20)
        self.wait_for(*self.remains)
        # What the printing of a journal takes isn't the peers' doing.
        self.goes_on = False
        self.sampler.join()
        self.wait_for_members(*self.remains)
        after = self.wait_until_back()
        took = self.stop()

        def at(share, of):
            return of[min(len(of) - 1, int(share * len(of)))]
        say('conference 2: %d Hellos, p50 %.0f us, p99 %.0f us, longest %.0f us '
            '(before: p50 %.0f, p99 %.0f)' % (
                len(times), at(0.5, times), at(0.99, times), times[-1],
                at(0.5, self.idle), at(0.99, self.idle)))
        say('; '.join('%s %d, %d, %d' % (name, self.before[name], self.most[name], after[name])
                      for name in ('VmRSS', 'Threads', 'descriptors')))
        say('%d seats, %d events beside acknowledgements; stopped in %.2f s' % (
            self.seats, self.events, took))

    def abandon(self):
        self.goes_on = False
        self.other.kill()
        self.server.process.kill()
        self.server.process.wait()


def say(text):
    print('    %s' % text, flush=True)


def silent(client, seconds=0.3):
    """Whether nothing comes for a while, and the stream doesn't end."""
    return not select.select([client], [], [], seconds)[0]


def ended(client):
    """How a stream ends that bears nothing more."""
    try:
        rest = client.recv(65536)
        if rest:
            raise Failed('%s came in place of the end' % rest[:40].hex())
        return 'its end'
    except ConnectionResetError:
        return 'a reset'
    except socket.timeout:
        raise Failed('the stream does not end')


def reset(client):
    """Ends a connection by a reset, without a farewell."""
    client.setsockopt(socket.SOL_SOCKET, socket.SO_LINGER, struct.pack('ii', 1, 0))
    client.close()


# The cases.

def half_a_header(case):
    """Headers that are begun, waited on, and finished or not."""
    clients = [(k, case.member()) for k in range(1, 12)]
    for k, client in clients:
        client.sendall(hello()[:k])
    time.sleep(1)
    for k, client in clients:
        if not silent(client, 0):
            raise Failed('%d bytes of a header are answered' % k)
    for k, client in clients[::2]:
        case.exchange(client, hello()[k:], ack())
    for _, client in clients:
        client.close()
    return '1 to 11 bytes of a header and a second: nothing; the rest: HelloAck'


def byte_by_byte(case):
    """One byte in each send."""
    client = case.member()
    chance = random.Random(8855)
    kinds = messages.hostile(chance, 1, 10)
    count = sent = 0
    while count < 100:
        _, text = next(kinds)
        wanted = CONFERENCE.answers(text, 10)
        if wanted is None or len(text) > 400:
            continue
        for at in range(len(text)):
            client.sendall(text[at:at + 1])
        count += 1
        sent += len(text)
        case.events += 1
        case.hear(client, wanted)
    client.close()
    return '%d messages in %d sends of a byte: each as if it had come at once' % (count, sent)


def announced(case):
    """65,535 words announced by each of 60 connections, and none sent."""
    clients = [case.member(USERS[k % 4]) for k in range(60)]
    for k, client in enumerate(clients):
        client.sendall(struct.pack('>BBHIHH', 0x20, HELLO, 65535, 1, 1, USERS[k % 4]))
    time.sleep(1)
    grown = case.server.held()['VmRSS'] - case.before['VmRSS']
    if grown > 60 * 128:
        raise Failed('60 messages that are only announced take %d kB' % grown)
    if not all(silent(client, 0) for client in clients):
        raise Failed('a message that is only announced is answered')
    case.exchange(clients[0], bytes.fromhex('28040000') * 65535, ack())
    for client in clients:
        client.close()
    return ('60 times 65,535 words announced: nothing, %d kB in all; '
            'the words sent: HelloAck' % grown)


def flood_with(port, seed, count):
    """Floods a port of user 10 with messages of every kind; gives (what was wrong, how many)."""
    client = connect(port)
    client.settimeout(DEADLINE)
    chance = random.Random(seed)
    kinds = messages.hostile(chance, 1, 10)
    sent = 0
    while sent < count:
        piece = []
        while len(piece) < 200:
            kind, text = next(kinds)
            wanted = CONFERENCE.answers(text, 10)
            if wanted is not None:
                piece.append((kind, text, wanted))
        whole = b''.join(text for _, text, _ in piece)
        cut = chance.randint(0, len(whole))
        client.sendall(whole[:cut])
        client.sendall(whole[cut:])
        sent += len(piece)
        try:
            heard = hear(client, sum(len(wanted) for _, _, wanted in piece))
        except OSError as fault:
            return 'seed %d: after %d messages: %s' % (seed, sent, fault), sent
        at = 0
        for kind, text, wanted in piece:
            if heard[at:at + len(wanted)] != wanted:
                return 'seed %d, %s: %s is answered by %s, not by %s' % (
                    seed, kind, text[:64].hex(), heard[at:at + max(16, len(wanted))].hex(),
                    wanted.hex()), sent
            at += len(wanted)
    calm = silent(client)
    client.close()
    return None if calm else 'seed %d: more is answered than was asked' % seed, sent


def malformed(case):
    """A flood of messages of every kind that isn't wanted, from three connections."""
    with multiprocessing.Pool(3) as pool:
        results = pool.starmap(flood_with, [(port_of(10), seed, FLOOD) for seed in (1, 2, 3)])
    for wrong, sent in results:
        if wrong:
            raise Failed(wrong)
        case.seats += 1
        case.events += 2 + sent
    return '%d messages of 25 kinds: each answered as the order of checks has it' % (
        sum(sent for _, sent in results))


def largest(case):
    """Messages of 65,535 words."""
    client = case.member()
    words = 65535
    rows = (
        ('unknown attributes', HELLO, bytes.fromhex('28040000') * words),
        ('types that have to be known, each anew', HELLO,
         b''.join(bytes([(k % 109 + 19) << 1 | 1, 4, 0, 0]) for k in range(words))),
        ('one floor', FLOOR_QUERY, floors(1) * words),
        ('floors that are none', FLOOR_QUERY, b''.join(floors(k + 1) for k in range(words))),
        ('floors that are none, asked for', FLOOR_REQUEST,
         b''.join(floors(k + 1) for k in range(words))),
        ('a fault in the last', HELLO, floors(1) * (words - 1) + bytes.fromhex('04050001')),
        ('deepest groups', HELLO, messages.deep(63) * (words // 63) + floors(1) * (words % 63)),
    )
    told = []
    for name, primitive, payload in rows:
        text = message(primitive, 1, 7, 10, payload)
        began = time.perf_counter()
        case.exchange(client, text, CONFERENCE.answers(text, 10))
        told.append('%s %.1f ms' % (name, 1000 * (time.perf_counter() - began)))
    client.close()
    return 'answered after ' + '; '.join(told)


LONG = message(HELLO, 1, 1, 10, attribute(100, bytes(250)) * 1040)


def long_messages(case):
    """A peer that sends messages of 262,092 bytes, and reads every answer."""
    client = case.member()
    before = case.server.held()['VmRSS']
    began = time.monotonic()
    for _ in range(400):
        case.exchange(client, LONG, ack())
    took = time.monotonic() - began
    full = case.server.held()['VmRSS']
    client.close()
    if case.by_loops:
        case.wait_for_members(0)
        case.log.seek(0)
        told = [line.split(' ', 1)[1] for line in case.log if ' received ' in line]
        if told != ['conference 1 received 100 MB\n']:
            raise Failed('the log tells %s of %d bytes' % (told, 400 * len(LONG)))
    return '400 take %.0f kB and %.1f ms each, and stay in the journal' % (
        (full - before) / 400, 1000 * took / 400)


# How many bytes a message may have where that is said.
LONGEST = 64


def too_long(case):
    """Messages that are longer than may be: what stands in front of one is served, and its connection ends."""
    longest = message(HELLO, 1, 1, 10, attribute(100, bytes(LONGEST - 12 - 2)))
    counts = (0, 1, 64, 340, 700)
    for count in counts:
        # One begun and sent no further, by a word more and by all there are, whole, and before others.
        for words in (struct.pack('>BBH', 0x20, HELLO, LONGEST // 4 - 2), struct.pack('>BBH', 0x20, HELLO, 65535),
                      message(HELLO, 1, 1, 10, bytes(LONGEST - 8)) + 10 * hello()):
            client = case.member()
            case.exchange(client, hello() * count + longest + words, ack() * (count + 1), count + 1)
            ends_in_order(client)
    for cut in range(1, 4):
        client = case.member()
        case.exchange(client, hello() + words[:cut], ack())
        if not silent(client):
            raise Failed('%d bytes of a header are answered' % cut)
        client.sendall(words[cut:])
        ends_in_order(client)
    case.wait_for_members(0)
    case.log.seek(0)
    left = [line.split(' left ')[1] for line in case.log if ' left ' in line]
    if left != (3 * len(counts) + 3) * ['TooLong\n']:
        raise Failed('the log says of those who left: %s' % left)
    return 'up to 700 Hellos and one of %d bytes in front of it: each is answered, and then it ends' % LONGEST


def ends_in_order(client):
    how = ended(client)
    client.close()
    if how != 'its end':
        raise Failed('%s came in place of the end' % how)


def beyond_64(case):
    """More connections than a conference takes, of two peers at two ports."""
    clients = [case.member(USERS[k % 2]) for k in range(64)]
    for k, client in enumerate(clients):
        case.exchange(client, hello(k, USERS[k % 2]), ack(k, USERS[k % 2]))
    ends = {}
    began = time.perf_counter()
    for k in range(100):
        beyond = case.connect(USERS[k % 4])
        if k % 2:
            try:
                beyond.sendall(hello(1, USERS[k % 4]))
            except OSError:
                pass
        how = ended(beyond)
        ends[how] = ends.get(how, 0) + 1
        beyond.close()
    took = (time.perf_counter() - began) / 100
    case.wait_for_members(64)
    for k, client in enumerate(clients):
        case.exchange(client, hello(k, USERS[k % 2]), ack(k, USERS[k % 2]))
    clients.pop().close()
    case.wait_for_members(63)
    client = case.member(13)
    case.exchange(client, hello(1, 13), ack(1, 13))
    clients.append(client)
    for client in clients:
        client.close()
    return 'of 100 beyond 64 each had no byte but %s, after %.1f ms; the 64 go on' % (
        ' or '.join('%s (%d)' % pair for pair in sorted(ends.items())), 1000 * took)


def two_peers(case):
    """Two peers at one port: the same user twice."""
    one, two, three = case.member(10), case.member(10), case.member(11)
    for client, user in ((one, 10), (two, 10), (three, 11)):
        case.exchange(client, hello(1, user), ack(1, user))
    case.exchange(one, message(FLOOR_REQUEST, 1, 2, 10, floors(1)),
                  floor_request_status(1, 2, 10, 1, GRANTED, 0, 1))
    case.hear(two, floor_request_status(1, 0, 10, 1, GRANTED, 0, 1))
    case.exchange(three, message(FLOOR_REQUEST, 1, 2, 11, floors(1)),
                  floor_request_status(1, 2, 11, 2, messages.ACCEPTED, 1, 1))
    reset(one)
    case.wait_for_members(2, 2)
    if not silent(two) or not silent(three):
        raise Failed('one of two connections of a user has left, and somebody is told')
    two.close()
    case.hear(three, floor_request_status(1, 0, 11, 2, GRANTED, 0, 1))
    three.close()
    return 'what one asks the other is told; the floor is given up when both have left'


def connect_and_leave(case):
    """10,000 connections that come and leave; 10,000 that don't wait to be served."""
    before = case.server.held()['VmRSS']
    for k in range(10_000):
        client = case.member(USERS[k % 4])
        client.shutdown(socket.SHUT_WR)
        ended(client)
        client.close()
    case.wait_for_members(0)
    time.sleep(0.5)
    each = (case.server.held()['VmRSS'] - before) / 10_000
    for k in range(10_000):
        reset(case.connect(USERS[k % 4]))
    end = time.monotonic() + DEADLINE
    seen = ''
    while True:
        words = case.status().split()
        if words == seen and words[3] == '0':
            break
        if time.monotonic() > end:
            raise Failed('after 10,000 resets the status is "%s"' % ' '.join(words))
        seen = words
        time.sleep(0.5)
    # Those that came while 64 were members were shut down, without an event.
    joined = (int(words[7]) - case.events) / 2
    if not 0 < joined <= 10_000 or joined % 1:
        raise Failed('10,000 resets are %s events' % (2 * joined))
    case.seats += int(joined)
    case.events += 2 * int(joined)
    return '10,000 came and left, %.2f kB stay of each; of 10,000 resets at once %d had joined' % (
        each, joined)


def resets(case):
    """A reset at each point of an exchange."""
    query = message(FLOOR_QUERY, 1, 1, 10, floors(1, 2, 3))
    answer = CONFERENCE.answers(query, 10)
    points = 0
    for at in range(len(query) + 1):
        client = case.member()
        client.sendall(query[:at])
        if at == len(query):
            case.events += 1
            case.hear(client, answer)
        else:
            silent(client, 0.01)
        reset(client)
        points += 1
    for at in range(0, len(answer) + 1, 4):
        client = case.member()
        case.exchange(client, query + hello(), answer[:at], 2)
        # What is not read makes the end a reset too, as a farewell that is sent.
        case.wait_for_members(1)
        (reset if at % 8 else socket.socket.close)(client)
        case.wait_for_members(0)
        points += 1
    for pause in (0, 0.0005, 0.002, 0.01, 0.05):
        for _ in range(20):
            client = case.member()
            case.exchange(client, hello(), ack())
            try:
                client.sendall(hello() * 500)
                time.sleep(pause)
            except OSError:
                pass
            reset(client)
            points += 1
            case.wait_for(0)
    # Of a flood that is reset any beginning has come.
    came = case.came() - case.events
    if not 0 <= came <= 100 * 500:
        raise Failed('of 50,000 messages %d came' % came)
    case.events += came
    return '%d connections reset before, in and behind messages and answers: each has left' % points


def crowd(case, users=USERS):
    """256 requests: each of four users asks 16 times for each of four floors, with a long text.
    Their connections, which leave what they are told unread."""
    text = attribute(messages.INFO, b'x' * 62)
    clients = []
    for user in users:
        client = case.member(user)
        clients.append(client)
        for floor in (1, 2, 3, 4):
            client.sendall(message(FLOOR_REQUEST, 1, 1, user, floors(floor) + text) * 16)
        case.events += 64
        case.wait_for_members(len(clients), 64 * len(clients))
    return clients


def wait_until_gone(case, held, beside=None):
    """Waits until threads and descriptors are these again, though no peer closes, while a member of
    user 11 is answered where there is one beside; the seconds."""
    began = time.monotonic()
    while True:
        now = case.server.held()
        took = time.monotonic() - began
        if all(now[name] <= held[name] for name in ('Threads', 'descriptors')):
            return took
        # A loop's time begins when it has read the end.
        if took > GONE + case.by_loops:
            raise Failed('after %d s there is still %s, before %s' % (took, now, held))
        if beside:
            case.exchange(beside, hello(1, 11), ack(1, 11))
        time.sleep(0.05)


def told_until_cut(case, member):
    """How many answers a member was told until it was cut, as the journal has it. It sent only
    Hellos, and never read. Counts its messages."""
    told = taken = 0
    is_cut = False
    for line in case.server.journal(1, DEADLINE)[:-1]:
        _, kind, number_, *rest = line.split() + ['']
        if number_ != str(member) or kind not in ('message', 'took'):
            continue
        if kind == 'took':
            taken += int(rest[0])
        elif is_cut:
            raise Failed('a message of a member that was cut is an event')
        elif told - taken == MAX_WAITING:
            is_cut = True
        else:
            told += 1
    if not is_cut:
        raise Failed('a member has left, and was told %d and took %d' % (told, taken))
    case.events += told + 1
    return told


def unread(case):
    """A peer that asks and never reads: it is cut, and gone soon; its user connects again."""
    neighbour = case.member(11)
    case.exchange(neighbour, hello(1, 11), ack(1, 11))
    held = case.server.held()
    client = case.member(narrow=True)
    case.wait_for(2)
    while not case.status().startswith('conference 1 members 1 '):
        try:
            client.sendall(hello() * 100)
        except ConnectionError:
            # By loops it leaves once it is shut down.
            if not case.by_loops:
                raise
        case.exchange(neighbour, hello(1, 11), ack(1, 11))
    grown = case.server.held()['VmRSS'] - held['VmRSS']
    again = case.member()
    case.exchange(again, hello(), ack())
    again.close()
    took = wait_until_gone(case, held, neighbour)
    told = told_until_cut(case, 2)
    reset(client)
    neighbour.close()
    return ('cut after %d answers, of which %d waited; %d kB in all; gone %.1f s after it had left, '
            'while another is answered' % (told, MAX_WAITING, grown, took))


def unread_again(case):
    """Five peers, one after another, that are cut with long answers: memory is used again.

    With one arena, so that malloc keeps what was given back in one place, and gives none of it back to the system.
    """
    fulls = []
    for _ in range(5):
        clients = crowd(case)
        clients[3].sendall(message(FLOOR_QUERY, 1, 1, 13, floors(1, 2, 3, 4)) * 1500)
        case.wait_for(3, 192)
        # By loops that takes 10 seconds each, in which conference 2's journal grows.
        others = int(case.server.ask('status 2').split()[7])
        fulls.append(case.server.held()['VmRSS'] - others * EVENT // 1024)
        for client in clients:
            reset(client)
        case.wait_for(0)
        # What came of the queries before their sender was cut.
        came = case.came() - case.events
        if not MAX_WAITING // 4 < came < 1500:
            raise Failed('%d of 1,500 queries came' % came)
        case.events += came
        case.wait_until_back()
    # What the first took may have gone back to the system before it is looked at; the second's stays.
    first = max(fulls[:2])
    if first - case.before['VmRSS'] > 16 * MAX_WAITING or max(fulls[2:]) > 1.2 * first:
        raise Failed('five outboxes one after another take %s kB' % fulls)
    return '1,024 statuses of 64 requests each, five times: %s MB in all' % ', '.join(
        '%.0f' % (full / 1024) for full in fulls)


def far_ahead(case):
    """A peer that reads, and keeps 900 messages unanswered, beside one that is cut."""
    client = case.member()
    case.exchange(client, hello(), ack())
    deaf = case.member(11, narrow=True)
    case.wait_for(2)
    client.sendall(hello() * (AHEAD - 100))
    case.events += AHEAD - 100
    is_cut = False
    for _ in range(2000):
        case.exchange(client, hello() * 100, ack() * 100, 100)
        if not is_cut:
            deaf.sendall(hello(1, 11) * 20)
            is_cut = case.status().startswith('conference 1 members 1 ')
    case.hear(client, ack() * (AHEAD - 100))
    told = told_until_cut(case, 2)
    case.exchange(client, hello(), ack())
    reset(deaf)
    client.close()
    return '200,000 Hellos and more are answered; the other is cut after %d answers' % told


def hear_messages(client, count):
    """The next so many messages."""
    heard = b''
    for _ in range(count):
        head = hear(client, 12)
        heard += head + hear(client, 4 * struct.unpack('>H', head[2:4])[0])
    return heard


QUERY = message(FLOOR_QUERY, 1, 1, 10, floors(1, 2, 3, 4))


def slow(case):
    """A peer that reads a byte now and then, and then nothing for a while, but isn't 1,024 behind:
    what it reads is right, and others don't wait."""
    members = crowd(case)
    neighbour = case.member()
    neighbour.sendall(QUERY)
    wanted = 40 * hear_messages(neighbour, 4)
    client = case.member(narrow=True)
    client.sendall(QUERY * 40)
    case.events += 41
    heard = b''
    for _ in range(1000):
        heard += client.recv(1)
        time.sleep(0.001)
    case.exchange(neighbour, hello(), ack())
    time.sleep(PAUSE)
    case.exchange(neighbour, hello(), ack())
    if heard != wanted[:1000]:
        raise Failed('a byte that was read alone is wrong')
    case.hear(client, wanted[1000:])
    for peer in members + [neighbour, client]:
        reset(peer)
    return '1,000 bytes one by one, none for %d s, then the rest of %d: all right' % (PAUSE, len(wanted))


def unread_queries(case, count, turns=8):
    """So many connections of user 10, each with more unread answers than its sockets hold, but not
    so many that it is cut."""
    clients = []
    for _ in range(count):
        client = case.member(narrow=True)
        client.sendall(QUERY * turns)
        case.events += turns
        clients.append(client)
    return clients


def watchers(case):
    """59 peers that watch four floors with 256 requests, and never read: all are cut by what
    another asks for."""
    members = crowd(case)
    neighbour, driver = members[1], case.member(13)
    hear_messages(neighbour, 64)
    case.exchange(driver, hello(1, 13), ack(1, 13))
    held = case.server.held()
    peers = unread_queries(case, 59, 1)
    case.wait_for_members(64, 256)
    before = case.server.held()['VmRSS']
    ask = message(FLOOR_REQUEST, 1, 1, 13, floors(4))
    began = time.monotonic()
    for request in range(256, 856):
        for asked in (message(FLOOR_RELEASE, 1, 1, 13, number(FLOOR_REQUEST_ID, request)), ask):
            driver.sendall(asked)
            if hear_messages(driver, 1)[1] != messages.FLOOR_REQUEST_STATUS:
                raise Failed('request %d is not answered by its status' % request)
    case.events += 1200
    each = (time.monotonic() - began) / 1200
    grown = case.server.held()['VmRSS'] - before
    took = wait_until_gone(case, held, neighbour)
    case.wait_for_members(5, 256)
    again = case.member()
    case.exchange(again, hello(), ack())
    for peer in members + peers + [driver, again]:
        reset(peer)
    return ('1,200 events of another, of which all are told, take %.1f ms each, and %d kB in all; '
            'all 59 are gone %.1f s after the last' % (1000 * each, grown, took))


def half_closed(case):
    """Peers that end their sending and leave their answers unread: 124 at once, for a while."""
    members = crowd(case)
    held = case.server.held()
    clients = []
    # By loops they are members until they are gone, and 64 may be.
    for count in (60,) if case.by_loops else (60, 60, 4):
        some = unread_queries(case, count)
        for client in some:
            client.shutdown(socket.SHUT_WR)
        clients += some
        case.wait_for_members(64 if case.by_loops else 4, 256)
    full = case.server.held()
    threads = 0 if case.by_loops else 2 * 124
    if full['Threads'] - held['Threads'] != threads:
        raise Failed('they keep %d threads' % (full['Threads'] - held['Threads']))
    for user in USERS:
        ended(case.connect(user))
    took = wait_until_gone(case, held)
    client = case.member()
    case.exchange(client, hello(), ack())
    client.close()
    for client in clients + members:
        reset(client)
    return ('%d keep %d threads, %d descriptors and %.1f MB each; '
            'beside them and 4 members a newcomer is shut down; they are gone after %.1f s' % (
                len(clients), full['Threads'] - held['Threads'],
                full['descriptors'] - held['descriptors'],
                (full['VmRSS'] - held['VmRSS']) / len(clients) / 1024, took))


def closed_while_blocked(case):
    """`close` while 50 writers are blocked on peers that never read."""
    members = crowd(case)
    clients = unread_queries(case, 50)
    for client in clients[:20]:
        client.shutdown(socket.SHUT_WR)
    case.wait_for_members(34, 256)
    began = time.monotonic()
    answer = case.server.ask('close 1', DEADLINE)
    took = time.monotonic() - began
    if answer != 'ok closed 1':
        raise Failed('close is answered by %s' % answer)
    # The 34 that were members never leave, and the Close is an event.
    case.events += 1
    case.remains = (34, 0, 'ended')
    case.wait_for_members(*case.remains)
    # So do the threads and descriptors of its four ports.
    case.before['Threads'] -= 0 if case.by_loops else 4
    case.before['descriptors'] -= 4 if case.by_loops else 2 * 4
    case.wait_until_back()
    for client in members + clients:
        reset(client)
    return 'closed in %.0f ms' % (1000 * took)


def stopped_while_blocked(case):
    """`stop` while 50 writers are blocked on peers that never read."""
    members = crowd(case)
    clients = unread_queries(case, 50)
    for client in clients[:20]:
        client.shutdown(socket.SHUT_WR)
    case.wait_for_members(34, 256)
    # Until the sockets hold what they can, and nothing is acknowledged any more.
    time.sleep(1)
    took = case.stop(leaving=34)
    if took > 10 + case.by_loops:
        raise Failed('stop took %.1f s' % took)
    case.is_stopped = True
    for client in members + clients:
        reset(client)
    return 'stopped in %.0f ms, with its report' % (1000 * took)


def reset_at_the_end(case):
    """Peers that take nothing are reset once nothing is read of them: cut, half closed, or at a stop."""
    neighbour = case.member(11)
    case.exchange(neighbour, hello(1, 11), ack(1, 11))
    held = case.server.held()
    client = case.member(narrow=True)
    case.wait_for(2)
    try:
        for _ in range(100):
            client.sendall(hello() * 100)
            time.sleep(0.01)
    except ConnectionError:
        pass
    reset(client)
    took = [wait_until_gone(case, held, neighbour)]
    told_until_cut(case, 2)
    neighbour.close()
    case.wait_for(0)
    members = crowd(case)
    held = case.server.held()
    clients = unread_queries(case, 20)
    for client in clients:
        client.shutdown(socket.SHUT_WR)
    time.sleep(1)
    for client in clients:
        reset(client)
    took.append(wait_until_gone(case, held))
    clients = unread_queries(case, 20)
    case.wait_for_members(24, 256)
    time.sleep(1)
    ending = threading.Timer(1, lambda: [reset(client) for client in clients + members])
    ending.start()
    took.append(max(0, case.stop(leaving=24) - 1))
    case.is_stopped = True
    ending.join()
    told = 'gone %.1f s, %.1f s and %.1f s after that' % tuple(took)
    if max(took) > GONE / 2:
        raise Failed(told)
    return told


def fill(case, client):
    """Sends Hellos until one finds the journal full and ends the connection."""
    # So many Hellos are at most twice as many events, with their acknowledgements.
    while int(case.status().split()[7]) <= MAX_EVENTS - 2 * AHEAD:
        case.exchange(client, hello() * AHEAD, ack() * AHEAD, AHEAD)
    while True:
        client.sendall(hello())
        heard = hear(client, 48)
        if not heard:
            break
        if heard != ack():
            raise Failed('a Hello is answered by %s' % heard.hex())
        case.events += 1
    events = int(case.status().split()[7])
    if events != MAX_EVENTS:
        raise Failed('the journal is full with %d events' % events)


def journal_full(case):
    """All 2,000,000 events of a conference, and what comes behind them."""
    client = case.member()
    fill(case, client)
    client.close()
    # Its leave is no event any more.
    case.remains = (1,)
    for user in USERS:
        ended(case.connect(user))
    for line in ('close 1', 'revoke 1 1'):
        answer = case.server.ask(line, DEADLINE)
        if answer != 'error JournalFull':
            raise Failed('%s is answered by %s' % (line, answer))
    return '%d Hellos are answered, then comes the end; newcomers are shut down' % (
        case.events - 2)


def full_while_blocked(case):
    """All 2,000,000 events, while 10 writers are blocked on peers that never read."""
    members = crowd(case)
    held = case.server.held()
    blocked = unread_queries(case, 10)
    filler = case.member()
    case.wait_for_members(15, 256)
    fill(case, filler)
    filler.close()
    # No leave is an event any more.
    case.remains = (15, 256)
    for client in blocked:
        client.sendall(hello())
    took = wait_until_gone(case, held)
    for client in members + blocked:
        reset(client)
    return 'those that send once more are gone after %.1f s, though they never read' % took


def used_in(case, seconds):
    """Which part of a processor the server takes for so many seconds."""
    before = case.server.seen()['processor']
    time.sleep(seconds)
    return (case.server.seen()['processor'] - before) / seconds


def beyond_descriptors(case):
    """More connections than there are descriptors: 40 for the whole server."""
    idle = used_in(case, 2)
    clients = [(case.connect(USERS[k % 4]), USERS[k % 4]) for k in range(50)]
    for client, user in clients:
        client.sendall(hello(1, user))
    time.sleep(1)
    served = [(client, user) for client, user in clients if not silent(client, 0)]
    waiting = [pair for pair in clients if pair not in served]
    # A thread's port takes two, and a third while it waits for a connection; conference 2 has one. A loop's takes one.
    most = 40 - (case.before['descriptors'] if case.by_loops else 4 + 2 * 5)
    if not 40 - 4 - 3 * 5 <= len(served) <= most:
        raise Failed('%d connections are served' % len(served))
    used = used_in(case, 2)
    # An accept that fails is tried again without haste.
    if used > idle + 0.05:
        raise Failed('%.1f%% of a processor, and %.1f%% before anybody waited' % (100 * used, 100 * idle))
    for client, user in served:
        case.hear(client, ack(1, user))
        case.exchange(client, hello(2, user), ack(2, user), 1)
    if not all(silent(client, 0) for client, _ in waiting):
        raise Failed('a connection without a descriptor is answered')
    for client, _ in served:
        client.close()
    for client, user in waiting:
        case.hear(client, ack(1, user))
        client.close()
    case.seats += 50
    case.events += 3 * 50
    return ('%d are served; %d more wait, at %.1f%% of a processor (%.1f%% before), and are served when '
            'those have left' % (len(served), len(waiting), 100 * used, 100 * idle))


def beyond_addresses(case):
    """More connections than there are addresses for stacks: 1 GB for the whole server."""
    served, refused = [], 0
    for k in range(120):
        user = USERS[k % 4]
        client = case.connect(user)
        try:
            client.sendall(hello(1, user))
            heard = hear(client, 48)
        except ConnectionResetError:
            heard = b''
        if heard == ack(1, user):
            served.append((client, user))
        elif heard:
            raise Failed('%s is heard' % heard.hex())
        else:
            refused += 1
            client.close()
    for client, user in served:
        case.exchange(client, hello(2, user), ack(2, user))
    case.wait_for(len(served))
    if not served or not refused:
        raise Failed('%d are served, %d refused' % (len(served), refused))
    # One for whose writer there was no thread had joined, and left.
    others = (case.came() - 3 * len(served)) // 2
    case.seats += len(served) + others
    case.events += 3 * len(served) + 2 * others
    for client, _ in served:
        client.close()
    case.wait_for_members(0)
    client = case.member()
    case.exchange(client, hello(), ack())
    client.close()
    return '%d are served and go on; %d are shut down, of which %d had joined and left' % (
        len(served), refused, others)


def beyond_memory(case):
    """Long messages until memory is refused, under a limit of 600 MB of addresses, while two
    writers are blocked on peers that never read."""
    peers = crowd(case) + unread_queries(case, 2)
    case.wait_for_members(6, 256)
    client = case.member()
    count = 0
    try:
        while True:
            client.sendall(LONG)
            if hear(client, 48) != ack():
                break
            count += 1
    except OSError:
        pass
    client.close()
    end = time.monotonic() + DEADLINE
    while not case.status().endswith('broken'):
        if time.monotonic() > end:
            raise Failed('after %d messages the status is "%s"' % (count, case.status()))
        time.sleep(0.01)
    case.times()
    case.some_times(100)
    for user in USERS:
        try:
            ended(case.connect(user))
        except ConnectionRefusedError:
            # Its ports may be given up by then.
            pass
    for line, wanted in (('close 1', 'error Broken'), ('revoke 1 1', 'error Broken'),
                         ('status 2', 'conference 2 members 1 ongoing 0 events')):
        answer = case.server.ask(line, DEADLINE)
        if not answer.startswith(wanted):
            raise Failed('%s is answered by %s' % (line, answer))
    took = wait_until_gone(case, case.before)
    for peer in peers:
        reset(peer)
    case.pipe.send('end')
    case.pipe.recv()
    case.is_stopped = True
    report = case.server.stop()
    if report != ('error Broken 1', 1):
        raise Failed('the report is %s' % (report,))
    return ('after %d messages conference 1 is broken, and it alone: conference 2 goes on; its '
            'blocked peers are gone after %.1f s; the report says so' % (count, took))


# So many client processes are killed, so many of them at a time. Their marks stand apart from other transactions.
KILLED, AT_ONCE, FIRST_MARK = 300, 4, 100
# What one does until it is killed; the floor that it watches is asked for and given back all the while.
STATES = ('connecting', 'in a header', 'in a message', 'asking', 'told', 'not reading', 'told and not reading',
          'half closed')
WATCHED = 9


def stream_of(state, mark):
    """What a client sends in such a state, each message with its mark as the transaction."""
    def text(primitive, payload=b''):
        return message(primitive, 1, mark, USERS[mark % 3], payload)
    if state == 'in a message':
        return text(HELLO, attribute(100, bytes(250)) * 1040)
    if state in ('told', 'told and not reading'):
        return text(FLOOR_QUERY, floors(WATCHED))
    if state in ('not reading', 'half closed'):
        return text(FLOOR_QUERY, floors(1, 2, 3, 4)) * 60
    if state == 'asking':
        return (text(HELLO) + text(FLOOR_REQUEST, floors(8)) + text(FLOOR_QUERY, floors(1))) * 48
    return text(HELLO)


def be_killed(state, mark, at, pipe):
    """A client that comes to its state, says so, and stays in it until it is killed."""
    if state == 'connecting':
        pipe.send(state)
    try:
        client = connect(port_of(USERS[mark % 3]), narrow=state.endswith('not reading') or state == 'half closed')
        come_to(state, client, stream_of(state, mark), at, pipe)
    except OSError:
        pass  # 64 were members already
    time.sleep(DEADLINE)


def come_to(state, client, stream, at, pipe):
    if state == 'in a header':
        client.sendall(stream[:at % 11 + 1])
    elif state == 'in a message':
        stream = stream[:at % len(stream)]
        for k in range(0, len(stream), 5000):
            client.sendall(stream[k:k + 5000])
    elif state in ('not reading', 'half closed'):
        client.setblocking(False)
        client.send(stream)
        if state == 'half closed':
            client.shutdown(socket.SHUT_WR)
    elif state != 'asking':
        client.sendall(stream)
    pipe.send(state)
    while state == 'told':
        client.recv(65536)
    while state == 'asking':
        client.sendall(stream[:192])
        stream = stream[192:] + stream[:192]
        client.recv(65536)


def kill_one(state, mark, chance):
    """Starts a client, and kills it by SIGKILL once it is in its state, or sooner."""
    ours, theirs = multiprocessing.Pipe(False)
    client = multiprocessing.Process(target=be_killed, args=(state, mark, chance.randrange(1 << 30), theirs), daemon=True)
    client.start()
    theirs.close()
    if chance.random() < 0.7:
        ours.poll(DEADLINE)
    time.sleep(chance.choice((0, 0.001, 0.005, 0.02, 0.1)) * chance.random())
    os.kill(client.pid, signal.SIGKILL)
    client.join()
    ours.close()


def kill_some(seed, some):
    """Kills one client after another."""
    chance = random.Random(seed)
    for mark, state in some:
        kill_one(state, mark, chance)


def ask_until(driver, is_over):
    """Asks for the floor that is watched and gives it back, again and again; how often."""
    turns = 0
    while not is_over.is_set():
        driver.sendall(message(FLOOR_REQUEST, 1, 1, 13, floors(WATCHED)))
        request = struct.unpack('>H', hear_messages(driver, 1)[14:16])[0]
        driver.sendall(message(FLOOR_RELEASE, 1, 1, 13, number(FLOOR_REQUEST_ID, request)))
        hear_messages(driver, 1)
        turns += 1
        time.sleep(0.001)
    return turns


def killed_in_journal(case, states):
    """Sees that the journal has of each member a front of what a client sends in its state, and one leave.
    Counts the members and the events. How many have sent what, and the messages of the others."""
    sent, left, others, counts = {}, [], [], {}
    for line in case.server.journal(1, DEADLINE)[:-1]:
        _, kind, number_, *rest = line.split()
        if kind == 'took':
            continue
        case.events += 1
        if kind == 'join':
            case.seats += 1
            sent[str(case.seats)] = []
        elif kind == 'leave':
            left.append(number_)
        else:
            sent[number_].append(bytes.fromhex(rest[0]))
    if sorted(left) != sorted(sent):
        raise Failed('of %d members %d have left' % (len(sent), len(left)))
    for member, texts in sent.items():
        state = 'nothing'
        if texts:
            mark = struct.unpack('>H', texts[0][8:10])[0]
            if mark not in states:
                others.append(texts)
                continue
            state = states[mark]
            whole = stream_of(state, mark) * (1 + len(texts) if state == 'asking' else 1)
            if not whole.startswith(b''.join(texts)):
                raise Failed('member %s sent %s, as no client does' % (member, texts[-1][:40].hex()))
        counts[state] = counts.get(state, 0) + 1
    return counts, others


class Stands:
    """A server that is stopped by SIGSTOP meanwhile."""

    def __init__(self, case):
        self.pid = case.server.pid

    def __enter__(self):
        os.kill(self.pid, signal.SIGSTOP)
        time.sleep(0.1)

    def __exit__(self, *_):
        os.kill(self.pid, signal.SIGCONT)


def last_words(case):
    """Messages right before a reset: all of them are events, though a write has failed before they were read."""
    word = message(FLOOR_REQUEST, 1, 1, 10, floors(1))
    for count in (0, 340, 341, 700):
        client = case.member()
        case.exchange(client, hello(), ack())
        with Stands(case):
            client.sendall(hello() * count + word)
            case.events += count + 1
            reset(client)
        case.wait_for_members(0)
    # A notice that is unread makes a close a reset.
    watcher, other = case.member(10), case.member(11)
    case.exchange(other, hello(1, 11), ack(1, 11))
    case.exchange(watcher, hello(), ack())
    query = message(FLOOR_QUERY, 1, 2, 10, floors(2))
    case.exchange(watcher, query, CONFERENCE.answers(query, 10))
    with Stands(case):
        other.sendall(message(FLOOR_REQUEST, 1, 2, 11, floors(2)))
        time.sleep(0.1)
        watcher.sendall(word)
        watcher.close()
        case.events += 2
    case.wait_for_members(1, 1)
    other.close()
    case.wait_for_members(0)
    if case.by_loops:
        # A write that failed has taken the system's word that the peer is gone: that is no end in order.
        case.log.seek(0)
        left = sorted(line.split(' left ')[1] for line in case.log if ' left ' in line)
        if left != 6 * ['Reset\n']:
            raise Failed('the log says of those who left: %s' % left)
    return 'up to 700 Hellos and a word, then a reset: each is an event'


def reads_nothing(case):
    """A peer that reads nothing for 45 s, though its system acknowledges: it hears all, and isn't lost."""
    client = case.member(narrow=True)
    client.sendall(hello() * 400)
    case.events += 400
    time.sleep(45)
    case.hear(client, ack() * 400)
    case.exchange(client, hello(), ack())
    client.close()
    return '400 answers, unread for 45 s, are all heard then'


def stopped_and_continued(case):
    """The server is stopped while an answer waits for its peer, and goes on: nobody is lost."""
    members = crowd(case)
    client = case.member(narrow=True)
    client.sendall(QUERY)
    wanted = 40 * hear_messages(client, 4)
    client.sendall(QUERY * 40)
    case.events += 41
    case.wait_for_members(5, 256)
    time.sleep(1)
    for _ in range(3):
        with Stands(case):
            pass
        time.sleep(0.2)
    case.hear(client, wanted)
    case.exchange(client, hello(), ack())
    for peer in members + [client]:
        reset(peer)
    return '%d bytes that waited while it was stopped three times are all heard' % len(wanted)


def killed(case):
    """Client processes that are killed (SIGKILL) at any moment, beside others that are answered."""
    members = crowd(case, USERS[:2])
    driver = case.member(13)
    case.exchange(driver, hello(1, 13), ack(1, 13))
    case.wait_for_members(3, 128)
    held = case.server.held()
    states = {mark: STATES[mark % len(STATES)] for mark in range(FIRST_MARK, FIRST_MARK + KILLED)}
    marks = list(states.items())
    random.Random(8855).shuffle(marks)
    is_over, asked = threading.Event(), []
    asking = threading.Thread(target=lambda: asked.append(ask_until(driver, is_over)), daemon=True)
    asking.start()
    began = time.monotonic()
    killers = [multiprocessing.Process(target=kill_some, args=(seed, marks[seed::AT_ONCE]))
               for seed in range(AT_ONCE)]
    for killer in killers:
        killer.start()
    for killer in killers:
        killer.join(DEADLINE)
        if killer.exitcode != 0:
            raise Failed('a client was not killed')
    took = time.monotonic() - began
    gone = wait_until_gone(case, held)
    is_over.set()
    asking.join(DEADLINE)
    if not asked or not case.status().startswith('conference 1 members 3 '):
        raise Failed('%d asked; the status is "%s"' % (len(asked), case.status()))
    for client in members + [driver]:
        reset(client)
    case.wait_for(0)
    case.seats = case.events = 0
    counts, others = killed_in_journal(case, states)
    if [len(texts) for texts in others] != [64, 64, 1 + 2 * asked[0]]:
        raise Failed('the others sent %s messages' % [len(texts) for texts in others])
    if any(counts.get(state, 0) < KILLED // len(STATES) // 3 for state in ('asking', 'told', 'not reading')):
        raise Failed('so many were killed in each state: %s' % counts)
    return ('%d killed in %.1f s, while %d requests were granted and given back; %.1f s later threads and '
            'descriptors are what they were; members by what they were at: %s' % (
                len(states), took, asked[0], gone,
                ', '.join('%s %d' % pair for pair in sorted(counts.items()))))


# How long a connection at a door has for its header.
HEADER = 5


def door_peers(chance):
    """What peers at a door send that aren't let in: a name of each kind and what the log says of it, its texts,
    and whether they are ended at once."""
    named = proxy_header('1.10')
    rows = [chance.randbytes(chance.randint(1, 2000)) for _ in range(100)]
    return (
        ('nothing', 'NoHeader', [b''] * 500, False),
        ('half a header', 'NoHeader', [named[:1 + k % (len(named) - 1)] for k in range(100)], False),
        ('version 1', 'BadHeader', [b'PROXY TCP4 127.0.0.1 127.0.0.1 1 2\r\n'] * 100, True),
        # The first byte of a header is another.
        ('bytes at random', 'BadHeader', [b'\x20' + row for row in rows], True),
        ('nobody of the conference', 'NoUser', [proxy_header('1.99') + hello()] * 100, True),
    )


def door_member(case, user):
    """Who is let in at the door, and is answered."""
    client = connect(DOOR)
    client.settimeout(DEADLINE)
    case.seats += 1
    case.events += 2
    case.exchange(client, proxy_header('1.%d' % user) + hello(1, user), ack(1, user))
    return client


def at_the_door(case):
    """A door: 500 that say nothing, 100 with half a header, 300 that are refused, and 100 that reset."""
    began, waiting, wanted = time.monotonic(), [], {}
    for kind, refusal, texts, is_at_once in door_peers(random.Random(8855)):
        clients = [connect(DOOR) for _ in texts]
        for client, text in zip(clients, texts):
            client.sendall(text)
        wanted[refusal] = wanted.get(refusal, 0) + len(texts)
        waiting += [(kind, client, is_at_once) for client in clients]
    for k in range(100):
        client = connect(DOOR)
        client.sendall(proxy_header('1.10')[:k % 16])
        reset(client)
    wanted['NoHeader'] += 100
    came = time.monotonic() - began
    members = [door_member(case, user) for user in USERS]
    answered = time.monotonic() - began - came
    for kind, client, is_at_once in sorted(waiting, key=lambda row: not row[2]):
        client.settimeout(2 * HEADER)
        ended(client)
        took = time.monotonic() - began
        if (took > came + 1) if is_at_once else not HEADER - 0.1 < took < came + HEADER + 1:
            raise Failed('%s is ended after %.1f s' % (kind, took))
        client.close()
    for _ in range(1000):
        connect(HEALTH).close()
    for user, client in zip(USERS, members):
        case.exchange(client, hello(2, user), ack(2, user))
        client.close()
    time.sleep(0.5)
    case.log.seek(0)
    heard = {}
    for line in case.log.read().splitlines():
        if ' door %d ' % DOOR in line and ' refused ' in line:
            name = line.rsplit(' ', 1)[1]
            heard[name] = heard.get(name, 0) + 1
    if heard != wanted:
        raise Failed('the log says %s, not %s' % (heard, wanted))
    return ('1,000 came in %.1f s; then four were let in and answered in %.0f ms; the others were ended, at once or '
            'after %d s; the log says %s; 1,000 probes are no events' % (
                came, 1000 * answered, HEADER, ', '.join('%s %d' % row for row in sorted(wanted.items()))))


def door_beyond_descriptors(case):
    """More connections at a door than there are descriptors, that say nothing: 40 for the whole server."""
    idle = used_in(case, 2)
    clients = [connect(DOOR) for _ in range(60)]
    used = used_in(case, 2)
    if used > idle + 0.05:
        raise Failed('%.1f%% of a processor, and %.1f%% before anybody waited' % (100 * used, 100 * idle))
    began = time.monotonic()
    member = door_member(case, 10)
    took = time.monotonic() - began
    for client in clients:
        client.close()
    member.close()
    return 'at %.1f%% of a processor (%.1f%% before); who came behind them is answered after %.1f s' % (
        100 * used, 100 * idle, took)


def main():
    if len(sys.argv) < 2:
        raise SystemExit(__doc__)
    chosen = sys.argv[2:]
    failed = []
    for body, how in CASES:
        name = body.__name__
        if chosen and name not in chosen:
            continue
        if {'--door', '--longest'} & set(how.get('words', ())) and not is_hub(sys.argv[1]):
            continue
        print('%s: %s' % (name, body.__doc__.split('\n')[0]), flush=True)
        case = Case(sys.argv[1], **how)
        try:
            began = time.monotonic()
            say('%s (%.1f s)' % (body(case), time.monotonic() - began))
            case.end()
        except (Failed, OSError, SystemExit) as fault:
            say('FAILED: %s' % fault)
            failed.append(name)
            case.abandon()
    if failed:
        print('failed: %s' % ', '.join(failed))
        raise SystemExit(1)
    print('all as it has to be')


CASES = (
    (half_a_header, {}),
    (byte_by_byte, {}),
    (announced, {}),
    (malformed, {}),
    (largest, {}),
    (long_messages, {'words': ('--log',)}),
    (too_long, {'words': ('--log', '--longest', str(LONGEST))}),
    (beyond_64, {}),
    (two_peers, {}),
    (connect_and_leave, {}),
    (resets, {}),
    (last_words, {'words': ('--log',)}),
    (reads_nothing, {}),
    (stopped_and_continued, {}),
    (killed, {}),
    (slow, {}),
    (unread, {}),
    (unread_again, {'variables': {'MALLOC_ARENA_MAX': '1', 'MALLOC_MMAP_MAX_': '0',
                                  'MALLOC_TRIM_THRESHOLD_': '1073741824'}}),
    (far_ahead, {}),
    (watchers, {}),
    (half_closed, {}),
    (closed_while_blocked, {}),
    (stopped_while_blocked, {}),
    (reset_at_the_end, {}),
    (journal_full, {}),
    (full_while_blocked, {}),
    (beyond_descriptors, {'limits': {resource.RLIMIT_NOFILE: 40}}),
    (beyond_addresses, {'limits': {resource.RLIMIT_AS: 1 << 30},
                        'variables': {'MALLOC_ARENA_MAX': '1'}}),
    (beyond_memory, {'limits': {resource.RLIMIT_AS: 600 << 20},
                     'variables': {'MALLOC_ARENA_MAX': '1'}}),
    (at_the_door, {'words': DOORS + ('--log',)}),
    (door_beyond_descriptors, {'limits': {resource.RLIMIT_NOFILE: 40}, 'words': DOORS}),
)


if __name__ == '__main__':
    main()
