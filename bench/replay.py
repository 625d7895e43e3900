#!/usr/bin/env python3
"""Does the server send what its journal calls for? ./replay.py SERVER FLOORSIM [SEED [ROUNDS [STEPS]]]

Random clients with a seed (1) play against a floord or a floorhub: they ask, chair, watch, send nonsense,
cut their messages anywhere, read late or never, leave, are cut off, while an administrator revokes, adds
users and floors, gives floors other chairs or none, and closes. In each conference some greet without ever
reading, until they are more than 1,024 messages behind and the server cuts them. Then the console prints
each conference's journal. The journal has to hold what each connection sent, in its order; and floorsim,
which runs it as a script from the configuration with which the conference was opened, has to print for
each connection the bytes that it heard: all of them where it ended in order, else a beginning of them.
An acknowledgement is no line of a script, which acknowledges all that it prints: so there nobody is
cut. Who is cut by the server, and at which event, is counted by what is printed for each line and by the
journal's acknowledgements: from that event on nothing is called for, and no message of such a member is
an event. Of these there has to be one in each round. And whoever read to the end of its stream has heard
at least as many messages as were acknowledged for it.
So many rounds (3), each with the next seed; in rounds of less than 6,000 STEPS nobody greets so. A
difference is printed with its seed, conference, connection and place, and the script is kept; then the
status is 1.
"""
import collections
import multiprocessing
import os
import random
import select
import socket
import struct
import subprocess
import sys
import tempfile
import time

import messages
from messages import (BENEFICIARY_ID, CHAIR_ACTION, FLOOR_QUERY, FLOOR_RELEASE, FLOOR_REQUEST,
                      FLOOR_REQUEST_ID, FLOOR_REQUEST_QUERY, HELLO, INFO, PRIORITY, USER_QUERY,
                      attribute, floors, message, number, verdict)
from server import Server, connect

FIRST_PORT = 8200
CONFERENCES = 4
USERS = range(10, 16)
FLOORS = range(1, 7)
# Who and what may have been added.
EVERYBODY = range(10, 20)
ALL_FLOORS = range(1, 10)
ACTS = ('revoked', 'user', 'floor', 'chair')
DRIVERS = 3
PEERS = 5
CUTTING_STEPS = 6000
DEADLINE = 60
# A greeter sends so many Hellos at each of so many steps. Of their answers its sockets hold some 2,000.
BURST, BURSTS = 200, 40
# Whom an event would bring to be more messages behind is told nothing by it, and is cut.
MAX_BEHIND = 1024
# A line of a script behind each other line, and what it prints: no conference has this number.
MARKER, MARK = 'attach 0 0', 'refused NoConference'


def port_of(conference, user):
    return FIRST_PORT + (conference - 1) * len(USERS) + user - USERS[0]


def configuration(chance, conference):
    """One conference: some of its floors have a chair, some of its users a name."""
    rows = ['[[conference]]\nid = %d\nlimit = %d\n' % (conference, chance.randint(1, 16))]
    for user in USERS:
        rows.append('[[conference.user]]\nid = %d\nport = %d\nproxy = %s\n' % (
            user, port_of(conference, user), chance.choice(('true', 'false'))))
        if chance.random() < 0.5:
            rows.append('name = "%s"\n' % ('x' * chance.randint(0, 30)))
        if chance.random() < 0.5:
            rows.append('uri = "sip:%d@example.com"\n' % user)
    for floor in FLOORS:
        rows.append('[[conference.floor]]\nid = %d\nroom = %d\n' % (floor, chance.randint(1, 3)))
        if chance.random() < 0.5:
            rows.append('chair = %d\n' % chance.choice(USERS))
    return ''.join(rows)


def whole(stream):
    """The messages at the front of a stream."""
    found = []
    at = 0
    while at + 12 <= len(stream):
        end = at + 12 + 4 * struct.unpack('>H', stream[at + 2:at + 4])[0]
        if end > len(stream):
            break
        found.append(bytes(stream[at:end]))
        at = end
    return found


class Peer:
    """One connection. Its first message is a Hello with its mark, by which the journal has it."""

    def __init__(self, chance, conference, user, mark, narrow=False):
        self.chance = chance
        self.conference = conference
        self.user = user
        self.mark = mark
        self.stream = message(HELLO, conference, 1, user, attribute(100, mark))
        self.first = len(self.stream)
        self.flushed = 0
        self.heard = bytearray()
        self.seen = 0
        self.requests = [1]
        self.named = [(1, 1)]
        self.is_deaf = chance.random() < 0.15
        self.goes_on = True
        self.how = 'in order'
        self.has_ended = False
        self.socket = connect(port_of(conference, user), narrow)
        self.socket.setblocking(False)
        self.nonsense = messages.hostile(chance, conference, user)

    def send(self, count):
        """Sends as many bytes of its stream as the socket takes, at most so many."""
        try:
            self.flushed += self.socket.send(self.stream[self.flushed:self.flushed + count])
        except BlockingIOError:
            pass
        except OSError:
            self.give_up()

    def read(self):
        try:
            piece = self.socket.recv(65536)
        except BlockingIOError:
            return
        except OSError:
            self.give_up()
            return
        self.heard += piece
        if not piece:
            self.has_ended = True
            if self.goes_on:
                self.how = 'cut off'
            self.socket.close()
            self.socket = None

    def give_up(self):
        """It was cut off: what has come until then is still heard."""
        self.how = 'cut off'
        try:
            self.socket.setblocking(False)
            piece = self.socket.recv(65536)
            while piece:
                self.heard += piece
                piece = self.socket.recv(65536)
        except OSError:
            pass
        self.socket.close()
        self.socket = None

    def learn(self):
        """The floor requests that it was told of: its user's, and those for the floors it asked
        about."""
        for text in whole(self.heard[self.seen:]):
            self.seen += len(text)
            if text[1] == messages.FLOOR_REQUEST_STATUS:
                self.requests.append(struct.unpack('>H', text[14:16])[0])
            elif text[1] == messages.FLOOR_STATUS:
                told = messages.read(text[12:])
                self.named += [(contents[0], told[0][2]) for _, _, contents in told[1:]]
                del self.named[:-20]

    def request(self):
        """A number that may be a floor request's."""
        if self.chance.random() < 0.2:
            return max(self.requests) + self.chance.randint(-9, 9) & 0xffff
        return self.chance.choice(self.requests[-6:])

    def some(self, most):
        return floors(*(self.chance.choice(FLOORS if self.chance.random() < 0.8 else ALL_FLOORS)
                        for _ in range(self.chance.randint(1, most))))

    def reason(self):
        """Why a chair decides so, up to some bytes more than are kept."""
        return ('\u00e4' * self.chance.randint(0, 20)).encode()

    def ask(self):
        """A message of some kind."""
        chance = self.chance
        kind = chance.choices(
            (FLOOR_REQUEST, FLOOR_RELEASE, CHAIR_ACTION, FLOOR_QUERY, FLOOR_REQUEST_QUERY,
             USER_QUERY, HELLO, 0), (30, 22, 25, 5, 5, 5, 4, 8))[0]
        if kind == 0:
            return next(self.nonsense)[1]
        payload = b''
        if kind == FLOOR_REQUEST:
            payload = self.some(3)
            if chance.random() < 0.3:
                payload += number(BENEFICIARY_ID, chance.choice(EVERYBODY))
            if chance.random() < 0.5:
                payload += attribute(PRIORITY, bytes([chance.randint(0, 255), 0]))
            if chance.random() < 0.3:
                payload += attribute(INFO, ('\u00e4' * chance.randint(0, 40)).encode())
        elif kind in (FLOOR_RELEASE, FLOOR_REQUEST_QUERY):
            payload = number(FLOOR_REQUEST_ID, self.request())
        elif kind == CHAIR_ACTION:
            payload = verdict(*chance.choice(self.named), chance.choice((2, 3, 3, 3, 4, 7)),
                              *chance.choice(((), (), (self.reason(),), (None, self.reason()))))
        elif kind == FLOOR_QUERY and chance.random() < 0.9:
            payload = self.some(6)
        elif kind == USER_QUERY and chance.random() < 0.5:
            payload = number(BENEFICIARY_ID, chance.choice(EVERYBODY))
        return message(kind, self.conference, chance.randint(0, 65535), self.user, payload)

    def step(self):
        chance = self.chance
        if self.flushed < self.first:
            self.send(self.first)
            return
        fate = chance.random()
        if fate < 0.004:
            self.end(all_of_it=chance.random() < 0.7)
        elif fate < 0.006:
            self.how = 'cut off'
            self.socket.setsockopt(socket.SOL_SOCKET, socket.SO_LINGER, struct.pack('ii', 1, 0))
            self.socket.close()
            self.socket = None
        elif fate < 0.008:
            self.how = 'cut off'
            self.socket.close()
            self.socket = None
        else:
            self.learn()
            for _ in range(chance.choice((1, 1, 1, 5))):
                self.stream += self.ask()
            left = len(self.stream) - self.flushed
            self.send(left if chance.random() < 0.6 else chance.randint(1, left))

    def end(self, all_of_it=True):
        """Ends its sending, here or behind its last message, and goes on reading."""
        if all_of_it and self.flushed < len(self.stream):
            self.socket.settimeout(DEADLINE)
            try:
                self.socket.sendall(self.stream[self.flushed:])
                self.flushed = len(self.stream)
            except OSError:
                self.give_up()
                return
            self.socket.setblocking(False)
        self.goes_on = False
        try:
            self.socket.shutdown(socket.SHUT_WR)
        except OSError:
            self.give_up()

    def result(self):
        return (self.conference, self.user, self.mark, whole(self.stream[:self.flushed]),
                bytes(self.heard), self.how, self.has_ended)


class Greeter(Peer):
    """A connection that greets, and reads nothing before the end."""

    def __init__(self, chance, conference, user, mark):
        super().__init__(chance, conference, user, mark, narrow=True)
        self.is_deaf = True
        self.bursts = 0

    def step(self):
        if self.bursts < BURSTS:
            self.bursts += 1
            self.stream += message(HELLO, self.conference, 2, self.user) * BURST
        self.send(len(self.stream) - self.flushed)


def read_all(peers, seconds, deaf):
    """Reads what there is, of those that don't read too where that is said."""
    reading = {peer.socket: peer for peer in peers if peer.socket and (deaf or not peer.is_deaf)}
    for ready in select.select(list(reading), [], [], seconds)[0]:
        reading[ready].read()


def drive(seed, driver, steps, closing, done, results):
    """Plays some connections of each conference."""
    chance = random.Random('%d %d' % (seed, driver))
    peers = []
    count = 0
    for conference in range(1, CONFERENCES + 1 if steps >= CUTTING_STEPS else 1):
        count += 1
        peers.append(Greeter(chance, conference, chance.choice(USERS),
                             struct.pack('>HHI', seed & 0xffff, driver, count)))
    for step in range(steps):
        live = [peer for peer in peers if peer.socket and peer.goes_on]
        if len(live) < (PEERS + 1) * CONFERENCES:
            count += 1
            conference = chance.randint(1, CONFERENCES)
            if not (conference == CONFERENCES and closing.is_set()):
                peers.append(Peer(chance, conference, chance.choice(USERS),
                                  struct.pack('>HHI', seed & 0xffff, driver, count)))
        elif live:
            chance.choice(live).step()
        read_all(peers, 0, False)
        if step == steps * 3 // 4:
            closing.set()
    for peer in peers:
        if peer.socket and peer.goes_on:
            peer.end()
    end = time.monotonic() + DEADLINE
    while any(peer.socket for peer in peers) and time.monotonic() < end:
        read_all(peers, 1, True)
    for peer in peers:
        if peer.socket:
            peer.how = 'no end'
    done.set()
    results.put([peer.result() for peer in peers])


class Difference(Exception):
    """What the journal, the clients and floorsim have otherwise."""


class Journal:
    """A conference's journal as a script, and what stands in it of each member."""

    def __init__(self, conference, lines):
        self.script = []
        self.users = []
        self.sent = collections.defaultdict(list)
        # For each line (member, count): who acknowledged how many messages, or who sent one, or nothing.
        self.took = []
        self.senders = []
        for place, line in enumerate(lines[:-1], 1):
            words = line.split()
            if words[0] != str(place):
                raise Difference('place %d of the journal is "%s"' % (place, line))
            self.add(conference, words[1:])
        if lines[-1] != 'end %d' % (len(lines) - 1):
            raise Difference('%d events end by "%s"' % (len(lines) - 1, lines[-1]))

    def add(self, conference, words):
        took = sender = line = None
        if words[0] == 'took':
            took = int(words[1]), int(words[2])
        elif words[0] == 'message':
            sender = int(words[1])
            self.sent[sender].append(bytes.fromhex(words[2]))
            line = 'send %s %s' % (words[1], words[2])
        elif words[0] == 'join':
            self.users.append(int(words[1]))
            line = 'attach %d %s' % (conference, words[1])
        elif words[0] == 'leave':
            line = 'leave %s' % words[1]
        elif words[0] == 'revoke':
            line = 'revoke %d %s' % (conference, words[1])
        elif words[0] == 'user':
            name = '' if words[3] == '-' else ' name ' + bytes.fromhex(words[3]).decode()
            line = 'user %d %s%s%s' % (conference, words[1], ' proxy' if words[2] == '1' else '', name)
        elif words[0] == 'floor':
            chair = '' if words[3] == '-' else ' chair ' + words[3]
            line = 'floor %d %s room %s%s' % (conference, words[1], words[2], chair)
        elif words[0] == 'chair':
            line = 'chair %d %s %s' % (conference, words[1], words[2].replace('-', ''))
        elif words[0] == 'close':
            line = 'close %d' % conference
        else:
            raise Difference('the journal has "%s"' % ' '.join(words))
        if line:
            self.script.append(line)
        self.took.append(took)
        self.senders.append(sender)

    def text(self, configuration):
        return configuration + '---\n' + '\n'.join(self.script) + '\n'

    def printed(self, floorsim, configuration):
        """What floorsim prints for each member behind each line of the script: (member, message) pairs."""
        marked = configuration + '---\n' + ''.join('%s\n%s\n' % (line, MARKER) for line in self.script)
        done = subprocess.run([os.path.abspath(floorsim)], input=marked.encode(),
                              stdout=subprocess.PIPE, timeout=600)
        if done.returncode:
            raise Difference('floorsim ends with status %d' % done.returncode)
        behind = [[]]
        attached = 0
        for line in done.stdout.decode().split('\n'):
            first, _, rest = line.partition(' ')
            if line == MARK:
                behind.append([])
            elif first == 'attached':
                attached += 1
                if rest != str(attached):
                    raise Difference('floorsim prints "%s"' % line)
            elif first in ('refused', 'error', 'nothing'):
                raise Difference('floorsim prints "%s": the journal is none' % line)
            elif first:
                behind[-1].append((int(first), bytes.fromhex(rest)))
        if attached != len(self.users) or len(behind) != len(self.script) + 1:
            raise Difference('%d members are %d attached, %d lines are %d' % (
                len(self.users), attached, len(self.script), len(behind) - 1))
        return behind

    def told(self, printed):
        """What each member was told, who was cut, and how many messages each acknowledged."""
        told = collections.defaultdict(list)
        taken = collections.Counter()
        cut = set()
        printed = iter(printed)
        for took, sender in zip(self.took, self.senders):
            if took:
                taken[took[0]] += took[1]
                if taken[took[0]] > len(told[took[0]]):
                    raise Difference('member %d was told %d messages and acknowledged %d' % (
                        took[0], len(told[took[0]]), taken[took[0]]))
                continue
            if sender in cut:
                raise Difference('a message of member %d, which is cut, is an event' % sender)
            due = collections.defaultdict(list)
            for n, text in next(printed):
                due[n].append(text)
            for n, texts in due.items():
                if n in cut:
                    continue
                if len(told[n]) - taken[n] + len(texts) > MAX_BEHIND:
                    cut.add(n)
                else:
                    told[n] += texts
        return told, cut, taken


def compare(conference, journal, printed, peers, counts):
    """Compares the journal and what it calls for with what each connection sent and heard."""
    by_mark = {peer[2]: peer for peer in peers}
    told, cut, taken = journal.told(printed)
    sent = journal.sent
    silent = []
    for n, user in enumerate(journal.users, 1):
        counts['members'] += 1
        if not sent[n]:
            silent.append((user, b''.join(told[n])))
            continue
        _, of, mark, messages_, heard, how, has_ended = by_mark.pop(sent[n][0][14:22], [None] * 7)
        if mark is None:
            raise Difference('member %d is no connection that was made' % n)
        if of != user:
            raise Difference('member %d is user %d, and was %d' % (n, user, of))
        if sent[n] != messages_[:len(sent[n])]:
            raise Difference('member %d sent something else than the journal has' % n)
        if n in cut:
            how = 'no end' if how == 'no end' else 'by the server'
        if conference == CONFERENCES and how == 'in order':
            # Its conference was closed, perhaps before it had heard all.
            how = 'cut off'
        if how == 'in order' and len(sent[n]) != len(messages_):
            raise Difference('member %d sent %d messages, the journal has %d' % (
                n, len(messages_), len(sent[n])))
        if how == 'no end':
            raise Difference('the stream of member %d does not end' % n)
        wanted = b''.join(told[n])
        if heard != wanted[:len(heard)] or how == 'in order' and heard != wanted:
            at = next((k for k, (a, b) in enumerate(zip(heard, wanted)) if a != b),
                      min(len(heard), len(wanted)))
            raise Difference('member %d, byte %d of %d: %s is heard, %s is called for' % (
                n, at, len(wanted), heard[at:at + 32].hex(), wanted[at:at + 32].hex()))
        if has_ended and len(whole(heard)) < taken[n]:
            raise Difference('member %d heard %d messages, and %d were acknowledged' % (
                n, len(whole(heard)), taken[n]))
        counts[how] += 1
        counts['bytes'] += len(heard)
        if n in cut:
            counts['bytes of cut'] += len(heard)
        for text in told[n]:
            counts['primitive %d' % text[1]] += 1
    for _, user, _, _, heard, how, _ in by_mark.values():
        # Cut off before its first message was taken: a member that sent nothing, or none.
        counts['cut off early'] += 1
        if how == 'in order' and conference != CONFERENCES:
            raise Difference('a connection that ended in order is not in the journal')
        if heard and not any(user == of and wanted.startswith(heard) for of, wanted in silent):
            raise Difference('a connection of user %d that the journal does not have heard %s' % (
                user, heard[:64].hex()))


def act(chance, conference, last):
    """The line of an act, and what may answer it."""
    choice = chance.random()
    if choice < 0.7:
        line = 'revoke %d %d' % (conference, chance.randint(1, last))
        return line, (line.replace('revoke', 'ok revoked'), 'error NoRequest')
    if choice < 0.8:
        number = chance.choice(EVERYBODY)
        name = chance.choice(('', ' name ' + chance.randint(1, 30) * 'y', ' name ' + 16 * '\u00e4'))
        return ('user %d %d%s%s' % (conference, number, chance.choice(('', ' proxy')), name),
                ('ok user %d %d' % (conference, number), 'error DoubleUser', 'error OutOfRange'))
    chair = chance.choice((None, chance.choice(USERS), chance.choice(EVERYBODY)))
    if choice < 0.85:
        floor = chance.choice(ALL_FLOORS)
        return ('floor %d %d room %d%s' % (conference, floor, chance.randint(1, 3),
                                           ' chair %d' % chair if chair else ''),
                ('ok floor %d %d' % (conference, floor), 'error DoubleFloor', 'error UnknownChair'))
    floor = chance.choice(ALL_FLOORS)
    return ('chair %d %d %s' % (conference, floor, chair or ''),
            ('ok chair %d %d' % (conference, floor), 'error NoFloor', 'error UnknownChair'))


def administer(server, chance, closing, done, counts):
    """Acts now and then, and closes the last conference while its clients are at work."""
    is_closed = False
    while not done.is_set():
        if closing.is_set() and not is_closed:
            if server.ask('close %d' % CONFERENCES) != 'ok closed %d' % CONFERENCES:
                raise Difference('the last conference is not closed')
            is_closed = True
        conference = chance.randint(1, CONFERENCES)
        words = server.ask('status %d' % conference).split()
        last = max(1, int(words[7]) // 8)
        line, wanted = act(chance, conference, last)
        answer = server.ask(line)
        if answer not in wanted and answer != 'error Ended':
            raise Difference('%s is answered by %s' % (line, answer))
        counts[answer.split()[1] if answer.startswith('ok') else answer] += 1
        time.sleep(0.001)


def round_of(floord, floorsim, seed, steps):
    chance = random.Random(seed)
    texts = [configuration(chance, conference) for conference in range(1, CONFERENCES + 1)]
    server = Server(floord, ''.join(texts))
    results = multiprocessing.Queue()
    closing, done = multiprocessing.Event(), multiprocessing.Event()
    drivers = [multiprocessing.Process(target=drive, args=(seed, k, steps, closing, done, results),
                                       daemon=True) for k in range(DRIVERS)]
    for driver in drivers:
        driver.start()
    peers = []
    counts = collections.Counter()
    where = 'seed %d' % seed
    script = None
    try:
        administer(server, chance, closing, done, counts)
        for _ in drivers:
            peers += results.get(timeout=2 * DEADLINE)
        events = 0
        for conference in range(1, CONFERENCES + 1):
            where = 'seed %d, conference %d' % (seed, conference)
            lines = server.journal(conference)
            journal = Journal(conference, lines)
            events += len(lines) - 1
            script = journal.text(texts[conference - 1])
            compare(conference, journal, journal.printed(floorsim, texts[conference - 1]),
                    [peer for peer in peers if peer[0] == conference], counts)
        where = 'seed %d' % seed
        report = server.stop()
        wanted = ('ok stopped seats %d events %d' % (counts['members'], events), 0)
        if report != wanted:
            raise Difference('the report is %s, not %s' % (report, wanted))
        if steps >= CUTTING_STEPS and not counts['by the server']:
            raise Difference('nobody was cut')
        return events, counts
    except (Difference, SystemExit) as fault:
        server.process.kill()
        if script:
            handle, path = tempfile.mkstemp(suffix='.script')
            with os.fdopen(handle, 'w') as file:
                file.write(script)
            where += ' (%s)' % path
        raise SystemExit('FAILED: %s: %s' % (where, fault))


def main():
    if len(sys.argv) < 3:
        raise SystemExit(__doc__)
    first = int(sys.argv[3]) if len(sys.argv) > 3 else 1
    rounds = int(sys.argv[4]) if len(sys.argv) > 4 else 3
    steps = int(sys.argv[5]) if len(sys.argv) > 5 else CUTTING_STEPS
    for seed in range(first, first + rounds):
        began = time.monotonic()
        events, counts = round_of(sys.argv[1], sys.argv[2], seed, steps)
        print('seed %d: %d events, %d members; %d streams heard whole, %d in part, %d of members that '
              'the server cut (%d bytes), %d bytes, all as the journal calls for (%.1f s)' % (
                  seed, events, counts['members'], counts['in order'], counts['cut off'],
                  counts['by the server'], counts['bytes of cut'], counts['bytes'],
                  time.monotonic() - began))
        print('    %s' % ', '.join('%s: %d' % pair for pair in sorted(counts.items())
                                   if pair[0].startswith(('primitive', 'error'))
                                   or pair[0] in ACTS), flush=True)


if __name__ == '__main__':
    main()
