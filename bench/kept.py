#!/usr/bin/env python3
"""A floorhub that keeps its conferences, while it is killed: ./kept.py FLOORHUB FLOORSIM [CASE ..]

Runs each case (or those that are named) over folders of its own. In `kills` clients of three conferences ask, release,
query, decide, say things as chairs, and are lost, while programs add users, keep words, revoke and watch; then the
server is killed (SIGKILL) at any moment, KEPT_KILLS times (300), and started again on its folder. Behind each kill
what any client has heard has to be the beginning of what floorsim says that the conference's file told it; each answer
` at <place>` and each line that was watched has to be of an event of the file; once the server runs again its floors
have to be what floorsim says of the file, each word that was answered has to be there, and what was watched before
has to be the beginning of what is watched from the first place on. Then each user comes back, and each floor request
has to be where it was. `slow` does the same few times with every write of a file slowed down by strace, so that an
order that is wrong is seen for certain.

The other cases are torn ends at each byte, flipped bytes, kills between two renames, a full disk, a folder that may not
be written, two servers on a folder, another epoch, an orderly stop, conferences that were closed, 1,000 conferences of
2,000 events (KEPT_MANY, KEPT_EVENTS), `--check --keep`, a copy that is taken under load and put back, a conference that
is moved to another server by its file, and memory that is refused: one allocation, each KEPT_EVERYth
(50) in turn, of a server that goes on from its files, has clients that ask, are lost and come again, and is killed.
Status 1 where anything is otherwise.
"""
import os
import random
import re
import select
import shutil
import signal
import socket
import struct
import subprocess
import sys
import tempfile
import time

from messages import (CHAIR_ACTION, FLOOR_QUERY, FLOOR_RELEASE, FLOOR_REQUEST, FLOOR_REQUEST_ID, HELLO, INFO,
                      ACCEPTED, DENIED, GRANTED, USER_QUERY, attribute, floors, message, number, verdict)
from server import Control, connect

FIRST_PORT = int(os.environ.get('KEPT_PORT', 25100))
CONFERENCES = (1, 2, 3)
USERS, FLOORS = range(10, 16), range(1, 4)
KILLS = int(os.environ.get('KEPT_KILLS', 300))
MANY, EVENTS = int(os.environ.get('KEPT_MANY', 1000)), int(os.environ.get('KEPT_EVENTS', 2000))
SEED = int(os.environ.get('KEPT_SEED', 1))
EVERY = int(os.environ.get('KEPT_EVERY', 50))
# After so many kills a run begins with an empty folder, so that files don't grow beyond what is soon replayed.
ROUND = 20
# What a kill is waited for at most behind the first answers, in seconds.
MOMENT = 0.4


class Failed(Exception):
    """What was otherwise."""


def port_of(conference, user):
    return FIRST_PORT + 20 * conference + user - USERS[0]


def table(conference, ports=True):
    """A conference: floor 1 has a chair, floor 2 room for two; a key that floorhub doesn't know is kept too."""
    rows = ['[[conference]]\nid = %d\nlimit = 8\nmotto = "a key of somebody else\'s"\n' % conference]
    for user in USERS:
        rows.append('[[conference.user]]\nid = %d\nproxy = %s\nname = "N%d ü"\n' % (user, str(user == 10).lower(), user))
        if ports:
            rows.append('port = %d\n' % port_of(conference, user))
    for floor in FLOORS:
        rows.append('[[conference.floor]]\nid = %d\nroom = %d\n%s' % (
            floor, 1 + (floor == 2), 'chair = 10\n' if floor == 1 else ''))
    return ''.join(rows)


class Hub:
    """A floorhub on a folder."""

    def __init__(self, floorhub, folder, text=None, words=(), before=(), wait=True, socket_too=True, variables=None):
        self.folder, self.control_path = folder, folder + '.control'
        self.config = folder + '.toml'
        with open(self.config, 'w') as file:
            file.write(''.join(map(table, CONFERENCES)) if text is None else text)
        control = ('--control', self.control_path) if socket_too else ()
        self.errors = open(folder + '.errors', 'ab')
        self.process = subprocess.Popen(
            [*before, os.path.abspath(floorhub), '--log', *control, '--keep', folder, *words, self.config],
            stdin=subprocess.PIPE, stdout=subprocess.PIPE, stderr=self.errors, env={**os.environ, **(variables or {})})
        self.begun = time.monotonic()
        if wait:
            self.ready()

    def ready(self, seconds=120):
        end = time.monotonic() + seconds
        heard = b''
        while b'\n' not in heard:
            left = end - time.monotonic()
            if left <= 0 or not select.select([self.process.stdout], [], [], left)[0]:
                raise Failed('not ready after %d s' % seconds)
            piece = os.read(self.process.stdout.fileno(), 4096)
            if not piece:
                raise Failed('it ended with status %d: %s' % (self.process.wait(), self.told()[-500:]))
            heard += piece
        if not heard.startswith(b'ready\n'):
            raise Failed('it printed %r' % heard)
        self.took = time.monotonic() - self.begun

    def told(self):
        with open(self.folder + '.errors', errors='replace') as file:
            return file.read()

    def control(self):
        return Control(self.control_path)

    def pids(self):
        """The server itself, which strace may have begun."""
        below = '/proc/%d/task/%d/children' % (self.process.pid, self.process.pid)
        with open(below) as file:
            children = file.read().split()
        return [int(it) for it in children] or [self.process.pid]

    def kill(self):
        for pid in self.pids():
            os.kill(pid, signal.SIGKILL)
        self.process.wait(30)
        self.close()

    def stop(self):
        control = self.control()
        answer = control.ask('stop')
        status = self.process.wait(30)
        control.close()
        self.close()
        return answer, status

    def close(self):
        if self.process.poll() is None:
            self.process.kill()
            self.process.wait()
        for it in (self.process.stdin, self.process.stdout, self.errors):
            it.close()


def path_of(folder, conference):
    return os.path.join(folder, '%d.journal' % conference)


def lines_of(folder, conference):
    """The whole lines of a file's events, by their order."""
    with open(path_of(folder, conference), 'rb') as file:
        head, _, body = file.read().partition(b'\n---\n')
    if not head.startswith(b'floorhub journal 1\n'):
        raise Failed('the file of conference %d begins with %r' % (conference, head[:40]))
    lines = body.split(b'\n')[:-1]
    return [line.decode() for line in lines if not line.startswith((b'#', b'end'))]


def joins_of(lines):
    """The members' numbers of each user, in order."""
    joined, count = {}, 0
    for line in lines:
        _, what, *rest = line.split(' ')
        if what == 'join':
            count += 1
            joined.setdefault(int(rest[0]), []).append(count)
    return joined


def told_by(floorsim, folder, conference):
    """What each member was told, as floorsim says of the file."""
    run = subprocess.run([floorsim, '--journal', path_of(folder, conference)], stdout=subprocess.PIPE,
                         stderr=subprocess.PIPE)
    if run.returncode:
        raise Failed('floorsim on conference %d: %s %s' % (conference, run.stdout[-200:], run.stderr[-200:]))
    told = {}
    for line in run.stdout.split(b'\n')[:-1]:
        _, n, text = line.split(b' ')
        told.setdefault(int(n), []).append(bytes.fromhex(text.decode()))
    return {n: b''.join(parts) for n, parts in told.items()}


def floors_by(floorsim, folder, conference):
    """The lines of the floors, as floorsim says of the file."""
    run = subprocess.run([floorsim, '--journal', path_of(folder, conference), '--status'], stdout=subprocess.PIPE,
                         check=True, text=True)
    return [line for line in run.stdout.split('\n') if line.startswith('floor ')]


def floors_now(control, conference):
    return [line for line in control.ask('floors %d' % conference) if line.startswith('floor ')]


class Client:
    """A client of a user's port, which has one message at most that isn't answered."""

    def __init__(self, conference, user, number, chance):
        self.conference, self.user, self.number, self.chance = conference, user, number, chance
        self.socket = connect(port_of(conference, user))
        self.socket.setblocking(False)
        self.heard, self.at, self.transaction, self.requests = b'', 0, 0, []
        self.send(HELLO)

    def send(self, primitive, payload=b''):
        self.transaction = self.transaction % 60_000 + 1
        try:
            self.socket.send(message(primitive, self.conference, self.transaction, self.user, payload))
        except OSError:
            pass

    def hear(self):
        """Takes what came; False where the stream has ended."""
        try:
            piece = self.socket.recv(1 << 16)
        except BlockingIOError:
            return True
        except OSError:
            return False
        if not piece:
            return False
        self.heard += piece
        answered = False
        while len(self.heard) - self.at >= 12:
            size = 12 + 4 * struct.unpack_from('>H', self.heard, self.at + 2)[0]
            if len(self.heard) - self.at < size:
                break
            answered |= self.take(self.heard[self.at:self.at + size])
            self.at += size
        if answered:
            self.ask()
        return True

    def take(self, heard):
        """Takes a message, and says whether it answers the last one that was sent."""
        transaction = struct.unpack_from('>H', heard, 8)[0]
        # A FloorRequestStatus or a FloorStatus: the numbers of requests that are spoken of (section 5.2.15).
        if heard[1] in (4, 8):
            for at in range(12, len(heard) - 4, 4):
                if heard[at] >> 1 == 15:
                    self.requests = (self.requests + [struct.unpack_from('>H', heard, at + 2)[0]])[-8:]
        return transaction == self.transaction

    def ask(self):
        chance = self.chance.random()
        floor = self.chance.choice(FLOORS)
        if chance < 0.35:
            text = attribute(INFO, self.chance.choice((b'', b'please', 'zwei Minuten ü'.encode())))
            self.send(FLOOR_REQUEST, floors(floor) + text)
        elif chance < 0.6 and self.requests:
            self.send(FLOOR_RELEASE, number(FLOOR_REQUEST_ID, self.chance.choice(self.requests)))
        elif chance < 0.75 and self.requests and self.user == 10:
            status = self.chance.choice((ACCEPTED, GRANTED, DENIED))
            self.send(CHAIR_ACTION, verdict(self.chance.choice(self.requests), 1, status, b'as said'))
        elif chance < 0.85:
            self.send(FLOOR_QUERY, floors(*FLOORS[:self.chance.randint(0, 3)]))
        elif chance < 0.92:
            self.send(USER_QUERY)
        else:
            self.send(HELLO)

    def end(self):
        """Ends in order, inside a message, or by a reset."""
        how = self.chance.randrange(3)
        try:
            if how == 1:
                self.socket.send(message(HELLO, self.conference, 7, self.user)[:5])
            elif how == 2:
                self.socket.setsockopt(socket.SOL_SOCKET, socket.SO_LINGER, struct.pack('ii', 1, 0))
        except OSError:
            pass
        self.socket.close()


class Load:
    """Clients and programs of a server."""

    def __init__(self, hub, chance):
        self.hub, self.chance = hub, chance
        self.clients, self.past = {}, []
        self.counts = {}
        self.watcher, self.worker = hub.control(), hub.control()
        self.first = {}
        for conference in CONFERENCES:
            answer = self.watcher.ask('watch %d' % conference)[0].split(' ')
            self.first[conference] = int(answer[-1])
        self.words, self.places, self.added = {}, {}, 0
        for conference in CONFERENCES:
            for user in USERS:
                self.begin(conference, user)

    def begin(self, conference, user):
        number = self.counts.get((conference, user), 0)
        try:
            client = Client(conference, user, number, self.chance)
        except OSError:
            return
        self.counts[(conference, user)] = number + 1
        self.clients[(conference, user)] = client

    def run(self, seconds):
        end = time.monotonic() + seconds
        while time.monotonic() < end:
            by_socket = {client.socket: key for key, client in self.clients.items()}
            ready = select.select([*by_socket, self.watcher.socket], [], [], 0.02)[0]
            for it in ready:
                if it is self.watcher.socket:
                    self.watcher.listen(0)
                    continue
                key = by_socket[it]
                if not self.clients[key].hear():
                    self.past.append(self.clients.pop(key))
            chance = self.chance.random()
            if chance < 0.05 and self.clients:
                key = self.chance.choice(list(self.clients))
                client = self.clients.pop(key)
                client.hear()
                client.end()
                self.past.append(client)
            elif chance < 0.2:
                for conference in CONFERENCES:
                    for user in USERS:
                        if (conference, user) not in self.clients:
                            self.begin(conference, user)
            elif chance < 0.3:
                self.act()

    def act(self):
        """Something that a program does; it is taken down once it is answered."""
        conference = self.chance.choice(CONFERENCES)
        what = self.chance.randrange(3)
        if what == 0:
            key, word = 'k%d' % self.chance.randrange(5), '%08x' % self.chance.getrandbits(32)
            answer = self.worker.ask('word %d %s %s' % (conference, key, word))[0]
            if answer.startswith('ok'):
                self.words[(conference, key)] = word
        else:
            line = ('revoke %d %d' % (conference, self.chance.randrange(1, 40)) if what == 1 else
                    'chair %d 3 %d' % (conference, self.chance.choice(USERS)))
            answer = self.worker.ask(line)[0]
            if ' at ' in answer:
                self.places[conference] = max(self.places.get(conference, 0), int(answer.rsplit(' ', 1)[1]))

    def rest(self):
        """Takes what still waits in the sockets of a server that was killed."""
        for client in self.clients.values():
            for _ in range(1000):
                try:
                    client.socket.setblocking(True)
                    client.socket.settimeout(5)
                    piece = client.socket.recv(1 << 18)
                except OSError:
                    break
                if not piece:
                    break
                client.heard += piece
        try:
            self.watcher.listen(2)
        except (ConnectionError, OSError):
            pass
        connected = [key for key in self.clients]
        self.past += self.clients.values()
        for client in self.past:
            client.socket.close()
        self.watcher.close()
        self.worker.close()
        return connected


def check_heard(floorsim, folder, load, joined_before):
    """Each byte that a client heard is of an event in the file."""
    for conference in CONFERENCES:
        lines = lines_of(folder, conference)
        for place, line in enumerate(lines, 1):
            if int(line.split(' ', 1)[0]) != place:
                raise Failed('conference %d: the line of place %d is "%s"' % (conference, place, line[:80]))
        if len(lines) < load.places.get(conference, 0):
            raise Failed('conference %d: %d was answered, and the file has %d events' % (
                conference, load.places[conference], len(lines)))
        joined, told = joins_of(lines), told_by(floorsim, folder, conference)
        for client in load.past:
            if client.conference != conference or not client.heard:
                continue
            new = joined.get(client.user, [])[joined_before.get((conference, client.user), 0):]
            if len(new) <= client.number:
                raise Failed('conference %d, user %d: a connection heard %d bytes, and its join is not in the file' % (
                    conference, client.user, len(client.heard)))
            called = told.get(new[client.number], b'')
            if not called.startswith(client.heard):
                raise Failed('conference %d, member %d heard %d bytes that are not what the file says: %s' % (
                    conference, new[client.number], len(client.heard), client.heard[:80].hex()))


def joined_in(folder):
    counts = {}
    for conference in CONFERENCES:
        for user, numbers in joins_of(lines_of(folder, conference)).items():
            counts[(conference, user)] = len(numbers)
    return counts


def check_shown(load, control):
    """What was watched is the beginning of what is watched again from its first place on."""
    for conference in CONFERENCES:
        heard = [line for line in load.watcher.live if line.startswith('! %d ' % conference)]
        again = watched(control, conference, load.first[conference])
        if again[:len(heard)] != heard:
            at = next((k for k, pair in enumerate(zip(heard, again)) if pair[0] != pair[1]), len(again))
            raise Failed('conference %d: watched "%s", and behind the kill "%s"' % (
                conference, heard[at], again[at] if at < len(again) else 'nothing'))


def watched(control, conference, first):
    """All lines from a place on, up to the last event that there is now."""
    events = int(control.ask('status %d' % conference)[0].split(' ')[7])
    control.live.clear()
    control.ask('watch %d from %d' % (conference, min(first, events + 1)))
    # An act's answer waits until its place was shown.
    control.ask('chair %d 3 %d' % (conference, USERS[0]))
    control.ask('unwatch %d' % conference)
    return [line for line in control.live if line.startswith('! %d ' % conference)]


def holders_are_few(lines):
    for line in lines:
        words = line.split(' ')
        room = int(words[3])
        held = re.search(r' holders ((?:\d+:\d+ ?)+)', line)
        if held and len(held[1].split()) > room:
            raise Failed('more holders than there is room for: "%s"' % line)


def come_back(hub, control, connected):
    """Whoever was connected comes back, and each floor request is where it was."""
    before = {conference: floors_now(control, conference) for conference in CONFERENCES}
    chance = random.Random(0)
    clients = []
    for conference, user in connected:
        client = Client(conference, user, 0, chance)
        client.socket.setblocking(True)
        client.socket.settimeout(20)
        if not client.socket.recv(48):
            raise Failed('user %d of conference %d is not let in again' % (user, conference))
        clients.append(client)
    for conference in CONFERENCES:
        after = floors_now(control, conference)
        if after != before[conference]:
            raise Failed('conference %d: "%s" before its users came back, "%s" behind that' % (
                conference, before[conference], after))
    for client in clients:
        client.socket.setsockopt(socket.SOL_SOCKET, socket.SO_LINGER, struct.pack('ii', 1, 0))
        client.socket.close()


def kill_once(floorhub, floorsim, folder, chance, moment=MOMENT, before=(), words=()):
    """One server on the folder, from its start to its kill, and the look at what it left."""
    hub = Hub(floorhub, folder, words=('--grace', '60', *words), before=before)
    joined = joined_in(folder)
    try:
        load = Load(hub, chance)
        load.run(moment * chance.random())
    finally:
        hub.kill()
    connected = load.rest()
    check_heard(floorsim, folder, load, joined)
    by_file = {conference: floors_by(floorsim, folder, conference) for conference in CONFERENCES}
    hub = Hub(floorhub, folder, words=('--grace', '60', *words))
    try:
        control = hub.control()
        for conference in CONFERENCES:
            now = floors_now(control, conference)
            holders_are_few(now)
            if now != by_file[conference]:
                raise Failed('conference %d: the file says "%s", the server "%s"' % (
                    conference, by_file[conference], now))
            kept = dict(line.split(' ')[1:3] for line in control.ask('words %d' % conference)
                        if line.startswith('word '))
            for (of, key), word in load.words.items():
                if of == conference and key not in kept:
                    raise Failed('conference %d: the word %s is lost' % (conference, key))
        check_shown(load, control)
        come_back(hub, control, connected)
        control.close()
    finally:
        hub.kill()
    return sum(len(client.heard) for client in load.past), hub.took


def kills(floorhub, floorsim, base):
    chance, heard, took = random.Random(SEED), 0, []
    for k in range(KILLS):
        folder = os.path.join(base, 'kills%d' % (k // ROUND))
        os.makedirs(folder, exist_ok=True)
        bytes_heard, seconds = kill_once(floorhub, floorsim, folder, chance)
        heard += bytes_heard
        took.append(seconds)
    took.sort()
    return '%d kills, %.1f MB heard, ready after %.0f ms at the median' % (KILLS, heard / 1e6, 1e3 * took[len(took) // 2])


def slow(floorhub, floorsim, base):
    """Writes of files take 20 ms, those of sockets (sendto) nothing more: what goes out too early is heard before the kill."""
    chance = random.Random(SEED)
    strace = ('strace', '-f', '-qq', '-o', '/dev/null', '-e', 'trace=write',
              '-e', 'inject=write:delay_enter=20000')
    folder = os.path.join(base, 'slow')
    os.makedirs(folder)
    heard = 0
    for _ in range(10):
        heard += kill_once(floorhub, floorsim, folder, chance, moment=2, before=strace)[0]
    return '10 kills, %.1f kB heard' % (heard / 1e3)


def made(floorhub, base, name, seconds=0.5):
    """A folder with three journals, of a server that was killed."""
    folder = os.path.join(base, name)
    os.makedirs(folder)
    hub = Hub(floorhub, folder, words=('--grace', '60'))
    try:
        load = Load(hub, random.Random(SEED))
        load.run(seconds)
    finally:
        hub.kill()
    load.rest()
    return folder


def events_of(hub, conference):
    control = hub.control()
    answer = control.ask('status %d' % conference)[0]
    control.close()
    return answer


def torn(floorhub, floorsim, base):
    """The last line without some of its bytes: it is dropped, and cut off before anything is appended."""
    folder = made(floorhub, base, 'torn', 0.2)
    path = path_of(folder, 1)
    with open(path, 'rb') as file:
        whole = file.read()
    last = whole[:-1].rfind(b'\n') + 1
    count = sum(1 for line in whole[:last].partition(b'\n---\n')[2].split(b'\n')[:-1] if not line.startswith(b'#'))
    tried = sorted({*range(last + 1, min(len(whole), last + 60)), *range(max(last + 1, len(whole) - 20), len(whole))})
    for size in tried:
        with open(path, 'wb') as file:
            file.write(whole[:size])
        hub = Hub(floorhub, folder, words=('--grace', '60'))
        try:
            events = int(events_of(hub, 1).split(' ')[7])
            if events < count:
                raise Failed('%d bytes torn off: %d events of %d' % (len(whole) - size, events, count))
            control = hub.control()
            control.ask('chair 1 3 11')
            control.close()
        finally:
            hub.kill()
        told_by(floorsim, folder, 1)
        with open(path, 'rb') as file:
            now = file.read()
        if not now.startswith(whole[:last]) or not now.endswith(b' chair 3 11\n'):
            raise Failed('%d bytes torn off: the file goes on with %r' % (len(whole) - size, now[last:last + 80]))
    return 'at %d places' % len(tried)


def flipped(floorhub, floorsim, base):
    """A byte in the middle: the conference isn't opened, its file stays as it is, the others go on."""
    folder = made(floorhub, base, 'flipped', 0.2)
    path, chance = path_of(folder, 1), random.Random(SEED)
    with open(path, 'rb') as file:
        whole = file.read()
    first = whole.index(b'\n---\n') + 5
    wrong = 0
    for at in [3, 30, *(chance.randrange(first, len(whole) - 1) for _ in range(20))]:
        with open(path, 'wb') as file:
            file.write(whole[:at] + bytes([whole[at] ^ (1 << chance.randrange(7))]) + whole[at + 1:])
        with open(path, 'rb') as file:
            changed = file.read()
        check = subprocess.run([os.path.abspath(floorhub), '--check', '--keep', folder, folder + '.toml'],
                               stdout=subprocess.PIPE, stderr=subprocess.PIPE, text=True)
        hub = Hub(floorhub, folder, words=('--grace', '60'))
        try:
            found = events_of(hub, 1)
            if not events_of(hub, 2).startswith('conference 2 '):
                raise Failed('byte %d: conference 2 does not go on' % at)
        finally:
            hub.kill()
        is_journal = 'NotAJournal' not in check.stdout
        if is_journal != found.startswith('conference 1 '):
            raise Failed('byte %d: the check says %r, status %s' % (at, check.stdout, found))
        if not is_journal:
            wrong += 1
            with open(path, 'rb') as file:
                if file.read() != changed:
                    raise Failed('byte %d: the file was changed' % at)
            if check.returncode != 1 or not re.search(r'NotAJournal (0: \S+: it has no head|\d+: \S+: line \d+)', check.stdout):
                raise Failed('byte %d: the check ends with %d: %s' % (at, check.returncode, check.stdout))
    return '%d of 22 are no journal any more' % wrong


def renames(floorhub, floorsim, base):
    """Kills between two steps: a head that isn't renamed, a close without its end, an end without its name."""
    folder = made(floorhub, base, 'renames', 0.2)
    with open(os.path.join(folder, '7.new'), 'w') as file:
        file.write('floorhub journal 1\n[[confer')
    path = path_of(folder, 1)
    with open(path, 'rb') as file:
        whole = file.read()
    events = len(lines_of(folder, 1))
    for rest, end in ((b'%d close\n' % (events + 1), True), (b'%d close\nend %d\n' % (events + 1, events + 1), False)):
        for name in os.listdir(folder):
            if name.endswith('.closed') or '.closed.' in name:
                os.unlink(os.path.join(folder, name))
        with open(path, 'wb') as file:
            file.write(whole + rest)
        hub = Hub(floorhub, folder, words=('--grace', '60'))
        try:
            if not events_of(hub, 1).startswith('error NoConference'):
                raise Failed('a closed conference is %s' % events_of(hub, 1))
            control = hub.control()
            control.socket.sendall(b'@x open .\n' + table(1, False).encode() + b'.\n')
            answer = control.answer('@x')
            if not answer[0].startswith('error Used'):
                raise Failed('a closed conference is opened again: %s' % answer)
            control.close()
        finally:
            hub.kill()
        closed = [name for name in os.listdir(folder) if re.fullmatch(r'1\.\d+\.closed', name)]
        if len(closed) != 1 or os.path.exists(path):
            raise Failed('behind the start there is %s' % os.listdir(folder))
        with open(os.path.join(folder, closed[0]), 'rb') as file:
            if not file.read().endswith(b'%d close\nend %d\n' % (events + 1, events + 1)):
                raise Failed('the closed file has no end')
    return 'each as it has to be'


def closed(floorhub, floorsim, base):
    """`close` ends the file, `forget` leaves it, and a start leaves the conference out."""
    folder = made(floorhub, base, 'closed', 0.2)
    hub = Hub(floorhub, folder)
    try:
        control = hub.control()
        place = int(control.ask('close 1')[0].rsplit(' ', 1)[1])
        time.sleep(0.3)
        control.ask('forget 1')
        control.close()
    finally:
        hub.kill()
    found = [name for name in os.listdir(folder) if re.fullmatch(r'1\.\d+\.closed', name)]
    if len(found) != 1 or os.path.exists(path_of(folder, 1)):
        raise Failed('behind the close there is %s' % os.listdir(folder))
    with open(os.path.join(folder, found[0]), 'rb') as file:
        if not file.read().endswith(b'\n%d close\nend %d\n' % (place, place)):
            raise Failed('the file does not end with its close and its end')
    hub = Hub(floorhub, folder)
    try:
        control = hub.control()
        listed = [line.split(' ')[1] for line in control.ask('list')[:-1]]
        if listed != ['2', '3']:
            raise Failed('behind the start there are conferences %s' % listed)
        control.close()
    finally:
        hub.kill()
    return 'as it has to be'


def full(floorhub, floorsim, base):
    """A disk that is full: the conference goes on unkept and says so, or is broken off where that is asked for."""
    said = []
    for words in ((), ('--keep-or-stop',)):
        disk = os.path.join(base, 'disk')
        os.makedirs(disk, exist_ok=True)
        subprocess.run(['mount', '-t', 'tmpfs', '-o', 'size=256k', 'tmpfs', disk], check=True)
        try:
            folder = os.path.join(disk, 'kept')
            os.makedirs(folder)
            outside = os.path.join(base, 'full%d' % len(words))
            os.symlink(folder, outside)
            hub = Hub(floorhub, outside, text=table(1), words=words)
            try:
                control = hub.control()
                control.ask('watch 1')
                client = connect(port_of(1, 11))
                client.settimeout(10)
                heard = 0
                for k in range(4_000):
                    client.sendall(message(FLOOR_REQUEST, 1, k % 60000 + 1, 11, floors(2) + attribute(INFO, b'x' * 200))
                                   + message(HELLO, 1, k % 60000 + 1, 11))
                    try:
                        piece = client.recv(1 << 16)
                    except OSError:
                        break
                    if not piece:
                        break
                    heard += len(piece)
                    if k % 50 == 0 and any(line.startswith('~') for line in control.live):
                        break
                    if k % 50 == 0:
                        control.listen(0)
                wanted, end = '~ 1 broken' if words else '~ 1 unkept', time.monotonic() + 20
                while wanted not in control.live and time.monotonic() < end:
                    control.listen(0.1)
                notices = [line for line in control.live if line.startswith('~')]
                status = control.ask('status 1')[0]
                if wanted not in notices:
                    raise Failed('%s: told %s, status "%s"' % (words, notices, status))
                if not words and not status.endswith(' open unkept'):
                    raise Failed('the status is "%s"' % status)
                if words and ' open' in status:
                    raise Failed('the status is "%s"' % status)
                if not words:
                    greeted = connect(port_of(1, 12))
                    greeted.settimeout(10)
                    greeted.sendall(message(HELLO, 1, 1, 12))
                    if len(greeted.recv(48)) < 12:
                        raise Failed('nobody is served behind that')
                control.close()
            finally:
                hub.kill()
            names = sorted(os.listdir(folder))
            if words:
                told_by(floorsim, folder, 1)
            elif not any(re.fullmatch(r'1\.\d+\.unkept', name) for name in names) or '1.journal' in names:
                raise Failed('the folder has %s' % names)
            said.append('%s: %s' % (wanted, status))
        finally:
            subprocess.run(['umount', disk], check=True)
    return '; '.join(said)


def ends_with(hub, name, seconds=20):
    status = hub.process.wait(seconds)
    hub.close()
    if status != 1 or not hub.told().strip().endswith('floorhub: %s' % name):
        raise Failed('it ends with status %d and "%s"' % (status, hub.told()[-200:]))


def unwritable(floorhub, floorsim, base):
    """A folder that isn't there, and one that can't be written."""
    folder = os.path.join(base, 'absent')
    ends_with(Hub(floorhub, folder, wait=False), 'CannotKeep')
    folder = os.path.join(base, 'file')
    with open(folder, 'w'):
        pass
    ends_with(Hub(floorhub, folder, wait=False), 'CannotKeep')
    disk = os.path.join(base, 'readonly')
    os.makedirs(disk)
    subprocess.run(['mount', '-t', 'tmpfs', '-o', 'ro', 'tmpfs', disk], check=True)
    try:
        os.symlink(disk, os.path.join(base, 'ro'))
        ends_with(Hub(floorhub, os.path.join(base, 'ro'), wait=False), 'CannotKeep')
    finally:
        subprocess.run(['umount', disk], check=True)
    return 'CannotKeep'


def two(floorhub, floorsim, base):
    """The second server on a folder ends before it listens."""
    folder = os.path.join(base, 'two')
    os.makedirs(folder)
    first = Hub(floorhub, folder)
    try:
        second = os.path.join(base, 'second')
        os.symlink(folder, second)
        ends_with(Hub(floorhub, second, wait=False), 'CannotKeep')
        if not events_of(first, 1).startswith('conference 1 '):
            raise Failed('the first does not go on')
    finally:
        first.kill()
    return 'CannotKeep'


def epoch(floorhub, floorsim, base):
    """Another epoch: the server ends without sending what the turn would tell, and appends nothing."""
    for socket_too in (True, False):
        folder = os.path.join(base, 'epoch%d' % socket_too)
        os.makedirs(folder)
        with open(os.path.join(folder, 'epoch'), 'w') as file:
            file.write('4\n')
        hub = Hub(floorhub, folder, socket_too=socket_too)
        client = connect(port_of(1, 11))
        client.settimeout(10)
        client.sendall(message(HELLO, 1, 1, 11))
        client.recv(48)
        time.sleep(1.5)
        with open(path_of(folder, 1), 'rb') as file:
            before = file.read()
        with open(os.path.join(folder, 'epoch.new'), 'w') as file:
            file.write('5\n')
        os.rename(os.path.join(folder, 'epoch.new'), os.path.join(folder, 'epoch'))
        client.sendall(message(FLOOR_REQUEST, 1, 2, 11, floors(2)))
        try:
            heard = client.recv(1 << 16)
        except ConnectionResetError:
            heard = b''
        ends_with(hub, 'Lost')
        if heard:
            raise Failed('it sent %s' % heard.hex())
        with open(path_of(folder, 1), 'rb') as file:
            if file.read() != before:
                raise Failed('it appended something')
    return 'Lost'


def orderly(floorhub, floorsim, base):
    """`stop` adds no leave, also none for who ends by itself; all of the journal is in the file then."""
    folder = made(floorhub, base, 'orderly')
    hub = Hub(floorhub, folder, words=('--grace', '60'))
    clients = []
    try:
        for conference in CONFERENCES:
            for user in USERS:
                client = connect(port_of(conference, user))
                client.sendall(message(HELLO, conference, 1, user) + message(FLOOR_REQUEST, conference, 2, user, floors(2)))
                client.settimeout(10)
                client.recv(48)
                clients.append(client)
        time.sleep(0.3)
        control = hub.control()
        before = {conference: floors_now(control, conference) for conference in CONFERENCES}
        leaves = {conference: sum(' leave ' in line for line in lines_of(folder, conference)) for conference in CONFERENCES}
        control.close()
        answer, status = hub.stop()
    finally:
        hub.close()
    if status != 0 or not answer[0].startswith('ok stopped '):
        raise Failed('the stop is answered by %s, status %d' % (answer, status))
    for conference in CONFERENCES:
        if sum(' leave ' in line for line in lines_of(folder, conference)) != leaves[conference]:
            raise Failed('the stop added leaves')
    for client in clients:
        client.close()
    hub = Hub(floorhub, folder, words=('--grace', '60'))
    try:
        control = hub.control()
        for conference in CONFERENCES:
            if floors_now(control, conference) != before[conference]:
                raise Failed('conference %d: "%s" before, "%s" behind the restart' % (
                    conference, before[conference], floors_now(control, conference)))
        come_back(hub, control, [(conference, user) for conference in CONFERENCES for user in USERS])
        control.close()
    finally:
        hub.kill()
    return 'as it has to be'


def many(floorhub, floorsim, base):
    """Many conferences with many events: how long a start takes."""
    folder = os.path.join(base, 'many')
    os.makedirs(folder)
    for conference in range(1, MANY + 1):
        rows = ['floorhub journal 1\n[[conference]]\nid = %d\n' % conference]
        rows += ['[[conference.user]]\nid = %d\n' % user for user in USERS]
        rows += ['[[conference.floor]]\nid = 1\n---\n1 join 10\n2 join 11\n']
        place = 2
        while place < EVENTS - 3:
            request = (place - 2) // 4 + 1
            for what in ('message 1 ' + message(FLOOR_REQUEST, conference, 1, 10, floors(1)).hex(), 'took 1 1',
                         'message 1 ' + message(FLOOR_RELEASE, conference, 2, 10,
                                                number(FLOOR_REQUEST_ID, request)).hex(), 'took 1 1'):
                place += 1
                rows.append('%d %s\n' % (place, what))
        with open(path_of(folder, conference), 'w') as file:
            file.write(''.join(rows))
    hub = Hub(floorhub, folder, text=table(2_000_000, False), wait=False)
    try:
        hub.ready(600)
        answer = events_of(hub, MANY)
        control = hub.control()
        counted = control.ask('list')[-1]
        control.close()
    finally:
        hub.kill()
    if counted != 'end %d' % (MANY + 1):
        raise Failed('the list ends with "%s"' % counted)
    return '%d conferences of %d events go on after %.1f s, %.0f events a second; %s' % (
        MANY, place, hub.took, MANY * place / hub.took, answer)


def check(floorhub, floorsim, base):
    """`--check --keep` of a folder that a server has: its lock and its ports alone are faults; and once it has ended."""
    folder = made(floorhub, base, 'check', 0.2)
    words = [os.path.abspath(floorhub), '--check', '--keep', folder, '/dev/stdin']
    hub = Hub(floorhub, folder)
    try:
        run = subprocess.run(words, input=table(9, False), stdout=subprocess.PIPE, stderr=subprocess.PIPE, text=True)
    finally:
        hub.kill()
    lines = [line for line in run.stdout.splitlines() if not line.startswith('warning: ')]
    if run.returncode != 1 or not lines[0].endswith('/lock: another server holds it'):
        raise Failed('beside a server the check ends with %d: %s' % (run.returncode, run.stdout + run.stderr))
    if any(not line.startswith('CannotListen: port ') for line in lines[1:]):
        raise Failed('beside a server the check says %s' % run.stdout)
    run = subprocess.run(words, input=table(9, False), stdout=subprocess.PIPE, stderr=subprocess.PIPE, text=True)
    if run.returncode:
        raise Failed('the check ends with %d: %s' % (run.returncode, run.stdout + run.stderr))
    return 'as it has to be'


class Short:
    """A few clients of a server, one after another, who ask a little and end each in its own way."""

    def __init__(self, chance):
        self.chance, self.past, self.places = chance, [], {}

    def run(self):
        counts = {}
        for conference, user in ((1, 11), (1, 10), (1, 11), (2, 12), (1, 11)):
            try:
                client = Client(conference, user, counts.get((conference, user), 0), self.chance)
            except OSError:
                continue
            self.past.append(client)
            for _ in range(6):
                if not select.select([client.socket], [], [], 0.5)[0] or not client.hear():
                    break
            if client.heard:
                counts[(conference, user)] = client.number + 1
            client.end()


def memory(floorhub, floorsim, base):
    """Each so manieth allocation is refused once: a server that doesn't start says so, what anybody heard is in the
    files, and they go on."""
    first, library = made(floorhub, base, 'memory', 0.05), os.path.join(base, 'refused.so')
    subprocess.run(['cc', '-O2', '-shared', '-fPIC', '-o', library,
                    os.path.join(os.path.dirname(os.path.abspath(__file__)), 'refused.c')], check=True)
    variables = {'LD_PRELOAD': library, 'REFUSE_COUNT': os.path.join(base, 'count'), 'MALLOC_ARENA_MAX': '1'}
    words, before = ('--grace', '60', '--keep-or-stop'), {it: len(lines_of(first, it)) for it in CONFERENCES}
    counts = {'not started': 0, 'broken off': 0, 'nothing told': 0}

    def once(refused, stops=False):
        folder = os.path.join(base, 'refused')
        shutil.rmtree(folder, ignore_errors=True)
        shutil.copytree(first, folder)
        open(folder + '.errors', 'w').close()
        joined, load = joined_in(folder), Short(random.Random(refused))
        hub = Hub(floorhub, folder, words=words, variables={**variables, 'REFUSE': str(refused)}, wait=False)
        try:
            try:
                hub.ready()
            except Failed as failed:
                if hub.process.wait(20) != 1 or not hub.told().endswith('floorhub: Memory\n'):
                    raise Failed('allocation %d: %s' % (refused, failed)) from None
                counts['not started'] += 1
            else:
                load.run()
                if stops:
                    return hub.stop()
                if hub.process.poll() is not None and not hub.told().endswith('floorhub: Memory\n'):
                    raise Failed('allocation %d: it ended by itself: %s' % (refused, hub.told()[-200:]))
                counts['broken off' if 'broken off' in hub.told() else 'nothing told'] += 1
        finally:
            if hub.process.poll() is None:
                hub.kill()
            hub.close()
        for conference in CONFERENCES:
            if len(lines_of(folder, conference)) < before[conference]:
                raise Failed('allocation %d: conference %d has lost events' % (refused, conference))
        check_heard(floorsim, folder, load, joined)
        by_file = {conference: floors_by(floorsim, folder, conference) for conference in CONFERENCES}
        hub = Hub(floorhub, folder, words=words)
        try:
            control = hub.control()
            now = {conference: floors_now(control, conference) for conference in CONFERENCES}
            control.close()
        finally:
            hub.kill()
        if now != by_file:
            raise Failed('allocation %d: the files say "%s", the server "%s"' % (refused, by_file, now))

    once(0, stops=True)
    with open(variables['REFUSE_COUNT']) as file:
        last = int(file.read())
    for refused in range(1, last + 1, EVERY):
        once(refused)
    return '%d allocations, each %dth: %s' % (last, EVERY, ', '.join('%d %s' % (n, it) for it, n in counts.items()))


def copied(floorhub, floorsim, base):
    """A copy of the folder, taken at any time under load: each file is a beginning of what it became, and goes on."""
    folder = os.path.join(base, 'copied')
    os.makedirs(folder)
    hub, copies = Hub(floorhub, folder, words=('--grace', '60')), []
    try:
        load = Load(hub, random.Random(SEED))
        for k in range(5):
            load.run(0.2)
            copies.append(os.path.join(base, 'copy%d' % k))
            shutil.copytree(folder, copies[-1])
            load.run(0.05)
    finally:
        hub.kill()
    load.rest()
    for copy in copies:
        for conference in CONFERENCES:
            with open(path_of(copy, conference), 'rb') as early, open(path_of(folder, conference), 'rb') as late:
                if not late.read().startswith(early.read()):
                    raise Failed('%s: conference %d is no beginning of what it became' % (copy, conference))
        goes_on(floorhub, floorsim, copy, CONFERENCES)
    return '%d copies' % len(copies)


def goes_on(floorhub, floorsim, folder, conferences, text=None):
    """A server on the folder has just these conferences, each as its file says, and serves their users."""
    hub = Hub(floorhub, folder, text=text, words=('--grace', '60'))
    try:
        control = hub.control()
        listed = [int(line.split(' ')[1]) for line in control.ask('list')[:-1]]
        if listed != list(conferences):
            raise Failed('%s: it has the conferences %s' % (folder, listed))
        for conference in set(CONFERENCES) & set(conferences):
            # The torn end of a copy is cut off by now.
            by_file, now = floors_by(floorsim, folder, conference), floors_now(control, conference)
            if now != by_file:
                raise Failed('%s: the file says "%s", the server "%s"' % (folder, by_file, now))
            client = Client(conference, USERS[1], 0, random.Random(0))
            if not select.select([client.socket], [], [], 20)[0] or not client.socket.recv(48):
                raise Failed('%s: user %d of conference %d is not let in' % (folder, USERS[1], conference))
            client.socket.close()
        control.close()
    finally:
        hub.kill()


def moved(floorhub, floorsim, base):
    """A conference is moved to another server by its file; the others stay."""
    here, there = made(floorhub, base, 'moved'), os.path.join(base, 'there')
    os.makedirs(there)
    hub = Hub(floorhub, there, text=table(9, False))
    answer, status = hub.stop()
    if status != 0:
        raise Failed('the other server ends with %d: %s' % (status, answer))
    os.rename(path_of(here, 2), path_of(there, 2))
    goes_on(floorhub, floorsim, here, (1, 3), table(1) + table(3))
    goes_on(floorhub, floorsim, there, (2, 9), table(9, False))
    return 'each as its file says'


CASES = (kills, slow, torn, flipped, renames, closed, full, unwritable, two, epoch, orderly, many, check, copied, moved, memory)


def main():
    floorhub, floorsim, *names = sys.argv[1:]
    status = 0
    with tempfile.TemporaryDirectory(prefix='kept-') as base:
        for case in CASES:
            if names and case.__name__ not in names:
                continue
            begun = time.monotonic()
            try:
                said = case(floorhub, os.path.abspath(floorsim), base)
                print('%s: %s, %.0f s' % (case.__name__, said, time.monotonic() - begun), flush=True)
            except Failed as failed:
                status = 1
                print('%s: FAILED: %s' % (case.__name__, failed), flush=True)
                kept = tempfile.mkdtemp(prefix='kept-failed-')
                shutil.copytree(base, kept, dirs_exist_ok=True, symlinks=True,
                                ignore=shutil.ignore_patterns('*.control', 'disk', 'readonly'))
                print('its folders are in %s' % kept, flush=True)
    return status


if __name__ == '__main__':
    sys.exit(main())
