#!/usr/bin/env python3
"""examples/bridge.py while people come and go, and while it is killed: ./bridge.py FLOORHUB [KILLS [SEED [CLICKS]]]

Starts a floorhub with a control socket and a door by id, and the bridge beside it. First it clicks: in a meeting of
its own somebody without BFCP asks for the screen, which has no chair, or a moderator grants the microphone, so many
times each (1,000); how long it takes from the click, which is a request of HTTP, to the line by which the bridge
switches is told at p50 and p99. Beside it, and from then on, people come to other meetings and go: some speak BFCP at
the door, for others the bridge asks; they ask, give back, are granted and denied, are shown out (then their
connections end), and meetings end and are opened anew.

Then the bridge is killed (SIGKILL) so many times (200), at any moment, and started again: how long it takes until it
serves is told at p50 and p99. Each time its picture of each meeting, the people, the requests with their statuses and
the place up to which it was told, is taken down. In the end each is compared with what floorhub told another client
that watched each conference from its first place on; and so is each switch: of each start the first ones of a
conference have to be all holders, and from then on no change of holders may be missing, doubled or at another place.
And once nobody does anything, its picture has to be what `floors` and `words` answer. Status 1 where anything is
otherwise.
"""
import collections
import http.client
import json
import multiprocessing
import os
import random
import select
import signal
import socket
import struct
import subprocess
import sys
import tempfile
import threading
import time

from messages import (FLOOR_RELEASE, FLOOR_REQUEST, FLOOR_REQUEST_ID, FLOOR_REQUEST_STATUS, HELLO, floors, message,
                      number)
from server import Control, Server, connect, hear, header_by_id

DOOR, PORT = 24010, 24011
BRIDGE = os.path.join(os.path.dirname(os.path.abspath(__file__)), '../examples/bridge.py')
MEETINGS, DEADLINE = 4, 30
MICROPHONE, SCREEN = 1, 2
ONGOING = {'Pending', 'Accepted', 'Granted'}
PARTS = {'holders': 'Granted', 'waiting': 'Accepted', 'pending': 'Pending'}


class Failed(Exception):
    """What was otherwise."""


class Signalling:
    """Asks the bridge by HTTP, on one connection that is made anew where the bridge was killed."""

    def __init__(self):
        self.connection = None

    def send(self, method, path, given=None):
        self.connection = self.connection or http.client.HTTPConnection('127.0.0.1', PORT, timeout=DEADLINE)
        self.connection.request(method, path, None if given is None else json.dumps(given))

    def answer(self):
        """The status and the answer."""
        response = self.connection.getresponse()
        return response.status, json.loads(response.read())

    def ask(self, method, path, given=None):
        """The same of a request; none where the bridge was killed before its answer came."""
        try:
            self.send(method, path, given)
            return self.answer()
        except (OSError, http.client.HTTPException, ValueError):
            self.connection.close()
            self.connection = None
            time.sleep(0.01)
            return None, None


class Person:
    """Somebody at the door, who speaks BFCP."""

    def __init__(self, conference, user):
        self.conference, self.user = conference, user
        self.socket = connect(DOOR)
        self.socket.settimeout(DEADLINE)
        self.socket.sendall(header_by_id('%d.%d' % (conference, user)) + message(HELLO, conference, 1, user))
        self.is_in = len(hear(self.socket, 48)) == 48

    def ask(self, primitive, payload):
        """The answer's primitive and payload; none where the stream ended."""
        self.socket.sendall(message(primitive, self.conference, 2, self.user, payload))
        while True:
            head = hear(self.socket, 12)
            if len(head) < 12:
                return None, None
            payload = hear(self.socket, 4 * struct.unpack('>H', head[2:4])[0])
            if head[8:10] == b'\0\2':
                return head[1], payload

    def is_ended(self):
        """Waits for the end of the stream."""
        try:
            while self.socket.recv(65536):
                pass
        except TimeoutError:
            return False
        except OSError:
            pass
        return True


class Life:
    """The people of one meeting at a time, until it is over."""

    def __init__(self, name, seed, counts):
        self.name, self.chance, self.counts = name, random.Random(seed), counts
        self.signalling = Signalling()
        self.people = {}

    def ask(self, method, what, given=None):
        status, answer = self.signalling.ask(method, '/%s%s' % (self.name, what), given)
        self.counts['%s %s' % (method, status or 'killed')] += 1
        return answer if status == 200 else None

    def step(self):
        chance = self.chance
        if len(self.people) < 2 or chance.random() < 0.15 and len(self.people) < 12:
            self.come()
        elif chance.random() < 0.003:
            for user in list(self.people):
                self.go(user)
        elif chance.random() < 0.1:
            self.go(chance.choice(list(self.people)))
        else:
            user = chance.choice(list(self.people))
            person = self.people[user]
            if person and person.is_in:
                self.by_bfcp(user, person)
            else:
                self.by_the_bridge(user)

    def come(self):
        came = self.ask('POST', '/people', {'name': 'N%d' % self.chance.randrange(1000)})
        if came:
            person = Person(came['conference'], came['user']) if self.chance.random() < 0.4 else None
            self.people[came['user']] = person

    def go(self, user):
        """Goes, or is shown out: whose connection is still there has it ended."""
        person = self.people[user]
        if person and self.chance.random() < 0.5:
            person.socket.close()
            person = None
        self.ask('DELETE', '/people/%d' % user)
        # Where the bridge was killed before it had done it, somebody may be here still.
        while user in self.here():
            self.ask('DELETE', '/people/%d' % user)
        if person and not person.is_ended():
            raise Failed('user %d of %s is shown out, and the connection stays' % (user, self.name))
        del self.people[user]

    def here(self):
        """The users who are here, as the bridge says once it does."""
        end = time.monotonic() + DEADLINE
        while time.monotonic() < end:
            status, answer = self.signalling.ask('GET', '/' + self.name)
            if status:
                return {int(user) for user in answer['people']} if status == 200 else set()
        raise Failed('the bridge does not answer')

    def by_bfcp(self, user, person):
        chance = self.chance
        try:
            primitive, payload = person.ask(FLOOR_REQUEST, floors(chance.choice((MICROPHONE, SCREEN))))
            if primitive == FLOOR_REQUEST_STATUS and chance.random() < 0.7:
                time.sleep(chance.random() / 100)
                person.ask(FLOOR_RELEASE, number(FLOOR_REQUEST_ID, struct.unpack('>H', payload[2:4])[0]))
            self.counts['BFCP %s' % primitive] += 1
        except OSError:
            primitive = None
        if primitive is None:
            raise Failed('the connection of user %d of %s has ended' % (user, self.name))
        if chance.random() < 0.1:
            person.socket.close()
            self.people[user] = Person(person.conference, user)

    def by_the_bridge(self, user):
        picture = self.ask('GET', '')
        if not picture:
            return
        requests = {int(it): words for it, words in picture['requests'].items()}
        pending = [it for it, words in requests.items() if words[1] == 'Pending']
        given_back = [it for it, words in requests.items() if words[0] == user]
        chance = self.chance.random()
        if chance < 0.4:
            self.ask('POST', '/requests', {'user': user, 'floor': self.chance.choice((MICROPHONE, SCREEN))})
        elif chance < 0.7 and pending:
            self.ask('POST', '/decisions', {
                'request': self.chance.choice(pending), 'verdict': self.chance.choice(('grant', 'grant', 'deny')),
                'reason': 'r\u00e4' * self.chance.randrange(9)})
        elif given_back:
            self.ask('DELETE', '/requests/%d' % self.chance.choice(given_back))


def live(seed, over, results):
    """The people of all meetings but one, each meeting in a thread."""
    counts, faults = collections.Counter(), []

    def one(name, seed):
        life = Life(name, seed, counts)
        try:
            while not over.is_set():
                life.step()
                time.sleep(life.chance.random() / 50)
        except Exception as fault:
            faults.append('%s: %s: %s' % (name, type(fault).__name__, fault))
    threads = [threading.Thread(target=one, args=('m%d' % k, '%d %d' % (seed, k)), daemon=True)
               for k in range(MEETINGS)]
    for thread in threads:
        thread.start()
    for thread in threads:
        thread.join()
    results.put((dict(counts), faults))


class Started:
    """A bridge that runs, and what it prints: the words of each line."""

    def __init__(self, path):
        began = time.monotonic()
        self.process = subprocess.Popen([sys.executable, BRIDGE, path, str(DOOR), str(PORT)], stdout=subprocess.PIPE)
        self.heard, self.lines, self.place = b'', [], 0
        while ['ready'] not in self.lines:
            self.read(DEADLINE)
        self.took = time.monotonic() - began

    def read(self, seconds):
        """Reads what there is, or waits for it."""
        if not select.select([self.process.stdout], [], [], seconds)[0]:
            if seconds:
                raise Failed('the bridge prints nothing')
            return
        piece = os.read(self.process.stdout.fileno(), 1 << 16)
        if not piece:
            raise Failed('the bridge has ended')
        *lines, self.heard = (self.heard + piece).split(b'\n')
        self.lines += [line.decode().split() for line in lines]

    def switched(self, words):
        """Waits until it switches so, at whatever place, behind the last time that this was waited for."""
        while True:
            for line in self.lines[self.place:]:
                self.place += 1
                if line[0] == 'switch' and [line[1], *line[3:]] == words:
                    return
            self.read(DEADLINE)

    def kill(self):
        self.process.kill()
        try:
            while True:
                self.read(DEADLINE)
        except Failed:
            self.process.wait()


def clicks(bridge, count):
    """How long it takes from a click to the switch, in ms: of the screen, and of a moderator's word."""
    signalling, took = Signalling(), ([], [])

    def timed(times, method, path, given, words):
        began = time.perf_counter()
        signalling.send(method, path, given)
        bridge.switched(words)
        times.append(1000 * (time.perf_counter() - began))
        status, answer = signalling.answer()
        if status != 200:
            raise Failed('%s %s is answered by %s' % (method, path, answer))
        return answer

    def asked(method, path, given=None):
        status, answer = signalling.ask(method, '/clicks' + path, given)
        if status != 200:
            raise Failed('%s %s is answered by %s' % (method, path, answer))
        return answer
    asked('POST', '/people', {'name': 'Ann'})
    came = asked('POST', '/people', {'name': 'Ben'})
    conference, user = str(came['conference']), came['user']
    for _ in range(count):
        answer = timed(took[0], 'POST', '/clicks/requests', {'user': user, 'floor': SCREEN},
                       [conference, '2', str(user), 'on'])
        asked('DELETE', '/requests/%d' % answer['request'])
        bridge.switched([conference, '2', str(user), 'off'])
        request = asked('POST', '/requests', {'user': user, 'floor': MICROPHONE})['request']
        timed(took[1], 'POST', '/clicks/decisions', {'request': request, 'verdict': 'grant'},
              [conference, '1', str(user), 'on'])
        asked('DELETE', '/requests/%d' % request)
        bridge.switched([conference, '1', str(user), 'off'])
    for user in came['user'] - 1, came['user']:
        asked('DELETE', '/people/%d' % user)
    return took


class Watched:
    """What floorhub tells a client that watches all conferences from their first places on."""

    def __init__(self, path):
        self.control, self.watched = Control(path), set()
        self.lock = threading.Lock()
        self.goes_on = True
        self.thread = threading.Thread(target=self.run, daemon=True)
        self.thread.start()

    def run(self):
        while self.goes_on:
            with self.lock:
                for line in self.control.ask('list')[:-1]:
                    conference = int(line.split()[1])
                    if conference not in self.watched:
                        self.control.ask('watch %d from 1' % conference)
                        self.watched.add(conference)
            time.sleep(0.01)

    def ask(self, line):
        with self.lock:
            return self.control.ask(line)

    def end(self):
        """For each conference, by place, the requests with their users, statuses and floors behind it."""
        self.goes_on = False
        self.thread.join()
        states = collections.defaultdict(lambda: [(0, {})])
        for line in self.control.live:
            mark, conference, place, kind, *words = line.split()
            if mark != '!':
                continue
            told = states[int(conference)]
            if told[-1][0] != int(place):
                told.append((int(place), dict(told[-1][1])))
            if kind == 'closed':
                told[-1][1].clear()
            elif kind == 'request':
                at = words.index('floors')
                status = words[at - 1].split(':')[0]
                told[-1][1][int(words[0])] = [int(words[2]), status, [int(it.split(':')[0]) for it in words[at + 1:-2]]]
                if status not in ONGOING:
                    del told[-1][1][int(words[0])]
        return states


def at(states, place):
    """The requests behind a place."""
    low, high = 0, len(states)
    while high - low > 1:
        middle = (low + high) // 2
        low, high = (middle, high) if states[middle][0] <= place else (low, middle)
    return states[low][1]


def holders(requests):
    return {(floor, user) for user, status, named in requests.values() if status == 'Granted' for floor in named}


def stands(lines):
    """The requests as `floors` has them."""
    requests = {}
    for line in lines[:-1]:
        floor, part = int(line.split()[1]), None
        for word in line.split()[6:]:
            if word in PARTS:
                part = PARTS[word]
            else:
                request, user = map(int, word.split(':'))
                requests.setdefault(request, [user, part, []])[2].append(floor)
    return requests


def pictures(watched):
    """The bridge's picture of each meeting that there is, with its conference and its place."""
    signalling, taken = Signalling(), []
    for conference in [int(line.split()[1]) for line in watched.ask('list')[:-1] if line.endswith(' open')]:
        name = bytes.fromhex(watched.ask('users %d' % conference)[0].split()[-1]).decode()
        status, picture = signalling.ask('GET', '/' + name)
        # It may have ended, and have been opened anew, meanwhile.
        if status == 200 and picture['conference'] == conference:
            taken.append((conference, picture['place'], {int(it): words for it, words in picture['requests'].items()}))
    return taken


def still(watched):
    """Compares the bridge's pictures with what floorhub says, now that nobody does anything."""
    signalling = Signalling()
    for conference, place, requests in pictures(watched):
        lines = watched.ask('floors %d' % conference)
        if requests != stands(lines):
            raise Failed('of conference %d at %d the bridge has %s, and `floors` %s' % (
                conference, place, requests, lines))
        name = bytes.fromhex(watched.ask('users %d' % conference)[0].split()[-1]).decode()
        people = signalling.ask('GET', '/' + name)[1]['people']
        people = ['word %s %s' % (user, text.encode().hex()) for user, text in people.items()]
        if sorted(people) != sorted(watched.ask('words %d' % conference)[:-1]):
            raise Failed('of conference %d the bridge has the people %s' % (conference, people))


def switches(starts, states):
    """Compares what each bridge has switched with what was told; how many switches."""
    count = 0
    for lines in starts:
        on, last = collections.defaultdict(set), {}
        for k, line in enumerate(lines):
            if line[0] != 'switch':
                continue
            count += 1
            conference, place, floor, user = map(int, line[1:5])
            on[conference] ^= {(floor, user)}
            if ((floor, user) in on[conference]) != (line[5] == 'on'):
                raise Failed('%s is doubled' % ' '.join(line))
            following = next((it for it in lines[k + 1:] if it[0] == 'switch' and it[1] == line[1]), None)
            if following and following[2] == line[2] or conference not in states:
                continue
            if not following and k > len(lines) - 4:
                continue  # It may have been killed in the middle of a place.
            told = states[conference]
            if on[conference] != holders(at(told, place)):
                raise Failed('behind "%s" %s are on, and %s hold' % (
                    ' '.join(line), on[conference], holders(at(told, place))))
            for between, requests in told:
                since, before = last.get(conference, (place, None))
                if since < between < place and holders(requests) != before:
                    raise Failed('before "%s" the change at %d is missing' % (' '.join(line), between))
            last[conference] = place, set(on[conference])
    return count


def told(times):
    times = sorted(times)
    return 'p50 %.2f ms, p99 %.2f ms' % (times[len(times) // 2], times[len(times) * 99 // 100])


def run(floorhub, kills, seed, count, folder):
    path = os.path.join(folder, 'control')
    server = Server(floorhub, 'conference = []\n', words=('--control', path, '--door-by-id', str(DOOR)))
    try:
        measure(path, kills, seed, count)
    except BaseException:
        server.process.kill()
        raise
    answer, status = server.stop()
    if not answer.startswith('ok stopped') or status:
        raise Failed('the report is %s, status %d' % (answer, status))


def measure(path, kills, seed, count):
    chance = random.Random(seed)
    watched, bridge = Watched(path), Started(path)
    over, results = multiprocessing.Event(), multiprocessing.Queue()
    living = multiprocessing.Process(target=live, args=(seed, over, results), daemon=True)
    living.start()
    screen, word = clicks(bridge, count)
    print('from a click to the switch: %s for the screen, %s for a moderator\'s word (%d each)' % (
        told(screen), told(word), count), flush=True)
    starts, taken, back = [], [], []
    for _ in range(kills):
        end = time.monotonic() + 0.4 * chance.random()
        while time.monotonic() < end:
            bridge.read(0)
            time.sleep(0.01)
        bridge.kill()
        starts.append(bridge.lines)
        bridge = Started(path)
        back.append(1000 * bridge.took)
        taken += pictures(watched)
    over.set()
    counts, faults = results.get(timeout=60)
    if faults:
        raise Failed('; '.join(faults))
    before = None
    while before != watched.ask('list'):
        before = watched.ask('list')
        time.sleep(3)
    still(watched)
    taken += pictures(watched)
    time.sleep(0.5)
    bridge.read(0)
    bridge.kill()
    starts.append(bridge.lines)
    states = watched.end()
    wrong = [it for it in taken if it[0] in states and at(states[it[0]], it[1]) != it[2]]
    if wrong:
        raise Failed('%d pictures of %d are otherwise: of conference %d at %d %s, where %s was told' % (
            len(wrong), len(taken), *wrong[0], at(states[wrong[0][0]], wrong[0][1])))
    print('killed %d times: back after %s; %d pictures and %d switches are what floorhub has told, of %d conferences; '
          '%s' % (kills, told(back), len(taken), switches(starts, states), len(states),
                  ', '.join('%s: %d' % it for it in sorted(counts.items()))), flush=True)


def main():
    if len(sys.argv) < 2:
        raise SystemExit(__doc__)
    kills = int(sys.argv[2]) if len(sys.argv) > 2 else 200
    seed = int(sys.argv[3]) if len(sys.argv) > 3 else 1
    count = int(sys.argv[4]) if len(sys.argv) > 4 else 1000
    with tempfile.TemporaryDirectory(prefix='bridge-') as folder:
        try:
            run(sys.argv[1], kills, seed, count, folder)
        except (Failed, OSError, SystemExit) as fault:
            raise SystemExit('FAILED: %s' % fault)


if __name__ == '__main__':
    main()
