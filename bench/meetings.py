#!/usr/bin/env python3
"""clients/python/examples/bridge.py while people come and go, and while it is killed: ./meetings.py FLOORHUB [KILLS [SEED [CLICKS]]]

What bridge.py here is for examples/bridge.py: first it clicks, so many times (1,000), and tells how long it takes from a
click to the switch. Then people come to meetings and go, with BFCP by the door and without, ask, are decided on and are shown
out, while the bridge is killed (SIGKILL) so many times (200), at any moment, and started again: how long that takes is told at
p50 and p99. In the end each of its switches is compared with what floorhub told another client that watched all from the
first place on: of each start the first ones of a conference have to be all holders, and from then on no change of holders may
be missing, doubled or at another place; and each picture that it gave has to be what was told up to its place. Status 1
where anything is otherwise.
"""
import collections
import json
import multiprocessing
import os
import random
import subprocess
import sys
import tempfile
import threading
import time

import bridge
from bridge import DOOR, MEETINGS, PORT, Life, Signalling, Started, at, clicks, holders, switches, told
from methods import Client, Failed
from server import Server

ROOT = os.path.join(os.path.dirname(os.path.abspath(__file__)), '..')
BRIDGE = os.path.join(ROOT, 'clients/python/examples/bridge.py')


def requests_in(picture):
    return {it['request']: [it['user'], it['status'], [of['floor'] for of in it['floors']]] for it in picture}


class Meeting(Life):
    """The people of one meeting at a time."""

    def here(self):
        end = time.monotonic() + bridge.DEADLINE
        while time.monotonic() < end:
            status, answer = self.signalling.ask('GET', '/' + self.name)
            if status:
                return {it['user'] for it in answer['users'][1:] if not it['removed']} if status == 200 else set()
        raise Failed('the bridge does not answer')

    def ask(self, method, what, given=None):
        answer = super().ask(method, what, given)
        if answer and 'requests' in answer:
            answer['requests'] = requests_in(answer['requests'])
        return answer


def live(seed, over, results):
    """The people of all meetings but one, each meeting in a thread."""
    counts, faults = collections.Counter(), []

    def one(name, seed):
        life = Meeting(name, seed, counts)
        try:
            while not over.is_set():
                life.step()
                time.sleep(life.chance.random() / 50)
        except Exception as fault:
            faults.append('%s: %s: %s' % (name, type(fault).__name__, fault))
    threads = [threading.Thread(target=one, args=('m%d' % k, '%d %d' % (seed, k)), daemon=True) for k in range(MEETINGS)]
    for thread in threads:
        thread.start()
    for thread in threads:
        thread.join()
    results.put((dict(counts), faults))


class Start(Started):
    """A bridge that runs, and what it prints."""

    def __init__(self, path):
        began = time.monotonic()
        variables = {**os.environ, 'PYTHONPATH': os.path.join(ROOT, 'clients/python')}
        self.process = subprocess.Popen([sys.executable, BRIDGE, path, str(PORT)], stdout=subprocess.PIPE, env=variables)
        self.heard, self.lines, self.place = b'', [], 0
        while ['ready'] not in self.lines:
            self.read(bridge.DEADLINE)
        self.took = time.monotonic() - began


class Watched:
    """What floorhub tells a client that watches all: for each conference, by place, the requests behind it."""

    def __init__(self, path):
        self.client, self.asking = Client(path), Client(path)
        self.client.done('watch', {'all': True})
        self.states = collections.defaultdict(lambda: [(0, {})])
        self.thread = threading.Thread(target=self.run, daemon=True)
        self.thread.start()

    def run(self):
        for line in self.client.heard:
            told = json.loads(line)
            if told.get('method') != 'event':
                continue
            event = told['params']
            states = self.states[event['conference']]
            requests = {**states[-1][1], **requests_in(event['requests'])}
            if event['what']['event'] == 'closed':
                requests = {}
            states.append((event['place'], {it: words for it, words in requests.items() if words[1] in bridge.ONGOING}))


def pictures(watched):
    """What the bridge gives of each meeting, with its conference and its place."""
    signalling, taken = Signalling(), []
    for it in watched.asking.done('conference.list')['conferences']:
        status, picture = signalling.ask('GET', '/%s' % it['title']) if it['phase'] == 'open' else (None, None)
        if status == 200:
            taken.append((picture['conference'], picture['next'] - 1, requests_in(picture['requests'])))
    return taken


def measure(path, kills, seed, count):
    chance = random.Random(seed)
    watched, running = Watched(path), Start(path)
    over, results = multiprocessing.Event(), multiprocessing.Queue()
    living = multiprocessing.Process(target=live, args=(seed, over, results), daemon=True)
    living.start()
    screen, word = clicks(running, count)
    print('from a click to the switch: %s for the screen, %s for a moderator\'s word (%d each)' % (
        told(screen), told(word), count), flush=True)
    starts, taken, back = [], [], []
    for _ in range(kills):
        end = time.monotonic() + 0.4 * chance.random()
        while time.monotonic() < end:
            running.read(0)
            time.sleep(0.01)
        running.kill()
        starts.append(running.lines)
        running = Start(path)
        back.append(1000 * running.took)
        taken += pictures(watched)
    over.set()
    counts, faults = results.get(timeout=60)
    if faults:
        raise Failed('; '.join(faults))
    before = None
    while before != (before := watched.asking.done('conference.list')):
        time.sleep(2)
    taken += pictures(watched)
    time.sleep(0.5)
    running.read(0)
    last = collections.defaultdict(set)
    for line in running.lines:
        if line[0] == 'switch':
            last[int(line[1])] ^= {(int(line[3]), int(line[4]))}
    states = watched.states
    for conference, place, _ in pictures(watched):
        if last[conference] != holders(at(states[conference], place)):
            raise Failed('in conference %d %s are on, and %s hold' % (
                conference, last[conference], holders(at(states[conference], place))))
    running.kill()
    starts.append(running.lines)
    wrong = [it for it in taken if at(states[it[0]], it[1]) != it[2]]
    if wrong:
        raise Failed('%d pictures of %d are otherwise: of conference %d at %d %s, where %s was told' % (
            len(wrong), len(taken), *wrong[0], at(states[wrong[0][0]], wrong[0][1])))
    print('killed %d times: back after %s; %d pictures and %d switches are what floorhub has told, of %d conferences; %s' % (
        kills, told(back), len(taken), switches(starts, states), len(states),
        ', '.join('%s: %d' % it for it in sorted(counts.items()))), flush=True)


def main():
    if len(sys.argv) < 2:
        raise SystemExit(__doc__)
    kills, seed, count = (int(sys.argv[k]) if len(sys.argv) > k else default for k, default in ((2, 200), (3, 1), (4, 1000)))
    with tempfile.TemporaryDirectory(prefix='meetings-') as folder:
        path = os.path.join(folder, 'control')
        server = Server(sys.argv[1], 'conference = []\n', words=('--control', path, '--door-by-id', str(DOOR)))
        try:
            measure(path, kills, seed, count)
        except (Failed, bridge.Failed, OSError, SystemExit) as fault:
            raise SystemExit('FAILED: %s' % fault)
        finally:
            server.process.kill()


if __name__ == '__main__':
    main()
