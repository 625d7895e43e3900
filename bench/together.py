#!/usr/bin/env python3
"""Two programs and a console at one floorhub: ./together.py FLOORHUB FLOORSIM [SECONDS [SEED]]

For so many seconds (600) two clients of the control socket and a console open, close, forget and change the same
conferences, watch them, and ask how they stand, several lines at a time, while members come to them by a door, ask
for floors, decide and go. Each answer has to stand at its own line, which its tag says, and to be one that the line
may have.

In the end, of each conference the journal says what every line should have been. reckoning.py, which is written a
second time from RFC 8855 and docs/protocol.md, reckons what each event shows, and how the conference stands behind
it. Each client's live lines are compared with that, from the place on from which it watched; each ` at <place>` with
the event there, and with what the client had been sent by then; what `floors`, `users`, `members`, `list`, `status`
and `journal` answered with how the conference stood at their place. And floorsim runs the same journals, up to so many
events in all (20,000), and has to tell members each status that was reckoned. Status 1 where anything is otherwise.
"""
import collections
import multiprocessing
import os
import random
import re
import select
import socket
import struct
import sys
import tempfile
import time

import reckoning
import replay
from messages import (BENEFICIARY_ID, CHAIR_ACTION, FLOOR_QUERY, FLOOR_RELEASE, FLOOR_REQUEST, FLOOR_REQUEST_ID, HELLO,
                      PRIORITY, attribute, floors, message, number, verdict)
from server import Control, Server, connect, header_by_id

DOOR, DEADLINE, QUIET = 24500, 60, 20
USERS, FLOORS = range(10, 16), range(1, 5)
FIRST, RUNNING, MEMBERS = 10, 6, 5
SIMULATED = 20_000


class Failed(Exception):
    """What was otherwise."""


def table(conference):
    """A conference's table: user 10 may ask for others, floors 1 and 4 have chairs, floor 2 has room for two."""
    rows = ['[[conference]]\nid = %d\nlimit = 3\n' % conference]
    for user in USERS:
        rows.append('[[conference.user]]\nid = %d\nproxy = %s\n%s' % (
            user, str(user == 10).lower(), 'name = "N %d"\n' % user if user % 2 else ''))
    for floor in FLOORS:
        rows.append('[[conference.floor]]\nid = %d\nroom = %d\n%s' % (
            floor, 1 + (floor == 2), 'chair = %d\n' % (9 + floor) if floor in (1, 4) else ''))
    return ''.join(rows)


# What a line may be answered by: an `ok`, with the place behind it, or one of some refusals.
MAY = {
    'open': ('ok opened 1', 'Used'),
    'close': (r'ok closed {0} at \d+', 'Ended'),
    'revoke': (r'ok revoked {0} {1} at \d+', 'Ended', 'NoRequest'),
    'user': (r'ok user {0} {1} at \d+', 'Ended', 'DoubleUser', 'OutOfRange'),
    'floor': (r'ok floor {0} {1} at \d+', 'Ended', 'DoubleFloor', 'OutOfRange', 'UnknownChair'),
    'chair': (r'ok chair {0} {1} at \d+', 'Ended', 'NoFloor', 'UnknownChair'),
    'leave': (r'ok left {0} {1} at \d+', 'Ended', 'NoMember'),
    'forget': ('ok forgotten {0}', 'Running', 'Forgotten'),
    'watch': (r'ok watching {0} \d+', 'Watching', 'Forgotten'),
    'unwatch': ('ok unwatched {0}', 'Forgotten'),
    'status': (r'conference {0} members \d+ ongoing \d+ events \d+ (open|ended)', 'Forgotten'),
    'users': (r'end \d+ \d+', 'Forgotten'),
    'members': (r'end \d+ \d+', 'Forgotten'),
    'floors': (r'end \d+ \d+', 'Forgotten'),
    'journal': (r'end \d+', 'Forgotten'),
    'list': (r'end \d+',),
    'word': ('ok word {0} {1}', 'Ended', 'Forgotten'),
    'words': (r'end \d+', 'Ended', 'Forgotten'),
    'metrics': (r'end \d+',),
}
# Lines that are none.
NOTHING = ('nothing', 'close', 'list 1', 'watch', 'floors 1 2')
# What clients ask for, and how often.
SOME = (('status', 4), ('list', 2), ('users', 2), ('members', 5), ('floors', 8), ('revoke', 4), ('user', 1),
        ('floor', 1), ('chair', 2), ('leave', 2), ('watch', 5), ('unwatch', 1), ('word', 1), ('words', 1),
        ('journal', 0.2), ('metrics', 0.2), ('nothing', 0.3))
# What stands in the lists.
ROWS = {
    'users': r'user \d+( proxy)?( port \d+)?( name [0-9a-f]+)?',
    'members': r'member \d+ user \d+ behind \d+( cut)?',
    'floors': r'floor \d+ room \d+ chair (\d+|-)( (holders|waiting|pending)( \d+:\d+)+)*',
    'journal': r'\d+ (join|message|took|leave|revoke|close|user|floor|chair)( .*)?',
    'list': r'conference \d+ members \d+ ongoing \d+ events \d+ (open|ended)',
    'words': r'word \S+ [0-9a-f]+',
    'metrics': '(# |floorhub_).*',
}
# How an act stands in the journal, by the words of its answer.
EVENTS = {'closed': 'close', 'revoked': 'revoke {1}', 'user': 'user {1} ', 'floor': 'floor {1} ', 'chair': 'chair {1} ',
          'left': 'leave {1}'}


def fits(line, answer):
    """Whether an answer may be one of the line."""
    if line in NOTHING:
        return answer == ['error UnknownCommand']
    words = line.split('\n')[0].split()
    ok, *refusals = MAY[words[0]]
    if answer[-1].startswith('error '):
        return len(answer) == 1 and answer[0][6:] in (*refusals, 'NoConference')
    rows = answer[:-1]
    if words[0] in ROWS:
        if any(not re.fullmatch(ROWS[words[0]], row) for row in rows):
            return False
        if words[0] != 'journal' and int(answer[-1].split()[1]) != len(rows):
            return False
    elif rows:
        return False
    return bool(re.fullmatch(ok.format(*words[1:]), answer[-1]))


def some_line(chance, latest, last):
    """A line of a client's, about some conference of those that are at work, or were."""
    at = latest - chance.randrange(RUNNING + 2) if chance.random() < 0.97 else chance.choice((1, latest + 3))
    kind = chance.choices(*zip(*SOME))[0]
    if kind in ('list', 'metrics'):
        return kind
    if kind == 'nothing':
        return chance.choice(NOTHING)
    line = '%s %d' % (kind, at)
    user = chance.randrange(9, 40)
    if kind == 'revoke':
        line += ' %d' % max(1, last - chance.randrange(20))
    elif kind == 'user':
        line += ' %d%s%s' % (user, chance.choice(('', ' proxy')),
                             chance.choice(('', ' name A b', ' name ' + '\u00e4' * 16)))
    elif kind == 'floor':
        line += ' %d%s%s' % (chance.randrange(1, 9), chance.choice(('', ' room 2')),
                             chance.choice(('', ' chair %d' % user)))
    elif kind == 'chair':
        line += ' %d%s' % (chance.randrange(1, 7), chance.choice(('', ' 10', ' 12', ' %d' % user)))
    elif kind == 'leave':
        line += ' %d' % chance.randrange(1, 60)
    elif kind == 'word':
        line += ' k%d %s' % (chance.randrange(4), chance.choice(('-', '00', 'ff41')))
    elif kind == 'watch':
        line += chance.choice(('', ' from 1', ' from 1', ' from %d' % chance.randrange(1, 30)))
    return line


class Client:
    """A client of the control socket, and all that it was answered and told."""

    def __init__(self, path, seed, latest):
        self.control, self.chance, self.latest = Control(path, DEADLINE), random.Random(seed), latest
        self.last, self.asking = 1, None
        self.counts = collections.Counter()
        # By conference, of each time that it watched: the first place, the line from which on and up to which.
        self.watched = collections.defaultdict(list)
        # (conference, place, act's words, how many live lines had come, the first place and the line from which on it
        # watched or none), and (kind, conference, place, rows).
        self.acts, self.stood = [], []
        # Those that it has closed and that nobody has forgotten, and the journals of those that it tried to forget.
        self.closed, self.journals = [], {}

    def step(self):
        chance, latest = self.chance, self.latest.value
        lines = [some_line(chance, latest, self.last) for _ in range(chance.choice((1, 1, 2, 5, 20)))]
        if chance.random() < 0.15:
            lines.append(self.opened(latest))
        if chance.random() < 0.1:
            lines.append('close %d' % (latest - RUNNING + chance.randrange(3)))
        tags = [self.control.send(line) for line in lines]
        for line, tag in zip(lines, tags):
            self.asking = line
            self.take(line, self.control.answer(tag))
        for conference in [it for it in self.closed if chance.random() < 0.3]:
            self.forget(conference)
        if chance.random() < 0.3:
            self.control.listen(0.02 * chance.random())

    def opened(self, latest):
        """`open .` of the next conference, which others open too."""
        return 'open .\n%s.' % table(latest + 1)

    def take(self, line, answer):
        if not fits(line, answer):
            # A place beyond what is there, of `watch`.
            if not (' from ' in line and answer == ['error BadPlace']):
                raise Failed('"%s" is answered by %s' % (line[:60], answer[-3:]))
        words, last = line.split(), answer[-1].split()
        self.counts['%s %s' % (words[0], last[1] if last[0] == 'error' else 'ok')] += 1
        if last[0] == 'error':
            return
        if words[0] == 'open':
            with self.latest.get_lock():
                self.latest.value = max(self.latest.value, int(re.search(r'id = (\d+)', line)[1]))
        elif words[0] == 'watch':
            place = int(words[3]) if len(words) > 2 else int(last[3])
            self.watched[int(words[1])].append([place, len(self.control.live), None])
        elif words[0] == 'unwatch' and self.watched[int(words[1])]:
            segment = self.watched[int(words[1])][-1]
            segment[2] = len(self.control.live) if segment[2] is None else segment[2]
        elif last[0] == 'ok' and ' at ' in answer[-1]:
            if words[0] == 'close':
                self.closed.append(int(last[2]))
            segments = [it for it in self.watched[int(last[2])] if it[2] is None]
            self.acts.append((int(last[2]), int(last[-1]), last[1:-2], len(self.control.live), segments[:1]))
            self.last = int(last[-1]) // 9
        elif words[0] in ('users', 'members', 'floors'):
            self.stood.append((words[0], int(words[1]), int(last[2]) - 1, answer[:-1]))
        elif words[0] in ('list', 'status'):
            for row in answer[:-1] if words[0] == 'list' else answer:
                self.stood.append(('status', int(row.split()[1]), int(row.split()[7]), [row]))
        elif words[0] == 'journal':
            self.stood.append(('journal', int(words[1]), len(answer) - 1, answer[:-1]))

    def forget(self, conference):
        """Forgets a conference that it has closed, whose journal is taken down before; where somebody is in it yet, or
        it is to be forgotten later, it stays among those."""
        journal = self.control.ask('journal %d' % conference)[:-1]
        self.journals[conference] = journal
        # What was asked before it was told is what it watches from the first place, and isn't told of yet.
        lines = ['watch %d from 1' % conference] * (self.chance.random() < 0.5) + ['forget %d' % conference]
        tags = [self.control.send(line) for line in lines]
        for line, tag in zip(lines, tags):
            self.asking = line
            answer = self.control.answer(tag)
            self.take(line, answer)
        if answer[-1].startswith('ok '):
            self.closed.remove(conference)

    def result(self):
        # So long a server that is starved may keep one waiting that is told of thousands of events.
        self.control.settle(QUIET)
        return (self.counts, dict(self.watched), self.acts, self.stood, self.journals, self.control.live)


def program(path, seed, latest, over, still, results):
    """A client until it is over, and what it has seen once nobody does anything."""
    client = Client(path, seed, latest)
    try:
        while not over.wait(client.chance.random() / 50):
            client.step()
        while not still.is_set():
            client.control.listen(0.1)
        results.put(('', client.result()))
    except (OSError, Failed) as fault:
        results.put(('client %s, at "%s": %s' % (seed, client.asking.split('\n')[0], fault), None))


class Member:
    """Somebody at the door, who asks and decides, and doesn't look at what the answers say but for numbers."""

    def __init__(self, chance, conference):
        self.chance, self.conference, self.user = chance, conference, chance.choice(USERS)
        self.socket = connect(DOOR)
        self.socket.sendall(header_by_id('%d.%d' % (conference, self.user)) + message(HELLO, conference, 1, self.user))
        self.socket.setblocking(False)
        self.heard, self.request = b'', 1

    def read(self):
        """Whether the connection goes on."""
        try:
            piece = self.socket.recv(1 << 16)
        except BlockingIOError:
            return True
        except OSError:
            return False
        self.heard = (self.heard + piece)[-4096:]
        at = self.heard.rfind(b'\x1e')
        if 0 <= at < len(self.heard) - 4:
            self.request = struct.unpack('>H', self.heard[at + 2:at + 4])[0] % 1000 or 1
        return bool(piece)

    def step(self):
        """Sends a message."""
        chance = self.chance
        kind = chance.choices((FLOOR_REQUEST, FLOOR_RELEASE, CHAIR_ACTION, FLOOR_QUERY, HELLO), (30, 25, 25, 4, 6))[0]
        payload = b''
        if kind == FLOOR_REQUEST:
            payload = floors(*chance.sample(FLOORS, chance.choice((1, 1, 1, 2, 3))))
            payload += attribute(PRIORITY, bytes([chance.randrange(5) << 5, 0]))
            if chance.random() < 0.3:
                payload += number(BENEFICIARY_ID, chance.choice(USERS))
        elif kind == FLOOR_RELEASE:
            payload = number(FLOOR_REQUEST_ID, max(1, self.request - chance.randrange(3)))
        elif kind == CHAIR_ACTION:
            payload = verdict(max(1, self.request - chance.randrange(6)), chance.choice((1, 4)),
                              chance.choice((2, 3, 3, 4, 7)), *chance.choice(((), (b'soon\n! 1 1 .',))))
        elif kind == FLOOR_QUERY:
            payload = floors(*FLOORS)
        try:
            self.socket.send(message(kind, self.conference, 2, self.user, payload))
        except OSError:
            return False
        return True


def members(seed, latest, over):
    """Members of the conferences that are at work."""
    chance, here = random.Random(seed), []
    while not over.is_set():
        running = range(max(FIRST, latest.value - RUNNING), latest.value + 1)
        if len(here) < MEMBERS * len(running):
            here.append(Member(chance, chance.choice(running)))
        for member in chance.sample(here, min(2, len(here))):
            if chance.random() < 0.01 or not member.step():
                member.socket.close()
        here = [member for member in here if member.socket.fileno() >= 0]
        ready = select.select([member.socket for member in here], [], [], 0)[0]
        for member in here:
            if member.socket in ready and not member.read():
                member.socket.close()
        here = [member for member in here if member.socket.fileno() >= 0]
        time.sleep(0.01)


def console(server, chance, latest, folder, counts):
    """A line of the console's, and its answer."""
    kind = chance.choices(('status', 'close', 'open', 'revoke', 'user', 'chair'), (20, 1, 2, 3, 1, 2))[0]
    at = latest.value - chance.randrange(RUNNING)
    if kind == 'open':
        path = os.path.join(folder, 'more.toml')
        with open(path, 'w') as file:
            file.write(table(latest.value + 1))
        opened, line = latest.value + 1, 'open %s' % path
    else:
        rest = {'revoke': ' %d' % chance.randrange(1, 30), 'user': ' %d' % chance.randrange(9, 40), 'chair': ' 1 11'}
        line = '%s %d%s' % (kind, at - (RUNNING if kind == 'close' else 0), rest.get(kind, ''))
    answer = server.ask(line, DEADLINE)
    words = line.split()
    ok, *refusals = MAY[kind]
    if not (re.fullmatch(ok.replace(r' at \d+', '').format(*words[1:]), answer)
            or answer in ['error ' + it for it in (*refusals, 'NoConference')]):
        raise Failed('the console\'s "%s" is answered by "%s"' % (line, answer))
    if kind == 'open' and answer.startswith('ok'):
        with latest.get_lock():
            latest.value = max(latest.value, opened)
    counts['console: %s %s' % (kind, answer.split()[1] if answer.startswith('error') else 'ok')] += 1


class Journal:
    """A conference's journal, what was reckoned of it, and how it stood at some places."""

    def __init__(self, conference, lines, places):
        self.conference, self.lines, self.stood = conference, lines, {}
        self.live, self.ends = [], [0]
        (self.table,) = reckoning.tables(table(conference)).values()
        reckoned = reckoning.Reckoning(self.table)
        for place in range(len(lines) + 1):
            if place:
                _, *words = lines[place - 1].split(' ')
                self.live += ['! %d %d %s' % (conference, place, it) for it in reckoned.event(*words)]
                self.ends.append(len(self.live))
            if place in places:
                self.stood[place] = {'users': reckoned.user_lines(), 'members': reckoned.member_lines(),
                                     'floors': reckoned.floor_lines(), 'status': [reckoned.status_line()],
                                     'journal': lines[:place]}
        self.is_closed = not reckoned.is_open

    def has_stood(self, kind, place, rows):
        if place not in self.stood:
            raise Failed('%s of conference %d is of place %d, and there are %d events' % (
                kind, self.conference, place, len(self.lines)))
        wanted = self.stood[place][kind]
        if self.is_closed and place == len(self.lines):
            # Who was there when it was closed is disconnected; when, no place says.
            if kind == 'members':
                return
            if kind == 'status':
                rows, wanted = ([re.sub(r'members \d+', '', it) for it in some] for some in (rows, wanted))
        if rows != wanted:
            raise Failed('%s of conference %d at %d are %s, and not %s' % (kind, self.conference, place, rows, wanted))

    def has_told(self, who, lines, segments):
        """Compares a client's live lines of this conference, each with its place among all its lines, with what is
        reckoned; how many."""
        for first, begin, end in segments:
            heard = [line for k, line in lines if begin <= k and (end is None or k < end)]
            wanted = self.live[self.ends[min(first - 1, len(self.lines))]:]
            for k, (one, other) in enumerate(zip(heard, wanted)):
                if one != other:
                    raise Failed('%s, from %d on, line %d: "%s", and not "%s"' % (who, first, k, one, other))
            if len(heard) > len(wanted) or end is None and len(heard) < len(wanted):
                raise Failed('%s, from %d on: %d lines, and not %d; behind "%s" should stand "%s"; it watched %s' % (
                    who, first, len(heard), len(wanted), heard[-1:], wanted[len(heard):][:3], segments))
        count = sum(end is None or k < end for k, _ in lines for _, begin, end in segments if begin <= k)
        if count != len(lines):
            raise Failed('%s has %d lines, of which it watched %d' % (who, len(lines), count))
        return count


def by_conference(rows, conference_of):
    """Rows, each with its place among all, by the conference that they are of."""
    found = collections.defaultdict(list)
    for at, row in enumerate(rows):
        found[conference_of(row)].append((at, row))
    return found


def judge(journals, seen):
    """Compares what the clients have seen with the journals; how many lines and answers."""
    places, counts = collections.defaultdict(set), collections.Counter()
    parted = []
    for _, watched, acts, stood, _, live in seen:
        for _, conference, place, _ in stood:
            places[conference].add(place)
        parted.append((watched, by_conference(acts, lambda act: act[0]), by_conference(stood, lambda row: row[1]),
                       by_conference(live, lambda line: int(line.split(' ', 2)[1]))))
    for conference, lines in sorted(journals.items()):
        journal = Journal(conference, lines, places[conference])
        counts['events'] += len(lines)
        for k, (watched, acts, stood, live) in enumerate(parted):
            own, segments = live[conference], watched.get(conference, ())
            counts['live lines'] += journal.has_told('client %d of conference %d' % (k, conference), own, segments)
            for _, (_, place, words, heard, watching) in acts[conference]:
                was_told(journal, place, words, heard, own, watching)
                counts['acts'] += 1
            for _, (kind, _, place, rows) in stood[conference]:
                journal.has_stood(kind, place, rows)
                counts['answers of how it stood'] += 1
    return counts


def was_told(journal, place, words, heard, own, watching):
    """Sees that an act is the event at its place, and that a client that watches was told what it shows before the
    answer."""
    wanted = EVENTS[words[0]].format(*words[1:])
    line = journal.lines[place - 1] if place <= len(journal.lines) else 'nothing'
    if not (line + ' ').startswith('%d %s' % (place, wanted)):
        raise Failed('%s of conference %d at %d is "%s"' % (' '.join(words), journal.conference, place, line))
    for first, begin, _ in watching:
        told = sum(begin <= k < heard for k, _ in own)
        wanted = journal.ends[place] - journal.ends[min(first - 1, place)]
        if told < wanted:
            raise Failed('behind the answer of %s at %d, %d lines had come, and not %d' % (
                ' '.join(words), place, told, wanted))


def simulated(floorsim, journals):
    """Has floorsim run journals; of how many events, and how many statuses were as reckoned."""
    events = statuses = 0
    for conference, lines in sorted(journals.items(), key=lambda it: len(it[1])):
        if events + len(lines) > SIMULATED:
            continue
        text = table(conference)
        ran = replay.Journal(conference, lines + ['end %d' % len(lines)])
        statuses += reckoning.compare(reckoning.tables(text)[conference], lines, ran.printed(floorsim, text))
        events += len(lines)
    return events, statuses


def wait_until_still(control):
    """Waits until no event has come for some seconds: who is shut down leaves within ten."""
    before, since = None, time.monotonic()
    while time.monotonic() - since < 12:
        now = control.ask('list')
        before, since = now, since if now == before else time.monotonic()
        time.sleep(0.2)


def run(floorhub, floorsim, seconds, seed, folder):
    path, chance = os.path.join(folder, 'control'), random.Random(seed)
    server = Server(floorhub, table(FIRST), words=('--control', path, '--door-by-id', str(DOOR), '--loops', '2'))
    latest = multiprocessing.Value('i', FIRST)
    over, still, results = multiprocessing.Event(), multiprocessing.Event(), multiprocessing.Queue()
    clients = [multiprocessing.Process(
        target=program, args=(path, '%d %d' % (seed, k), latest, over, still, results), daemon=True) for k in range(2)]
    loads = [multiprocessing.Process(
        target=members, args=('%d load %d' % (seed, k), latest, over), daemon=True) for k in range(2)]
    counts = collections.Counter()
    try:
        for process in clients + loads:
            process.start()
        end = time.monotonic() + seconds
        while time.monotonic() < end and results.empty():
            console(server, chance, latest, folder, counts)
            time.sleep(chance.random() / 20)
        over.set()
        for load in loads:
            load.join(DEADLINE)
        control = Control(path, DEADLINE)
        wait_until_still(control)
        still.set()
        seen = []
        for _ in clients:
            fault, result = results.get(timeout=5 * DEADLINE)
            if fault:
                raise Failed(fault)
            seen.append(result)
        journals = {int(row.split()[1]): None for row in control.ask('list')[:-1]}
        journals = {conference: control.ask('journal %d' % conference)[:-1] for conference in journals}
        control.close()
        report = server.stop()
    except BaseException:
        server.process.kill()
        raise
    for counted, _, _, _, taken, _ in seen:
        counts.update(counted)
        journals.update((conference, lines) for conference, lines in taken.items() if conference not in journals)
    print('%d s, %d conferences: %s' % (
        seconds, len(journals), ', '.join('%s: %d' % it for it in sorted(counts.items()))), flush=True)
    print('as reckoned: %s' % ', '.join('%s: %d' % it for it in sorted(judge(journals, seen).items())), flush=True)
    print('floorsim: %d events, and %d statuses as reckoned' % simulated(floorsim, journals))
    if not report[0].startswith('ok stopped') or report[1]:
        raise Failed('the report is %s' % (report,))


def main():
    if len(sys.argv) < 3:
        raise SystemExit(__doc__)
    seconds = int(sys.argv[3]) if len(sys.argv) > 3 else 600
    seed = int(sys.argv[4]) if len(sys.argv) > 4 else 1
    with tempfile.TemporaryDirectory(prefix='bridge-') as folder:
        try:
            run(sys.argv[1], sys.argv[2], seconds, seed, folder)
        except (Failed, OSError, replay.Difference) as fault:
            raise SystemExit('FAILED: %s' % fault)


if __name__ == '__main__':
    main()
