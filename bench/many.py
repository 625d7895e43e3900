#!/usr/bin/env python3
"""examples/many under load, while machines go: ./many.py FLOORHUB FLOORSIM [MINUTES [SEED [PART ..]]]

Starts three machines with four shards, etcd of three, HAProxy in front and the bridge, all in namespaces of its own
(examples/many/machines.py), and opens 40 conferences by the bridge. In each four people, who come with certificates
through HAProxy, ask for a floor, wait, hold it and give it back, two of them one that a chair decides on; whoever is
closed comes again. All the while further conferences are opened by the bridge, and closed. Then, one part after
another, all or those that are named:

    kills      for so many minutes (10) every 20 s a machine is killed that has a shard, by SIGKILL or with its network
               first; it starts again 8 s later
    cuts       three times a machine that has a shard and the others don't hear each other for 20 s; HAProxy hears all
    stands     a shard's holder, its etcdctl and its floorhub stand still (SIGSTOP) for 20 s, and go on; three times
    fence      the holder and its etcdctl stand still, and floorhub serves on; three times
    upgrade    each machine, one after another, stops in order and starts with another copy of floorhub

Whoever comes again has to have what it had: a granted request is granted, one that waits stands no further back. In the
end the journal of each conference is run through floorsim: what each connection heard has to be a front of what its
member was told, so that nothing that anybody saw is lost; and each answer has its place and its server, by HAProxy's
log: places, times and epochs have to go on from one server to the next, so that no two ever served a conference at
once. How long it took from a kill to a conference's first answer is told at p50, p99 and at most, for the other parts
how long the silence was between two servers. Status 1 where anything is otherwise; the folder is left then.
"""
import asyncio
import collections
import datetime
import http.client
import json
import os
import pathlib
import random
import re
import shutil
import signal
import ssl
import struct
import subprocess
import sys
import tempfile
import time

sys.path.insert(0, os.path.join(os.path.dirname(os.path.abspath(__file__)), '../examples/many'))
import machines
from messages import (ACCEPTED, CHAIR_ACTION, FLOOR_QUERY, FLOOR_RELEASE, FLOOR_REQUEST, FLOOR_REQUEST_ID,
                      FLOOR_REQUEST_STATUS, FLOOR_STATUS, GRANTED, HELLO, PENDING, USER_QUERY, floors, message, number,
                      read, requests_of, verdict)
from server import Control

CONFERENCES, PEOPLE, CHAIR = 40, (10, 11, 12, 13), 20
TABLE = 'connections = 8\nuser = [%s]\nfloor = [{id = 1}, {id = 2, chair = %d}]' % (
    ', '.join('{id = %d}' % user for user in (*PEOPLE, CHAIR)), CHAIR)
EVERY, AGAIN, STANDING, DEADLINE = 20, 8, 20, 60


class Failed(Exception):
    """What was otherwise."""


class Link:
    """A connection of somebody through HAProxy, and all that was sent and heard by it."""

    def __init__(self, person):
        self.person, self.sent, self.heard, self.messages = person, [], [], asyncio.Queue()

    async def open(self):
        self.reader, self.writer = await asyncio.wait_for(asyncio.open_connection(
            machines.FRONT, machines.DOOR, ssl=self.person.context), 10)
        self.port, self.opened = self.writer.get_extra_info('sockname')[1], time.time()
        self.reading = asyncio.create_task(self.read())

    async def read(self):
        """Takes down each message as it comes; none stands for the end."""
        try:
            while True:
                head = await self.reader.readexactly(12)
                text = head + await self.reader.readexactly(4 * struct.unpack('>H', head[2:4])[0])
                self.heard.append((time.time(), text))
                self.messages.put_nowait(text)
        except (OSError, asyncio.IncompleteReadError):
            self.messages.put_nowait(None)

    def send(self, primitive, payload=b''):
        """Sends a message, and gives its transaction."""
        person = self.person
        person.transaction += 1
        self.sent.append(message(primitive, person.conference, person.transaction, person.user, payload))
        self.writer.write(self.sent[-1])
        return person.transaction

    async def next(self, seconds=DEADLINE):
        """The next message: its primitive, its transaction, and its attributes; none where none came in time."""
        try:
            text = await asyncio.wait_for(self.messages.get(), seconds)
        except TimeoutError:
            return None
        if text is None:
            raise ConnectionError
        return text[1], struct.unpack('>H', text[8:10])[0], read(text[12:])

    async def answer(self, transaction):
        """The attributes of the answer, once it is there; what is told meanwhile is taken in."""
        while True:
            told = await self.next()
            if told is None:
                raise ConnectionError
            if told[1] == transaction:
                return told[2]
            self.person.take(told)

    def close(self):
        self.reading.cancel()
        self.writer.close()


class Person:
    """Somebody with a certificate, who comes again whenever the connection ends."""

    def __init__(self, load, conference, user):
        self.load, self.conference, self.user, self.transaction = load, conference, user, 0
        self.chance = random.Random('%d %d %d' % (load.seed, conference, user))
        self.context = ssl.create_default_context(cafile=load.many.settings / 'users.pem')
        self.context.check_hostname = False
        self.context.load_cert_chain(load.many.name('%d.%d' % (conference, user)))
        self.links = []

    async def live(self):
        patience = 0.4
        while True:
            link = Link(self)
            try:
                await link.open()
            except (OSError, TimeoutError):
                self.load.unreached += 1
            else:
                self.links.append(link)
                try:
                    await self.stay(link)
                except OSError:
                    self.load.ended += 1
                finally:
                    link.close()
                if link.heard:
                    patience = 0.4
                else:
                    self.links.remove(link)
            await asyncio.sleep(patience * (1 + self.chance.random()))
            patience = min(2 * patience, 1.6)


class Participant(Person):
    """Asks for a floor, waits for it, holds it and gives it back. `known` is the request's number, status and position,
    as they were told last; whether one was sent whose answer hasn't come yet, or its release, is written down, too."""

    def __init__(self, load, conference, user):
        super().__init__(load, conference, user)
        self.floor = 1 + user % 2
        self.known, self.asking, self.giving = None, False, False

    async def stay(self, link):
        await link.answer(link.send(HELLO))
        self.compare(requests_of(await link.answer(link.send(USER_QUERY))))
        while True:
            if self.known is None:
                await self.wait(link, 1 + 4 * self.chance.random())
                self.asking = True
                answer = await link.answer(link.send(FLOOR_REQUEST, floors(self.floor)))
                ((request, shown),) = requests_of(answer).items()
                self.asking, self.known = False, (request, *shown)
            elif self.known[1] == GRANTED or self.giving:
                await self.wait(link, 0.5 + 2 * self.chance.random())
                self.giving = True
                await link.answer(link.send(FLOOR_RELEASE, number(FLOOR_REQUEST_ID, self.known[0])))
                self.giving, self.known = False, None
                self.load.rounds += 1
            else:
                self.take(await link.next(600) or (None, None, []))

    async def wait(self, link, seconds):
        end = time.monotonic() + seconds
        while (left := end - time.monotonic()) > 0:
            told = await link.next(left)
            if told:
                self.take(told)

    def take(self, told):
        """What a notice says of the request."""
        if told[0] == FLOOR_REQUEST_STATUS and self.known:
            shown = requests_of(told[2]).get(self.known[0])
            if shown:
                self.known = self.known[0], *shown

    def compare(self, there):
        """What is there has to be what was known, or what was asked meanwhile."""
        known, asking, giving = self.known, self.asking, self.giving
        self.asking = self.giving = False
        if known and known[0] in there:
            status, position = there[known[0]]
            if known[1] == GRANTED and status != GRANTED or known[1] == ACCEPTED and (
                    status == PENDING or status == ACCEPTED and position > known[2]):
                self.load.fault('user %d of conference %d had request %d with %d:%d, and has it with %d:%d' % (
                    self.user, self.conference, *known, status, position))
            self.load.kept[known[1]] += 1
            self.known = known[0], status, position
            del there[known[0]]
        elif known:
            if not giving:
                self.load.fault('user %d of conference %d has lost request %d, that was %d:%d' % (
                    self.user, self.conference, *known))
            self.known = None
        if there:
            ((request, shown), *more) = there.items()
            if known or more or not asking:
                self.load.fault('user %d of conference %d has %s, and didn\'t ask' % (
                    self.user, self.conference, there))
            self.known = request, *shown


class Chair(Person):
    """Grants whatever is asked for the floor that it decides on."""

    def take(self, told):
        pass

    async def stay(self, link):
        await link.answer(link.send(HELLO))
        link.send(FLOOR_QUERY, floors(2))
        while True:
            told = await link.next(600)
            if told and told[0] == FLOOR_STATUS:
                for request, (status, _) in requests_of(told[2]).items():
                    if status == PENDING:
                        link.send(CHAIR_ACTION, verdict(request, 2, GRANTED))


class Caller(Person):
    """Who opens a meeting by the bridge every few seconds, looks whether its users are answered, and ends it."""

    def __init__(self, load):
        self.load, self.user, self.transaction = load, PEOPLE[0], 0
        self.opened, self.refused, self.standing = 0, 0, set()

    async def live(self):
        while not self.load.over:
            answer = await self.ask('POST', '/meetings', TABLE)
            self.standing.add(answer['conference'])
            person = await asyncio.to_thread(Person, self.load, answer['conference'], self.user)
            if not await self.is_answered(person):
                self.load.fault('nobody is answered in the new conference %d of %s' % (
                    answer['conference'], answer['shard']))
            await self.ask('DELETE', '/meetings/%d' % answer['conference'])
            self.standing.remove(answer['conference'])
            self.opened += 1
            await asyncio.sleep(3)

    async def ask(self, *words):
        """Asks until the bridge has done it: while a shard has nobody, it answers that."""
        end = time.monotonic() + DEADLINE
        while True:
            try:
                return await asyncio.to_thread(self.load.ask, *words)
            except (Failed, OSError) as fault:
                self.refused += 1
                if time.monotonic() > end:
                    self.load.fault('%s after %d s: %s' % (' '.join(words[:2]), DEADLINE, fault))
                    raise
            await asyncio.sleep(1)

    async def is_answered(self, person):
        end = time.monotonic() + DEADLINE
        while time.monotonic() < end:
            link = Link(person)
            try:
                await link.open()
                await link.answer(link.send(HELLO))
                return True
            except (OSError, TimeoutError):
                await asyncio.sleep(1)
            finally:
                if hasattr(link, 'reading'):
                    link.close()
        return False


class Load:
    """Everybody, and what came of it."""

    def __init__(self, many, seed):
        self.many, self.seed, self.faults, self.over = many, seed, [], False
        self.unreached = self.ended = self.rounds = 0
        self.kept = collections.Counter()
        self.shard_of, self.people = {}, []

    def fault(self, text):
        print('%.3f %s' % (time.time(), text), flush=True)
        self.faults.append(text)

    def ask(self, method, path, text=None):
        connection = http.client.HTTPConnection('127.0.0.1', machines.BRIDGE, timeout=DEADLINE)
        try:
            connection.request(method, path, text)
            response = connection.getresponse()
            answer = json.loads(response.read())
        finally:
            connection.close()
        if response.status != 200:
            raise Failed('the bridge answers %s to %s %s' % (answer, method, path))
        return answer

    def open(self):
        """Waits until each shard answers, and opens the conferences."""
        end = time.monotonic() + DEADLINE
        while True:
            try:
                if len(self.ask('GET', '/meetings')['shards']) == len(machines.SHARDS):
                    break
            except OSError:
                pass
            if time.monotonic() > end:
                raise Failed('not every shard answers')
            time.sleep(0.5)
        for _ in range(CONFERENCES):
            answer = self.ask('POST', '/meetings', TABLE)
            self.shard_of[answer['conference']] = answer['shard']
        self.caller = Caller(self)
        for conference in self.shard_of:
            self.people += [Participant(self, conference, user) for user in PEOPLE] + [Chair(self, conference, CHAIR)]

    def shards(self):
        """Which shards each machine has, of those machines that run."""
        found = collections.defaultdict(list)
        for shard, (_, machine) in self.many.who().items():
            if machine and self.many.machines[machine].process:
                found[machine].append(shard)
        return found

    def links(self, conference=None):
        return [link for person in self.people for link in person.links
                if conference is None or person.conference == conference]

    def first_answers(self, began, shards):
        """How long each conference of the shards had no answer on a connection that was opened since."""
        found = []
        for conference, shard in self.shard_of.items():
            if shard in shards:
                heard = [link.heard[0][0] for link in self.links(conference) if link.opened > began and link.heard]
                found.append(min(heard, default=float('inf')) - began)
        return found


def listed():
    """The number, the parent and the words of each process."""
    for pid in filter(str.isdigit, os.listdir('/proc')):
        try:
            words = pathlib.Path('/proc', pid, 'cmdline').read_bytes().decode().split('\0')
            parent = pathlib.Path('/proc', pid, 'stat').read_text().rpartition(')')[2].split()[1]
        except OSError:  # It has ended.
            continue
        yield int(pid), int(parent), words


def processes(shard, machine):
    """The processes of a shard on a machine: its holder, its etcdctl, its floorhub."""
    found = {}
    for pid, _, words in listed():
        if any('/%s/%s/control' % (machine, shard) in word for word in words):
            found['holder' if any(word.endswith('holder.py') for word in words) else 'floorhub'] = pid
    for pid, parent, words in listed():
        if words[0] == 'etcdctl' and parent == found.get('holder'):
            found['etcdctl'] = pid
    return found


async def kills(load, chance, minutes):
    """Kills machines, and gives how long each conference of theirs had no answer, by whether the network went first."""
    struck = []
    end = time.monotonic() + 60 * minutes
    while time.monotonic() < end:
        next_one = time.monotonic() + EVERY
        held = load.shards()
        if held:
            name, how = chance.choice(sorted(held)), chance.choice(['kill', 'off'])
            machine, began = load.many.machines[name], time.time()
            getattr(machine, how)()
            struck.append((began, how, held[name]))
            await asyncio.sleep(AGAIN)
            machine.begin(load.many.floorhub)
        await asyncio.sleep(max(0, next_one - time.monotonic()))
    await asyncio.sleep(EVERY)
    found = {how: [it for began, by, shards in struck if by == how for it in load.first_answers(began, shards)]
             for how in ('kill', 'off')}
    for how, times in found.items():
        if any(it > DEADLINE for it in times):
            load.fault('of %s %d conferences had no answer for more than %d s' % (
                how, sum(it > DEADLINE for it in times), DEADLINE))
        print('%s: %d times, a conference\'s first answer after %s' % (
            how, sum(by == how for _, by, _ in struck), told(times)), flush=True)


async def cuts(load, chance):
    began = time.time()
    for _ in range(3):
        name = chance.choice(sorted(load.shards()))
        load.many.machines[name].cut()
        await asyncio.sleep(STANDING)
        load.many.machines[name].join()
        await asyncio.sleep(EVERY)
    return 'cuts', began, time.time()


async def stands(load, chance, kinds, name):
    """Has these processes of a shard stand still, and go on."""
    began = time.time()
    for _ in range(3):
        shard = chance.choice(machines.SHARDS)
        epoch, machine = load.many.who()[shard]
        found = [it for kind, it in processes(shard, machine).items() if kind in kinds]
        if len(found) != len(kinds):
            raise Failed('%s has no processes on %s: %s' % (shard, machine, found))
        for pid in found:
            os.kill(pid, signal.SIGSTOP)
        await asyncio.sleep(STANDING)
        if load.many.who()[shard][0] == epoch:
            load.fault('nobody took the lock of %s while its holder stood still' % shard)
        if 'floorhub' not in kinds and 'floorhub' in processes(shard, machine):
            load.fault('%s is served on %s at epoch %d, and there is a later one' % (shard, machine, epoch))
        went_on = time.time()
        for pid in found:
            os.kill(pid, signal.SIGCONT)
        await asyncio.sleep(EVERY)
        if 'floorhub' in kinds:
            print('%s: stood still for %d s; a conference\'s first answer after it went on: %s' % (
                shard, STANDING, told(load.first_answers(went_on, [shard]))), flush=True)
        ends = [line for line in load.many.told(machine, shard) if 'floorhub: ' in line or ' ended ' in line]
        print('%s on %s ended so: %s' % (shard, machine, '; '.join(ends[-2:])), flush=True)
    return name, began, time.time()


async def upgrade(load):
    began = time.time()
    newer = load.many.folder / 'newer' / 'floorhub'
    newer.parent.mkdir()
    shutil.copy(load.many.floorhub, newer)
    load.many.floorhub = str(newer)
    for machine in load.many.machines.values():
        await asyncio.to_thread(machine.end)
        await asyncio.sleep(2)
        machine.begin(load.many.floorhub)
        await asyncio.sleep(EVERY)
    running = [words for _, _, words in listed() if '--keep' in words]
    old = [words for words in running if str(newer) not in words[:2]]
    if old:
        load.fault('an older floorhub still runs: %s' % old[0])
    return 'upgrade', began, time.time()


def told(times):
    times = sorted(times)
    return 'p50 %.2f s, p99 %.2f s, at most %.2f s (%d)' % (
        times[len(times) // 2], times[len(times) * 99 // 100], times[-1], len(times)) if times else 'never'


PARTS = {
    'kills': kills,
    'cuts': lambda load, chance, _: cuts(load, chance),
    'stands': lambda load, chance, _: stands(load, chance, ('holder', 'etcdctl', 'floorhub'), 'stands'),
    'fence': lambda load, chance, _: stands(load, chance, ('holder', 'etcdctl'), 'fence'),
    'upgrade': lambda load, chance, _: upgrade(load),
}


async def run(load, minutes, chance, names):
    """These parts, under load. Gives those of which silences are told."""
    living = [asyncio.create_task(person.live()) for person in [load.caller, *load.people]]
    try:
        await asyncio.sleep(10)
        print('%d conferences, %d people' % (len(load.shard_of), len(load.people)), flush=True)
        told_of = [part for name in names if (part := await PARTS[name](load, chance, minutes))]
        for task in living:
            if task.done():
                task.result()
        load.over = True
        await living[0]
        return told_of
    finally:
        while living:
            # A task that was just about to go on takes no notice of it.
            for task in living:
                task.cancel()
            _, living = await asyncio.wait(living, timeout=1)


class Runs:
    """Which floorhub served a connection: each has the epoch of its lock."""

    def __init__(self, many):
        self.begun, self.took = collections.defaultdict(list), []
        for name in machines.MACHINES:
            for shard in machines.SHARDS:
                ready = [float(line.split()[0]) for line in many.told(name, shard)
                         if re.fullmatch(r'\d+\.\d+ %s printed ready' % shard, line)]
                held = many.epochs(name, shard)
                for (at, epoch), (until, _) in zip(held, [*held[1:], (float('inf'), None)]):
                    for later in [it for it in ready if at < it < until]:
                        self.begun[shard, name].append((later, epoch))
                        self.took.append(later - at)
        # By the client's port: when HAProxy accepted it, and where it led it.
        self.led = collections.defaultdict(list)
        for line in (many.folder / 'haproxy.log').read_text(errors='replace').splitlines():
            at = re.search(r'%s:(\d+) \[([^\]]+)\] door~ (shard-\d)/(\w|<NOSRV>) ' % re.escape(machines.FRONT), line)
            if at:
                accepted = datetime.datetime.strptime(at[2], '%d/%b/%Y:%H:%M:%S.%f').timestamp()
                self.led[int(at[1])].append((accepted, at[3], at[4]))

    def of(self, link):
        """The shard and the epoch; none where HAProxy led it nowhere."""
        # The handshake comes between the two; the port may have been another's before and after.
        before = [it for it in self.led[link.port] if it[0] < link.opened + 0.01]
        at, shard, name = max(before, default=(0, None, None))
        if link.opened - at > 15:
            return None
        begun = [epoch for at, epoch in self.begun[shard, name] if at < link.heard[0][0]]
        return (shard, max(begun)) if begun else None


def verify(load, runs, floorsim, journals):
    """Compares what everybody heard with the journals. Gives the silences between two servers of a conference: when the
    later one was first heard, and how long nobody was."""
    silences, compared, events = [], 0, 0
    for conference, shard in load.shard_of.items():
        path = load.many.folder / 'shards' / shard / ('%d.journal' % conference)
        lines = [line for line in path.read_text().partition('\n---\n')[2].splitlines() if not line.startswith('#')]
        events += len(lines)
        if [int(line.split()[0]) for line in lines] != list(range(1, len(lines) + 1)):
            raise Failed('%s has other places than 1 to %d' % (path, len(lines)))
        if journals[conference] != lines[:len(journals[conference])]:
            raise Failed('%s has other lines than its floorhub printed' % path)
        found = subprocess.run([floorsim, '--journal', path], capture_output=True, text=True)
        if found.returncode:
            raise Failed('floorsim says of %s: %s' % (path, found.stdout[-200:] + found.stderr[-200:]))
        was_told = collections.defaultdict(list)
        for line in found.stdout.splitlines():
            place, member, text = line.split()
            was_told[int(member)].append((int(place), bytes.fromhex(text)))
        members = {}
        for line in lines:
            _, kind, *words = line.split()
            if kind == 'message':
                members.setdefault(words[1], int(words[0]))
        heard = []
        for link in load.links(conference):
            if not link.heard:
                continue
            member = members.get(link.sent[0].hex())
            if member is None:
                raise Failed('user %d of conference %d was answered, and the journal has nothing of it' % (
                    link.person.user, conference))
            front = was_told[member][:len(link.heard)]
            if [text for _, text in front] != [text for _, text in link.heard]:
                raise Failed('member %d of conference %d heard what the journal doesn\'t call for' % (
                    member, conference))
            run = runs.of(link)
            if run is None or run[0] != shard:
                raise Failed('member %d of conference %d, at port %d, was served by %s' % (
                    member, conference, link.port, run))
            heard += [(place, run[1], at) for (place, _), (at, _) in zip(front, link.heard)]
            compared += len(front)
        times = {}
        for place, epoch, at in sorted(heard):
            first_place, _, earliest, latest = times.get(epoch, (place, place, at, at))
            times[epoch] = first_place, place, min(earliest, at), max(latest, at)
        for before, after in zip(sorted(times), sorted(times)[1:]):
            if times[before][1] >= times[after][0] or times[before][3] >= times[after][2]:
                raise Failed('conference %d was served at once at epoch %d and at %d' % (conference, before, after))
            silences.append((times[after][2], times[after][2] - times[before][3]))
    print('%d events; %d messages that were heard stand in the journals; %d times a conference had another server' % (
        events, compared, len(silences)), flush=True)
    return silences


def epochs(many):
    """Each shard's epochs have to grow with time."""
    for shard in machines.SHARDS:
        found = sorted(it for name in machines.MACHINES for it in many.epochs(name, shard))
        if any(before >= after for (_, before), (_, after) in zip(found, found[1:])):
            raise Failed('the epochs of %s are %s' % (shard, found))
        print('%s had %d holders' % (shard, len(found)), flush=True)


def compare_lists(load):
    """Gives the journal of each conference, as its shard prints it; each conference has to stand on one shard, and the
    map has to say which."""
    journals, lists = {}, {}
    for shard in machines.SHARDS:
        control = Control(str(load.many.run / (shard + '.control')), DEADLINE)
        for line in control.ask('list')[:-1]:
            _, conference, *words = line.split()
            if words[6] == 'open':
                if int(conference) in lists:
                    raise Failed('%s stands on %s and on %s' % (conference, lists[int(conference)], shard))
                lists[int(conference)] = shard
        for conference, of in load.shard_of.items():
            if of == shard:
                journals[conference] = control.ask('journal %d' % conference)[:-1]
        control.close()
    named = {int(conference): shard for conference, shard in load.ask('GET', '/meetings')['meetings'].items()}
    if not lists.items() >= load.shard_of.items() or named != lists:
        raise Failed('the shards have %s, the map %s' % (sorted(lists.items()), sorted(named.items())))
    if set(lists) - set(load.shard_of) - load.caller.standing:
        raise Failed('of the conferences %s nobody was told' % (set(lists) - set(load.shard_of) - load.caller.standing))
    return journals


def try_all(floorhub, floorsim, minutes, seed, names, folder):
    many = machines.Many(folder, floorhub)
    load = Load(many, seed)
    load.open()
    parts = asyncio.run(run(load, minutes, random.Random(seed), names))
    journals = compare_lists(load)
    print('%d conferences were opened by the bridge meanwhile and closed; it was asked again %d times' % (
        load.caller.opened, load.caller.refused), flush=True)
    for machine in many.machines.values():
        machine.end()
    words = pathlib.Path('/proc/%d/stat' % many.front.pid).read_text().rpartition(')')[2].split()
    took = sum(map(int, words[11:13])) / os.sysconf('SC_CLK_TCK')
    many.front.terminate()
    many.front.wait()
    print('%d rounds of asking and giving back; %d connections ended, %d couldn\'t be made; found what they had: '
          '%d granted, %d waiting, %d pending' % (load.rounds, load.ended, load.unreached, *(
              load.kept[it] for it in (GRANTED, ACCEPTED, PENDING))), flush=True)
    epochs(many)
    runs = Runs(many)
    print('HAProxy in front had %d connections, and took %.1f s of a processor' % (
        sum(map(len, runs.led.values())), took), flush=True)
    print('from a shard\'s lock to its floorhub\'s "ready": %s' % told(runs.took), flush=True)
    silences = verify(load, runs, floorsim, journals)
    for name, began, ended in parts:
        within = [it for at, it in silences if began < at < ended]
        print('%s: silence of a conference %s' % (name, told(within)), flush=True)
    if load.faults:
        raise Failed('%d faults, the first of them: %s' % (len(load.faults), load.faults[0]))


def main():
    if len(sys.argv) < 3:
        raise SystemExit(__doc__)
    machines.apart()
    floorhub, floorsim = map(os.path.abspath, sys.argv[1:3])
    minutes = float(sys.argv[3]) if len(sys.argv) > 3 else 10
    seed = int(sys.argv[4]) if len(sys.argv) > 4 else 1
    folder = tempfile.mkdtemp(prefix='many-')
    try:
        try_all(floorhub, floorsim, minutes, seed, sys.argv[5:] or list(PARTS), os.path.join(folder, 'm'))
    except (Failed, OSError, SystemExit) as fault:
        raise SystemExit('FAILED: %s (%s)' % (fault, folder))
    shutil.rmtree(folder)


if __name__ == '__main__':
    main()
