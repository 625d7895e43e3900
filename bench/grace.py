#!/usr/bin/env python3
"""Networks that are lost before a floorhub with `--grace`: ./grace.py FLOORHUB [CASE ..]

As root: floorhub and a proxy run in one network namespace, those who lose the network in another one, and a link is
between them. In each case user 10 holds floor 1, 11 and then 12 wait for it; 12 is at the server's own machine and has
asked for all of the floor's changes (FloorQuery), and a program watches at the control socket. All cases are run, or
those that are named:

    link      the link is down, for one who is idle, and for one to whom something is under way, until both are away;
              then they come again
    early     the link is down for 5 s: nobody is away
    address   the clients' machine has another address from one moment to the next, and they come again at once, before
              the system has given their first connections up: those leave then, and nobody is away
    ends      a connection that is reset, ends inside a message, ends in order or half, with `--grace-for all` and without
    over      nobody comes again, with a grace of 3 s
    none      without `--grace`
    out       a member that is shown out, and a conference that is closed, while their users are away
    proxy     HAProxy on examples/haproxy.cfg is killed, with `--grace-for all` and without
    behind    the link of HAProxy's clients is down until HAProxy gives them up, with `--grace-for all`
    options   what the system says of the sockets' timers

Whoever comes again within the grace has to have what it had, without a word to 12 in between; else the next has to have
the floor, at the time when that is due. For each case a line with its times; status 1 where anything is otherwise.
"""
import ctypes
import os
import pathlib
import re
import select
import signal
import socket
import struct
import subprocess
import sys
import tempfile
import time

from messages import (ACCEPTED, FLOOR_QUERY, FLOOR_RELEASE, FLOOR_REQUEST, FLOOR_REQUEST_ID,
                      FLOOR_REQUEST_STATUS, FLOOR_STATUS, GRANTED, HELLO, USER_QUERY, floors, message, number, read,
                      requests_of)
from proxies import DOOR, HEALTH, Proxy, certificate, context_of, openssl
from server import Control, Server, proxy_header

EXAMPLES = pathlib.Path(__file__).resolve().parent.parent / 'examples'
SERVER, CLIENTS = 'grace-server', 'grace-clients'
ADDRESS, FIRST, SECOND = '10.91.0.1', '10.91.0.2', '10.91.0.3'
FIRST_PORT, FRONT = 7600, 17000
HOLDER, NEXT, LAST = 10, 11, 12
GRACE = 60
# What the system is asked: to give up what is idle after 15 s and three questions, 5 s apart, and what isn't
# acknowledged after 30 s. It looks at a timer's own time, so that the second may come later by the last of its waits.
LOST, LATE = 30, 26
CLONE_NEWNET = 0x40000000


class Failed(Exception):
    """What was otherwise."""


def run(*words):
    subprocess.run(words, check=True, stdout=subprocess.DEVNULL)


class Inside:
    """What is done inside a namespace; its sockets and programs stay there."""

    def __init__(self, name):
        self.path = '/run/netns/' + name

    def __enter__(self):
        self.before = os.open('/proc/self/ns/net', os.O_RDONLY)
        there = os.open(self.path, os.O_RDONLY)
        self.go(there)
        os.close(there)

    def __exit__(self, *_):
        self.go(self.before)
        os.close(self.before)

    @staticmethod
    def go(namespace):
        if ctypes.CDLL(None, use_errno=True).setns(namespace, CLONE_NEWNET):
            raise OSError(ctypes.get_errno(), 'setns')


class Network:
    """The server's machine and the clients', and the link between them. A floorhub listens at 127.0.0.1 alone, so the
    server's machine hands on what comes to its address."""

    def __enter__(self):
        self.__exit__()
        for name in (SERVER, CLIENTS):
            run('ip', 'netns', 'add', name)
            run('ip', '-n', name, 'link', 'set', 'lo', 'up')
        run('ip', 'link', 'add', 'eth0', 'netns', SERVER, 'type', 'veth', 'peer', 'name', 'eth0', 'netns', CLIENTS)
        for name, address in ((SERVER, ADDRESS), (CLIENTS, FIRST)):
            run('ip', '-n', name, 'addr', 'add', address + '/24', 'dev', 'eth0')
            run('ip', '-n', name, 'link', 'set', 'eth0', 'up')
        within = ('ip', 'netns', 'exec', SERVER)
        run(*within, 'sysctl', '-qw', 'net.ipv4.conf.all.route_localnet=1')
        run(*within, 'iptables', '-t', 'nat', '-A', 'PREROUTING', '-i', 'eth0', '-p', 'tcp', '--dport', '7600:7699',
            '-j', 'DNAT', '--to-destination', '127.0.0.1')
        return self

    def __exit__(self, *_):
        for name in (SERVER, CLIENTS):
            subprocess.run(['ip', 'netns', 'del', name], stderr=subprocess.DEVNULL)

    def down(self):
        """The clients' machine is off the network, and the server's machine sees nothing of that."""
        run('ip', '-n', CLIENTS, 'link', 'set', 'eth0', 'down')

    def up(self):
        run('ip', '-n', CLIENTS, 'link', 'set', 'eth0', 'up')

    def move(self, before, behind):
        run('ip', '-n', CLIENTS, 'addr', 'del', before + '/24', 'dev', 'eth0')
        run('ip', '-n', CLIENTS, 'addr', 'add', behind + '/24', 'dev', 'eth0')


class Client:
    """A user's connection, which keeps what it was told unasked."""

    def __init__(self, stream, conference, user):
        self.stream, self.conference, self.user, self.transaction = stream, conference, user, 0
        self.held, self.told = b'', []

    def ask(self, primitive, payload=b''):
        self.transaction += 1
        self.stream.sendall(message(primitive, self.conference, self.transaction, self.user, payload))
        while True:
            heard = self.next(20)
            if heard is None:
                raise Failed('user %d has no answer' % self.user)
            kind, transaction, attributes = heard
            if transaction == self.transaction:
                return kind, attributes
            self.told.append((kind, attributes))

    def next(self, seconds):
        """The next message; a ConnectionError where the stream ends, none where nothing comes."""
        end = time.monotonic() + seconds
        # What TLS has taken from the socket already isn't seen by select.
        pending = getattr(self.stream, 'pending', lambda: 0)
        while True:
            if len(self.held) >= 12 and len(self.held) >= (size := 12 + 4 * struct.unpack('>H', self.held[2:4])[0]):
                text, self.held = self.held[:size], self.held[size:]
                return text[1], struct.unpack('>H', text[8:10])[0], read(text[12:])
            left = end - time.monotonic()
            if not pending() and (left <= 0 or not select.select([self.stream], [], [], left)[0]):
                return None
            piece = self.stream.recv(1 << 16)
            if not piece:
                raise ConnectionError('the connection of user %d has ended' % self.user)
            self.held += piece

    def listen(self, seconds):
        """Takes what comes within so many seconds."""
        end = time.monotonic() + seconds
        while (heard := self.next(max(0, end - time.monotonic()))) is not None:
            self.told.append((heard[0], heard[2]))

    def request(self, floor):
        """The number of a new request, its status and its position."""
        ((request, shown),) = requests_of(self.ask(FLOOR_REQUEST, floors(floor))[1]).items()
        return request, shown

    def own(self):
        return requests_of(self.ask(USER_QUERY)[1])

    def reset(self):
        self.stream.setsockopt(socket.SOL_SOCKET, socket.SO_LINGER, struct.pack('ii', 1, 0))
        self.stream.close()


class Meeting:
    """A floorhub with a conference, its users, and who watches it. Users 10 and 11 come over the link, to their own
    ports, or by HAProxy where there is a folder of keys."""

    def __init__(self, floorhub, folder, *words, folder_of_keys=None):
        self.folder, self.keys = folder, folder_of_keys
        rows = ['[[conference]]\nid = 1\n']
        rows += ['[[conference.user]]\nid = %d\nport = %d\n' % (user, FIRST_PORT + user) for user in (HOLDER, NEXT, LAST, 13)]
        rows += ['[[conference.floor]]\nid = %d\n' % floor for floor in (1, 2)]
        self.path, self.log = folder + '/control', folder + '/log'
        self.errors = open(self.log, 'ab')
        doors = ('--door', str(DOOR), '--health', str(HEALTH))
        with Inside(SERVER):
            self.server = Server(floorhub, ''.join(rows), errors=self.errors,
                                 words=('--log', '--control', self.path, *doors, *words))
        self.control, self.watcher = Control(self.path), Control(self.path)
        try:
            self.begin()
        except BaseException:
            self.end()
            raise

    def begin(self):
        """User 10 holds floor 1, and 11 and 12 wait for it."""
        self.watcher.ask('watch 1')
        self.holder, self.next = self.come(HOLDER), self.come(NEXT)
        self.last = self.near(LAST)
        self.requests = {}
        for client, shown in ((self.holder, (GRANTED, 0)), (self.next, (ACCEPTED, 1)), (self.last, (ACCEPTED, 2))):
            request, seen = client.request(1)
            wanted(seen, shown, 'the request of user %d' % client.user)
            self.requests[client.user] = request
        self.last.ask(FLOOR_QUERY, floors(1))
        self.last.listen(0.2)
        self.last.told.clear()
        self.watcher.listen(0.2)
        self.watcher.live.clear()

    def near(self, user):
        with Inside(SERVER):
            stream = socket.create_connection(('127.0.0.1', FIRST_PORT + user), 5)
        client = Client(stream, 1, user)
        client.ask(HELLO)
        return client

    def come(self, user):
        """A connection over the link, whose Hello is answered. HAProxy may not know yet that the server is there."""
        end = time.monotonic() + 15
        while True:
            try:
                with Inside(CLIENTS):
                    stream = socket.create_connection((ADDRESS, FRONT if self.keys else FIRST_PORT + user), 10)
                stream.settimeout(20)
                if self.keys:
                    stream = context_of(self.keys, '1.%d' % user).wrap_socket(stream)
                client = Client(stream, 1, user)
                client.ask(HELLO)
                return client
            except OSError:
                if not self.keys or time.monotonic() > end:
                    raise
                time.sleep(0.2)

    def notice(self, word, user, seconds):
        """Waits for a notice of a user, and gives how long that took."""
        begun = time.monotonic()
        while True:
            for line in self.watcher.live:
                if line.startswith('~ 1 %s ' % word) and line.endswith(' user %d' % user):
                    self.watcher.live.remove(line)
                    return time.monotonic() - begun
            if time.monotonic() - begun > seconds:
                raise Failed('no "%s" of user %d within %d s; heard %s' % (word, user, seconds, self.watcher.live))
            self.watcher.listen(0.05)

    def shown(self, seconds=0.3):
        """What was shown to the program since it was asked last, but for the ends of places."""
        self.watcher.listen(seconds)
        lines = [line for line in self.watcher.live if not line.endswith(' .')]
        self.watcher.live.clear()
        return lines

    def unmoved(self):
        """Nobody was told of floor 1, and no request was shown otherwise."""
        self.last.listen(0.3)
        wanted([it for it in self.last.told if it[0] in (FLOOR_STATUS, FLOOR_REQUEST_STATUS)], [], 'what user 12 was told')
        lines = self.shown()
        wanted([line for line in lines if ' request %d ' % self.requests[HOLDER] in line or
                ' request %d ' % self.requests[NEXT] in line], [], 'what the program was shown')
        return lines

    def again(self, *users):
        """These users come again, and have what they had."""
        clients = [self.come(user) for user in users]
        for client in clients:
            shown = {HOLDER: (GRANTED, 0), NEXT: (ACCEPTED, 1)}[client.user]
            wanted(client.own(), {self.requests[client.user]: shown}, 'the requests of user %d' % client.user)
        return clients

    def goes_on(self, holder, following):
        """The floor goes on to the next as ever: the holder gives it back."""
        holder.ask(FLOOR_RELEASE, number(FLOOR_REQUEST_ID, self.requests[HOLDER]))
        wanted(following.own(), {self.requests[NEXT]: (GRANTED, 0)}, 'the requests of the next')
        wanted(self.last.own(), {self.requests[LAST]: (ACCEPTED, 1)}, 'the requests of the last')

    def members(self):
        """Each live member's user, and whether it is away."""
        lines = [line.split(' ') for line in self.control.ask('members 1')[:-1]]
        return sorted((int(line[3]), 'away' in line) for line in lines)

    def handed_on(self, seconds):
        """Waits until the next has the floor, and gives how long that took."""
        begun = time.monotonic()
        while not any(line.startswith('floor 1 ') and ' holders %d:%d' % (self.requests[NEXT], NEXT) in line
                      for line in self.control.ask('floors 1')):
            if time.monotonic() - begun > seconds:
                raise Failed('the next has no floor after %d s: %s' % (seconds, self.control.ask('floors 1')))
            time.sleep(0.02)
        return time.monotonic() - begun

    def said(self):
        return pathlib.Path(self.log).read_text()

    def end(self):
        self.control.close()
        self.watcher.close()
        self.server.process.kill()
        self.server.process.wait()
        self.server.process.stdin.close()
        self.server.process.stdout.close()
        os.unlink(self.server.path)
        self.errors.close()


def wanted(found, due, what):
    if found != due:
        raise Failed('%s: %s, and not %s' % (what, found, due))


def within(seconds, least, most, what):
    if not least <= seconds <= most:
        raise Failed('%s: %.1f s, and not %.1f to %.1f' % (what, seconds, least, most))


def link(network, floorhub, folder):
    meeting = Meeting(floorhub, folder, '--grace', str(GRACE))
    try:
        # Something is under way to 11 and not to 10: only 11 asked to hear of floor 2.
        meeting.next.ask(FLOOR_QUERY, floors(2))
        other = meeting.near(13)
        network.down()
        down = time.monotonic()
        time.sleep(1)
        other.request(2)
        meeting.notice('away', HOLDER, LOST + LATE)
        idle = time.monotonic() - down
        meeting.notice('away', NEXT, LOST + LATE)
        under_way = time.monotonic() - down
        wanted(meeting.members(), [(10, True), (11, True), (12, False), (13, False)], 'the members')
        network.up()
        holder, following = meeting.again(HOLDER, NEXT)
        for user in (HOLDER, NEXT):
            meeting.notice('back', user, 5)
        wanted(meeting.members(), [(10, False), (11, False), (12, False), (13, False)], 'the members')
        meeting.unmoved()
        meeting.goes_on(holder, following)
    finally:
        network.up()
        meeting.end()
    return 'away after %.1f s where idle, %.1f s where something was under way; both come again and have what they had' % (
        idle, under_way)


def early(network, floorhub, folder):
    meeting = Meeting(floorhub, folder, '--grace', str(GRACE))
    try:
        network.down()
        time.sleep(5)
        network.up()
        wanted(meeting.holder.own(), {meeting.requests[HOLDER]: (GRANTED, 0)}, 'the requests of user 10')
        wanted([line for line in meeting.unmoved() if line.startswith('~')], [], 'the notices')
        meeting.goes_on(meeting.holder, meeting.next)
    finally:
        network.up()
        meeting.end()
    return 'the same connection goes on'


def address(network, floorhub, folder):
    meeting = Meeting(floorhub, folder, '--grace', str(GRACE))
    try:
        network.move(FIRST, SECOND)
        moved = time.monotonic()
        holder, following = meeting.again(HOLDER, NEXT)
        came = time.monotonic() - moved
        wanted(meeting.members(), [(10, False), (10, False), (11, False), (11, False), (12, False)], 'the members')
        while meeting.members() != [(10, False), (11, False), (12, False)]:
            within(time.monotonic() - moved, 0, LOST + LATE, 'the first connections')
            time.sleep(0.2)
        ended = time.monotonic() - moved
        # Nobody is away: whoever was lost is there by another connection.
        wanted([line for line in meeting.unmoved() if line.startswith('~')], [], 'the notices')
        meeting.goes_on(holder, following)
    finally:
        network.move(SECOND, FIRST)
        meeting.end()
    return 'answered after %.1f s, the first connections have ended after %.1f s' % (came, ended)


def inside_a_message(client):
    client.stream.sendall(message(HELLO, 1, 7, client.user)[:5])
    time.sleep(0.1)
    client.stream.close()


ENDS = {
    'reset': (Client.reset, True),
    'inside a message': (inside_a_message, True),
    'in order': (lambda client: client.stream.close(), False),
    'half': (lambda client: client.stream.shutdown(socket.SHUT_WR), False),
}


def ends(network, floorhub, folder):
    said = []
    for words in ((), ('--grace-for', 'all')):
        for name, (end, is_lost) in ENDS.items():
            meeting = Meeting(floorhub, folder, '--grace', str(GRACE), *words)
            try:
                end(meeting.holder)
                if is_lost or words[-1:] == ('all',):
                    meeting.notice('away', HOLDER, 5)
                    wanted(meeting.members(), [(10, True), (11, False), (12, False)], name)
                    holder = meeting.again(HOLDER)[0]
                    meeting.notice('back', HOLDER, 5)
                    meeting.unmoved()
                    meeting.goes_on(holder, meeting.next)
                    said.append('%s %s: away' % (name, ' '.join(words)))
                else:
                    took = meeting.handed_on(5)
                    wanted(meeting.members(), [(11, False), (12, False)], name)
                    wanted([line for line in meeting.shown() if line.startswith('~')], [], 'the notices')
                    said.append('%s %s: leaves (%.2f s)' % (name, ' '.join(words), took))
            except Failed as failed:
                raise Failed('%s %s: %s' % (name, ' '.join(words), failed)) from None
            finally:
                meeting.end()
    return '; '.join(said)


def over(network, floorhub, folder):
    meeting = Meeting(floorhub, folder, '--grace', '3')
    try:
        meeting.holder.reset()
        meeting.notice('away', HOLDER, 5)
        took = meeting.handed_on(10)
        within(took, 2.9, 4.2, 'the grace')
        wanted(' gone' in meeting.said(), True, 'the log tells it')
        wanted(meeting.members(), [(11, False), (12, False)], 'the members')
        client = meeting.come(HOLDER)
        wanted(client.own(), {}, 'the requests of user 10')
    finally:
        meeting.end()
    return 'the next has the floor %.2f s behind "away"' % took


def none(network, floorhub, folder):
    meeting = Meeting(floorhub, folder)
    try:
        meeting.holder.reset()
        took = meeting.handed_on(5)
        wanted([line for line in meeting.shown() if line.startswith('~')], [], 'the notices')
    finally:
        meeting.end()
    return 'the next has the floor after %.2f s' % took


def out(network, floorhub, folder):
    meeting = Meeting(floorhub, folder, '--grace', str(GRACE))
    try:
        # The member of a connection that lives, and one that is away.
        wanted(meeting.control.ask('leave 1 2')[0].split(' at ')[0], 'ok left 1 2', 'leave of who is there')
        meeting.holder.reset()
        meeting.notice('away', HOLDER, 5)
        wanted(meeting.control.ask('leave 1 1')[0].split(' at ')[0], 'ok left 1 1', 'leave of who is away')
        wanted(meeting.members(), [(12, False)], 'the members')
        wanted(meeting.last.own(), {meeting.requests[LAST]: (GRANTED, 0)}, 'the requests of the last')
        meeting.last.reset()
        meeting.notice('away', LAST, 5)
        wanted(meeting.control.ask('close 1')[0].split(' at ')[0], 'ok closed 1', 'close')
        wanted(meeting.control.ask('forget 1')[0], 'ok forgotten 1', 'forget')
    finally:
        meeting.end()
    return 'at once'


def keys(folder):
    """An authority of users, certificates for the server and for the users."""
    openssl('req', '-x509', '-newkey', 'rsa:2048', '-nodes', '-days', '2', '-subj', '/CN=users',
            '-keyout', f'{folder}/users.key', '-out', f'{folder}/users.pem')
    for name in ('server', *('1.%d' % user for user in (HOLDER, NEXT))):
        certificate(folder, name, '/CN=' + name, 'users')


def haproxy(folder):
    with Inside(SERVER):
        proxy = Proxy('haproxy', (EXAMPLES / 'haproxy.cfg').read_text(), folder)
        end = time.monotonic() + 10
        while True:
            try:
                socket.create_connection(('127.0.0.1', FRONT), 1).close()
                return proxy
            except ConnectionRefusedError:
                if time.monotonic() > end:
                    raise
                time.sleep(0.1)


def proxy(network, floorhub, folder):
    keys(folder)
    said = []
    for words in (('--grace-for', 'all'), ()):
        before = haproxy(folder)
        meeting = Meeting(floorhub, folder, '--grace', str(GRACE), *words, folder_of_keys=folder)
        try:
            before.process.kill()
            before.process.wait()
            killed = time.monotonic()
            if words:
                meeting.notice('away', HOLDER, 5)
                meeting.notice('away', NEXT, 5)
                before = haproxy(folder)
                holder, following = meeting.again(HOLDER, NEXT)
                for user in (HOLDER, NEXT):
                    meeting.notice('back', user, 5)
                said.append('both are away, and come again by another HAProxy after %.1f s' % (time.monotonic() - killed))
                meeting.unmoved()
                meeting.goes_on(holder, following)
            else:
                time.sleep(1)
                wanted(meeting.members(), [(12, False)], 'the members')
                said.append('without --grace-for all both leave at once')
        finally:
            if before.process.poll() is None:
                before.stop()
            meeting.end()
    return '; '.join(said)


def behind(network, floorhub, folder):
    keys(folder)
    before = haproxy(folder)
    meeting = Meeting(floorhub, folder, '--grace', str(GRACE), '--grace-for', 'all', folder_of_keys=folder)
    try:
        meeting.next.ask(FLOOR_QUERY, floors(2))
        other = meeting.near(13)
        network.down()
        down = time.monotonic()
        time.sleep(1)
        other.request(2)
        # 60 s idle and three questions, 10 s apart; 90 s for what is under way.
        took = {}
        while len(took) < 2:
            within(time.monotonic() - down, 0, 200, 'the proxy gives them up')
            for line in [line for line in meeting.watcher.live if line.startswith('~ 1 away ')]:
                took[int(line.rsplit(' ', 1)[1])] = time.monotonic() - down
                meeting.watcher.live.remove(line)
            meeting.watcher.listen(0.1)
        network.up()
        holder, following = meeting.again(HOLDER, NEXT)
        for user in (HOLDER, NEXT):
            meeting.notice('back', user, 5)
        meeting.unmoved()
        meeting.goes_on(holder, following)
    finally:
        network.up()
        before.stop()
        meeting.end()
    return 'away after %.0f s where idle, %.0f s where something was under way' % (took[HOLDER], took[NEXT])


def options(network, floorhub, folder):
    meeting = Meeting(floorhub, folder)
    try:
        with Inside(SERVER):
            stream = socket.create_connection(('127.0.0.1', DOOR), 5)
        stream.sendall(proxy_header('1.13'))
        Client(stream, 1, 13).ask(HELLO)
        with Inside(SERVER):
            rows = subprocess.run(['ss', '-tnoH', 'state', 'established'], stdout=subprocess.PIPE, text=True).stdout
        # The server's ends.
        rows = [row for row in rows.splitlines() if re.search(r':(%d|76\d\d)$' % DOOR, row.split()[2])]
        timers = [row.split('timer:')[1].strip() if 'timer:' in row else 'none' for row in rows]
        # Of three users at their ports and one at the door.
        if len(timers) != 4 or not all(re.fullmatch(r'\(keepalive,(1[0-5]|[0-9])(\.\d+)?sec,0\)', it) for it in timers):
            raise Failed('the timers are %s' % rows)
    finally:
        meeting.end()
    return ' '.join(timers)


CASES = (options, early, ends, over, none, out, link, address, proxy, behind)


def main():
    floorhub, *names = sys.argv[1:]
    status = 0
    with Network() as network:
        for case in CASES:
            if names and case.__name__ not in names:
                continue
            begun = time.monotonic()
            with tempfile.TemporaryDirectory(prefix='grace-') as folder:
                try:
                    said = case(network, os.path.abspath(floorhub), folder)
                    print('%s: %s, %.0f s' % (case.__name__, said, time.monotonic() - begun), flush=True)
                except (Failed, OSError, SystemExit) as failed:
                    status = 1
                    print('%s: FAILED: %s' % (case.__name__, failed), flush=True)
                    log = pathlib.Path(folder, 'log')
                    print(log.read_text()[-2000:] if log.exists() else 'no log', flush=True)
    return status


if __name__ == '__main__':
    sys.exit(main())
