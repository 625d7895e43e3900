#!/usr/bin/env python3
"""A long run: ./soak.py SERVER [EVENTS [SECONDS]]

At least so many events (5,000,000) beside acknowledgements, over 100 conferences. Each has 64 live
connections for a while, then 8; it has 256 ongoing requests, the last in position 255, and is
refused one more of each. Then it is served Hellos, queries, malformed messages and pairs of a
request and its release, while connections leave and others join, and one now and then never reads
what it asks for: it has to be shut down, and what it got to be a beginning of its answers. Conference
1 goes on to its
65,535th floor request, conference 2 to its 2,000,000th event. Every byte is compared with what RFC
8855 and docs/protocol.md call for. Prints the server's memory each so many seconds (5); at the end
threads and descriptors have to be what they were at the start. Each conference has at least the
events that its clients made, and the report of `stop` is their sum. Status 1 where anything is
otherwise.
"""
import multiprocessing
import queue
import socket
import sys
import time

import messages
from messages import (ACCEPTED, BENEFICIARY_ID, CANCELLED, FLOOR_QUERY, FLOOR_RELEASE,
                      FLOOR_REQUEST, FLOOR_REQUEST_ID, FLOOR_REQUEST_QUERY, GRANTED, HELLO,
                      RELEASED, USER_QUERY, error, floor_request_status, floors, hello_ack,
                      message, number)
from server import Server, connect, hear

CONFERENCES = 100
FIRST_PORT = 10_000
# User 10 asks for floors for all; users 10, 11 and 12 connect, the last to read nothing.
PROXY, OTHER, SILENT = 10, 11, 12
USERS = range(10, 26)
LIVE = 8
DEADLINE = 60
DRIVERS = 2
MAX_EVENTS = 2_000_000
# Of so many Hellos of a peer that reads nothing not all are answered, and within so many seconds it is
# gone.
SILENT_HELLOS, UNREAD = 8_000, 12


def port_of(conference, user):
    return FIRST_PORT + 3 * (conference - 1) + user - PROXY


def configuration():
    rows = []
    for conference in range(1, CONFERENCES + 1):
        rows.append('[[conference]]\nid = %d\nlimit = 16\n' % conference)
        for user in USERS:
            rows.append('[[conference.user]]\nid = %d\nproxy = %s\n' % (
                user, str(user == PROXY).lower()))
            if user in (PROXY, OTHER, SILENT):
                rows.append('port = %d\n' % port_of(conference, user))
        rows.append('[[conference.floor]]\nid = 1\n[[conference.floor]]\nid = 2\n')
    return ''.join(rows)


class Wrong(Exception):
    """An answer that isn't the one that is called for."""


class Conference:
    """One conference and its connections, which take turns: so every number is known."""

    def __init__(self, conference):
        self.conference = conference
        self.clients = []
        self.events = 0
        self.seats = 0
        self.requests = 0
        self.turn = 0
        self.silent = None
        self.shut = 0

    def join(self, user):
        client = connect(port_of(self.conference, user))
        client.settimeout(DEADLINE)
        self.clients.append((client, user))
        self.seats += 1
        self.events += 1
        self.exchange(client, [(self.hello(user), hello_ack(self.conference, 1, user))])

    def leave(self, place):
        """Lets a connection leave, and waits until it has."""
        client, _ = self.clients.pop(place)
        client.shutdown(socket.SHUT_WR)
        if client.recv(1):
            raise Wrong('conference %d: more than was asked for' % self.conference)
        client.close()
        self.events += 1

    def hello(self, user, transaction=1):
        return message(HELLO, self.conference, transaction, user)

    def ask(self, primitive, user, payload=b''):
        return message(primitive, self.conference, 7, user, payload)

    def told(self, user, request, status, position, floor, transaction=7):
        return floor_request_status(self.conference, transaction, user, request, status, position,
                                    floor)

    def error(self, user, code, details=b''):
        return error(self.conference, 7, user, code, details)

    def exchange(self, client, pairs):
        """Sends messages, and compares their answers."""
        client.sendall(b''.join(asked for asked, _ in pairs))
        self.events += len(pairs)
        self.hear(client, b''.join(answer for _, answer in pairs))

    def hear(self, client, wanted):
        heard = bytearray()
        while len(heard) < len(wanted):
            piece = client.recv(len(wanted) - len(heard))
            if not piece:
                break
            heard += piece
        if heard != wanted:
            at = next((k for k, (a, b) in enumerate(zip(heard, wanted)) if a != b), len(heard))
            raise Wrong('conference %d, byte %d: %s, not %s' % (
                self.conference, at, bytes(heard[at:at + 32]).hex(), wanted[at:at + 32].hex()))

    def fill(self):
        """64 members, and one more that is shut down; then all but 8 leave."""
        self.join(PROXY)
        for _ in range(63):
            self.join(OTHER)
        beyond = connect(port_of(self.conference, PROXY))
        beyond.settimeout(DEADLINE)
        if beyond.recv(1):
            raise Wrong('conference %d: a 65th member is answered' % self.conference)
        beyond.close()
        while len(self.clients) > LIVE:
            self.leave(len(self.clients) - 1)

    def queue(self):
        """256 requests for floor 1, 16 for each user, all asked for by the proxy; one more for
        each reason is refused; then all are given back, the last first."""
        granted = self.requests + 1
        numbers = range(granted, granted + 256)
        client = self.clients[0][0]
        self.on_floor_1(client, FLOOR_REQUEST, [
            (request, USERS[(request - granted) // 16], floors(1),
             GRANTED if request == granted else ACCEPTED, request - granted)
            for request in numbers])
        for_ = number(BENEFICIARY_ID, OTHER)
        self.exchange(client, [(self.ask(FLOOR_REQUEST, PROXY, floors(1) + for_),
                                self.error(PROXY, 8)),
                               (self.ask(FLOOR_REQUEST, PROXY, floors(2) + for_),
                                self.error(PROXY, 14))])
        self.requests += 256
        self.on_floor_1(client, FLOOR_RELEASE, [
            (request, USERS[(request - granted) // 16], number(FLOOR_REQUEST_ID, request),
             RELEASED if request == granted else CANCELLED, 0)
            for request in reversed(numbers)])

    def on_floor_1(self, client, primitive, rows):
        """Messages of the proxy on requests for floor 1, of which the beneficiary is told too."""
        pairs = []
        notices = b''
        for request, user, payload, status, position in rows:
            if primitive == FLOOR_REQUEST and user != PROXY:
                payload += number(BENEFICIARY_ID, user)
            pairs.append((self.ask(primitive, PROXY, payload), floor_request_status(
                self.conference, 7, PROXY, request, status, position, 1, user, PROXY)))
            if user == OTHER:
                notices += floor_request_status(
                    self.conference, 0, OTHER, request, status, position, 1, OTHER, PROXY)
        self.exchange(client, pairs)
        self.others_hear(OTHER, client, notices)

    def others_hear(self, user, client, wanted):
        """Compares what the other connections of a user are told."""
        for other, by in self.clients:
            if by == user and other is not client:
                self.hear(other, wanted)

    def pairs(self, user, count):
        """Requests for floor 2, each given back at once."""
        pairs = []
        count = min(count, 65_535 - self.requests)
        for request in range(self.requests + 1, self.requests + count + 1):
            pairs.append((self.ask(FLOOR_REQUEST, user, floors(2)),
                          self.told(user, request, GRANTED, 0, 2)))
            pairs.append((self.ask(FLOOR_RELEASE, user, number(FLOOR_REQUEST_ID, request)),
                          self.told(user, request, RELEASED, 0, 2)))
        self.requests += count
        return pairs

    def piece(self, user, hellos):
        """Messages that change nothing, and their answers."""
        return [(self.hello(user), hello_ack(self.conference, 1, user))] * hellos + [
            (self.ask(FLOOR_QUERY, user), self.ask(messages.FLOOR_STATUS, user)),
            (self.ask(USER_QUERY, user), self.ask(messages.USER_STATUS, user)),
            (self.ask(FLOOR_REQUEST_QUERY, user, number(FLOOR_REQUEST_ID, 0)), self.error(user, 7)),
            (self.ask(HELLO, user, bytes.fromhex('04010001')), self.error(user, 10)),
            (self.ask(HELLO, user, bytes.fromhex('29040000')), self.error(user, 4, b'\x28')),
            (self.ask(FLOOR_REQUEST, user, floors(9)), self.error(user, 6)),
        ]

    def go_on(self):
        """One turn: a connection is served; now and then one leaves, and another joins."""
        place = self.turn % LIVE
        client, user = self.clients[place]
        self.exchange(client, self.piece(user, 194))
        pairs = self.pairs(user, 10)
        self.exchange(client, pairs)
        self.others_hear(user, client, b''.join(
            answer[:8] + b'\0\0' + answer[10:] for _, answer in pairs))
        if user == OTHER and self.turn % 10 == 9:
            self.leave(place)
            self.join(OTHER)
        if self.silent and time.monotonic() > self.silent[1]:
            self.is_gone()
        elif not self.silent and self.turn % 20 == self.conference % 20:
            self.fall_behind()
        self.turn += 1

    def fall_behind(self):
        """A connection that asks for more answers than the sockets hold and 1,024 messages, and reads
        none."""
        client = connect(port_of(self.conference, SILENT), narrow=True)
        client.setblocking(False)
        asked = self.hello(SILENT) * SILENT_HELLOS
        sent = 0
        end = time.monotonic() + UNREAD
        while sent < len(asked) and time.monotonic() < end:
            try:
                sent += client.send(asked[sent:])
            except BlockingIOError:
                time.sleep(0.01)
            except OSError:
                break  # it is gone already
        self.silent = client, time.monotonic() + UNREAD
        self.seats += 1

    def is_gone(self):
        """Reads what the connection got that fell behind, which has to end before all answers."""
        client, _ = self.silent
        self.silent = None
        client.settimeout(DEADLINE)
        heard = bytearray()
        try:
            while piece := client.recv(65_536):
                heard += piece
        except ConnectionResetError:
            pass  # Hellos that nobody read any more
        client.close()
        wanted = hello_ack(self.conference, 1, SILENT) * SILENT_HELLOS
        if not wanted.startswith(heard) or len(heard) == len(wanted):
            raise Wrong('conference %d: who reads nothing gets %d bytes' % (
                self.conference, len(heard)))
        self.events += 2 + len(heard) // 48
        self.shut += 1

    def all_numbers(self):
        """Pairs up to the 65,535th request; the next is refused."""
        client, user = self.clients[0]
        while self.requests < 65_535:
            self.exchange(client, self.pairs(user, 200))
        self.exchange(client, [(self.ask(FLOOR_REQUEST, user, floors(2)), self.error(user, 14))])

    def all_events(self):
        """Hellos up to the 2,000,000th event, acknowledgements among them; then every connection is
        shut down that speaks."""
        client, user = self.clients.pop(0)
        wanted = heard = hello_ack(self.conference, 1, user) * 500
        while heard == wanted:
            try:
                client.sendall(self.hello(user) * 500)
                heard = hear(client, len(wanted))
            except ConnectionResetError:
                # Hellos that nobody reads any more make the end a reset, which may overtake answers.
                break
        if not wanted.startswith(heard):
            raise Wrong('conference %d: a HelloAck is wrong' % self.conference)
        client.close()
        self.events = MAX_EVENTS
        for client, user in self.clients:
            client.sendall(self.hello(user))
            if client.recv(1):
                raise Wrong('conference %d: an event beyond the last' % self.conference)
            client.close()
        self.clients = []

    def end(self):
        if self.silent:
            time.sleep(max(0, self.silent[1] - time.monotonic()))
            self.is_gone()
        while self.clients:
            self.leave(len(self.clients) - 1)


def drive(numbers, events, start, results):
    """Drives some of the conferences to so many events in all."""
    conferences = [Conference(k) for k in numbers]
    try:
        for conference in conferences:
            conference.fill()
        start.wait()
        for conference in conferences:
            conference.queue()
        for conference in conferences:
            if conference.conference == 1:
                conference.all_numbers()
            if conference.conference == 2:
                conference.all_events()
        while sum(conference.events for conference in conferences) < events:
            for conference in conferences:
                if conference.clients:
                    conference.go_on()
        for conference in conferences:
            conference.end()
        results.put((None, [(c.conference, c.seats, c.events, c.shut) for c in conferences]))
    except Exception as fault:
        results.put((repr(fault), []))


def tell(server, began, what=''):
    held = server.held()
    print('%6.1f s: VmRSS %8d kB, %5d threads, %5d descriptors%s' % (
        time.monotonic() - began, held['VmRSS'], held['Threads'], held['descriptors'], what),
        flush=True)
    return held


def main():
    if len(sys.argv) < 2:
        raise SystemExit(__doc__)
    events = int(sys.argv[2]) if len(sys.argv) > 2 else 5_000_000
    seconds = float(sys.argv[3]) if len(sys.argv) > 3 else 5
    server = Server(sys.argv[1], configuration())
    began = time.monotonic()
    before = tell(server, began)
    start = multiprocessing.Barrier(DRIVERS)
    results = multiprocessing.Queue()
    drivers = [multiprocessing.Process(
        target=drive, daemon=True, args=(
            range(1 + k, CONFERENCES + 1, DRIVERS), events / DRIVERS, start, results))
        for k in range(DRIVERS)]
    for driver in drivers:
        driver.start()
    made = []
    for _ in drivers:
        while True:
            tell(server, began)
            try:
                wrong, some = results.get(timeout=seconds)
                break
            except queue.Empty:
                pass
        if wrong:
            server.process.kill()
            raise SystemExit('FAILED: %s' % wrong)
        made += some
    took = time.monotonic() - began
    end = time.monotonic() + DEADLINE
    while True:
        after = server.held()
        if all(after[name] == before[name] for name in ('Threads', 'descriptors')):
            break
        if time.monotonic() > end:
            raise SystemExit('FAILED: threads and descriptors stay: %s' % after)
        time.sleep(0.1)
    tell(server, began, ' at the end')
    seats = total = shut = 0
    for conference, some_seats, least, some_shut in made:
        events = int(server.ask('status %d' % conference).split()[7])
        if not least <= events <= MAX_EVENTS:
            raise SystemExit('FAILED: %d events of conference %d, and at least %d were made' % (
                events, conference, least))
        seats += some_seats
        total += events
        shut += some_shut
    print('%d events in %.0f s, %.0f bytes of memory for each; %d peers that read nothing are gone' % (
        total, took, 1024 * (after['VmRSS'] - before['VmRSS']) / total, shut))
    began = time.monotonic()
    report = server.stop()
    print('%s, status %d, after %.1f s' % (*report, time.monotonic() - began))
    if report != ('ok stopped seats %d events %d' % (seats, total), 0):
        raise SystemExit('FAILED: there were %d seats and %d events' % (seats, total))


if __name__ == '__main__':
    main()
