"""What the tries of a gateway for room systems use: a floorhub and a floorudp before it, peers that speak version 2 over
UDP, a network that loses, and the count of what passed and failed.
"""
import os
import random
import select
import socket
import struct
import subprocess
import tempfile
import threading
import time

import server
from datagrams import error, head, id_of, units_of
from server import FIRST_PORT

DOOR = FIRST_PORT + 300
HOST = "127.0.0.1"
PORT = FIRST_PORT + 301
GRACE = 3
FLOOR_REQUEST, FLOOR_RELEASE, REQUEST_QUERY, REQUEST_STATUS, FLOOR_QUERY, FLOOR_STATUS = 1, 2, 3, 4, 7, 8
HELLO, HELLO_ACK, ERROR, REQUEST_ACK, FLOOR_ACK, GOODBYE, GOODBYE_ACK = 11, 12, 13, 14, 15, 16, 17
GRANTED = 3

# The names of the tries that gave what they should, and of those that didn't.
passed, failed = [], []


def check(name, got, wanted=True):
    """Takes down whether a try gave what it should."""
    (passed if got == wanted else failed).append(name)
    if got != wanted:
        print("FAILED %s: %r, wanted %r" % (name, got, wanted), flush=True)


def floor(*numbers):
    """FLOOR-ID attributes."""
    return b"".join(struct.pack(">BBH", 4, 4, number) for number in numbers)


def request_id(number):
    """A FLOOR-REQUEST-ID attribute."""
    return struct.pack(">BBH", 6, 4, number)


def configuration(users, conferences=1, floors=3, keys=""):
    """The text of a configuration, by the `udp` of each user; a user without one has None."""
    text = ""
    for conference in range(1, conferences + 1):
        text += "[[conference]]\nid = %d\nlimit = 16\n%s" % (conference, keys)
        for user, origin in users.items():
            text += "[[conference.user]]\nid = %d\n" % user
            text += 'udp = "%s"\n' % origin if origin else ""
        for number in range(1, floors + 1):
            text += "[[conference.floor]]\nid = %d\n" % number
    return text


class Gate:
    """A floorhub, and a floorudp before it."""

    def __init__(self, floorhub, floorudp, text, *words, control=False, grace=GRACE):
        self.program, self.words, self.variables = floorudp, words, {}
        self.folder = tempfile.mkdtemp()
        self.hub_log = open(self.folder + "/hub.log", "w+")
        self.gate_log = open(self.folder + "/gate.log", "w+")
        self.control = self.folder + "/control"
        hub_words = ["--door-by-id", str(DOOR), "--grace", str(grace), "--log"]
        if control:
            hub_words += ["--control", self.control]
            self.words = [*words, "--control", self.control]
        self.hub = server.Server(floorhub, text, words=hub_words, errors=self.hub_log)
        self.start()

    def start(self):
        command = [self.program, "%s:%d" % (HOST, PORT), self.hub.path, "--door-by-id", str(DOOR), "--log", *self.words]
        self.process = subprocess.Popen(command, stdin=subprocess.PIPE, stdout=subprocess.PIPE, stderr=self.gate_log,
                                        env={**os.environ, **self.variables})
        if self.process.stdout.readline() != b"ready\n":
            raise SystemExit("floorudp isn't ready: %r" % self.log())

    def log(self):
        """What floorudp told, without the times."""
        with open(self.folder + "/gate.log") as file:
            return [line.split(" ", 1)[-1].rstrip("\n") for line in file]

    def hub_says(self, word):
        """How many lines of floorhub's log have a word."""
        with open(self.folder + "/hub.log") as file:
            return sum(1 for line in file if word in line)

    def served(self, conference=1):
        """The messages that the journal has of each member, by user."""
        users, found = {}, {}
        for line in self.hub.journal(conference):
            words = line.split()
            if words[1:2] == ["join"]:
                users[len(users) + 1] = int(words[2])
            if words[1:2] == ["message"]:
                found.setdefault(users[int(words[2])], []).append(bytes.fromhex(words[3]))
        return found

    def messages(self, conference=1):
        """The same, each as (primitive, Transaction ID)."""
        served = self.served(conference)
        return {user: [(message[1], id_of(message)) for message in served[user]] for user in served}

    def memory(self):
        """The resident memory of floorudp, in kB."""
        with open("/proc/%d/status" % self.process.pid) as file:
            return next(int(line.split()[1]) for line in file if line.startswith("VmRSS"))

    def processor(self):
        """The seconds of a processor that floorudp and floorhub had."""
        def of(pid):
            with open("/proc/%d/stat" % pid) as file:
                fields = file.read().rsplit(")", 1)[1].split()
            return (int(fields[11]) + int(fields[12])) / os.sysconf("SC_CLK_TCK")
        return of(self.process.pid), of(self.hub.pid)

    def end_gate(self):
        """Ends the input of floorudp, and gives its status and how long it took."""
        start = time.monotonic()
        self.process.stdin.close()
        return self.process.wait(20), time.monotonic() - start

    def end(self):
        if self.process.poll() is None:
            self.end_gate()
        self.hub.stop()
        self.hub_log.close()
        self.gate_log.close()


class Peer:
    """A room system: user of a conference at an address and port of its own."""

    def __init__(self, user, conference=1, address=HOST, port=0, to=(HOST, PORT), first=1):
        self.conference, self.user, self.to = conference, user, to
        self.socket = socket.socket(socket.AF_INET, socket.SOCK_DGRAM)
        self.socket.setsockopt(socket.SOL_SOCKET, socket.SO_RCVBUF, 1 << 20)
        self.socket.bind((address, port))
        self.port = self.socket.getsockname()[1]
        self.next = first
        # The notices that came; whether they are acknowledged.
        self.told, self.acknowledges = [], True

    def message(self, primitive, transaction, payload=b"", first=0x40):
        return head(first, primitive, len(payload) // 4, self.conference, transaction, self.user) + payload

    def send(self, datagram):
        self.socket.sendto(datagram, self.to)

    def hear(self, seconds=1.0):
        """The next datagram, None where none comes in time."""
        if not select.select([self.socket], [], [], seconds)[0]:
            return None
        return self.socket.recv(1 << 16)

    def all(self, seconds):
        """All datagrams that come within so many seconds, none of them acknowledged."""
        end, came = time.monotonic() + seconds, []
        while (left := end - time.monotonic()) > 0:
            if (datagram := self.hear(left)) is not None:
                came.append(datagram)
        return came

    def acknowledge(self, notice, first=0x50):
        ack = {REQUEST_STATUS: REQUEST_ACK, FLOOR_STATUS: FLOOR_ACK, GOODBYE: GOODBYE_ACK}[notice[1]]
        self.send(self.message(ack, id_of(notice), first=first))

    def take(self, datagram):
        """Acknowledges a notice, and keeps it."""
        self.told.append(datagram)
        if self.acknowledges:
            self.acknowledge(datagram)

    def listen(self, seconds):
        """Takes notices for so many seconds."""
        end = time.monotonic() + seconds
        while (left := end - time.monotonic()) > 0:
            datagram = self.hear(left)
            if datagram is not None and not datagram[0] & 16:
                self.take(datagram)

    def ask(self, primitive, payload=b"", tries=4, wait=0.5):
        """Sends a request as RFC 8855 wants it sent, and gives the answer; None where there is none."""
        transaction, self.next = self.next, self.next % 65535 + 1
        request = self.message(primitive, transaction, payload)
        for number in range(tries):
            self.send(request)
            end = time.monotonic() + wait * 2 ** number
            while (left := end - time.monotonic()) > 0:
                datagram = self.hear(left)
                if datagram is None:
                    continue
                if datagram[0] & 16 and id_of(datagram) == transaction:
                    return datagram
                if not datagram[0] & 16:
                    self.take(datagram)
        return None

    def close(self):
        self.socket.close()


class Member:
    """A member at floorhub's door, version 1 over TCP."""

    def __init__(self, user, conference=1):
        self.user, self.conference, self.next = user, conference, 1
        self.stream = server.connect(DOOR)
        self.stream.sendall(server.header_by_id("%d.%d" % (conference, user)))
        self.ask(HELLO)

    def ask(self, primitive, payload=b""):
        """The answer to a request."""
        transaction, self.next = self.next, self.next + 1
        self.stream.sendall(head(0x20, primitive, len(payload) // 4, self.conference, transaction, self.user) + payload)
        while True:
            message = server.hear(self.stream, 12)
            message += server.hear(self.stream, 4 * units_of(message))
            if id_of(message) == transaction:
                return message


class Network:
    """What carries datagrams between one peer and floorudp, and loses, repeats and delays some of them."""

    def __init__(self, lost, twice, late, seed, to=(HOST, PORT)):
        self.lost, self.twice, self.late = lost, twice, late
        self.random = random.Random(seed)
        self.near = socket.socket(socket.AF_INET, socket.SOCK_DGRAM)
        self.near.bind((HOST, 0))
        self.far = socket.socket(socket.AF_INET, socket.SOCK_DGRAM)
        self.far.bind((HOST, 0))
        self.address, self.to, self.peer = self.near.getsockname(), to, None
        self.is_over = False
        threading.Thread(target=self.carry, daemon=True).start()

    def carry(self):
        while not self.is_over:
            for side in select.select([self.near, self.far], [], [], 0.2)[0]:
                try:
                    datagram, source = side.recvfrom(1 << 16)
                except OSError:
                    continue
                if side is self.near:
                    self.peer = source
                    self.pass_on(self.far, datagram, self.to)
                elif self.peer:
                    self.pass_on(self.near, datagram, self.peer)

    def pass_on(self, by, datagram, to):
        if self.random.random() < self.lost:
            return
        for _ in range(2 if self.random.random() < self.twice else 1):
            threading.Timer(self.random.random() * self.late, self.send, (by, datagram, to)).start()

    def send(self, by, datagram, to):
        try:
            by.sendto(datagram, to)
        except OSError:
            pass

    def end(self):
        self.is_over = True
        self.near.close()
        self.far.close()
