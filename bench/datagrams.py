#!/usr/bin/env python3
"""Sessions of floor_datagram beside a model, over inputs by chance.

    bench/datagrams.py PROGRAM [INPUTS] [SEED]

PROGRAM is test_datagrams, built in any way. A model of a session in Python, written by the rules of docs/protocol.md
and not by the definitions, is driven by random datagrams, pieces of a server's stream, times and ends; what it sends is
what the program has to send. INPUTS is how many inputs there are, 1,000,000 if not given, in files of 20,000; the seed
is printed. The status is 1 where something differs.
"""
import pathlib
import random
import struct
import subprocess
import sys
import tempfile

LONGEST = 8192
ROOM = 65536


def head(first, primitive, units, conference, transaction, user):
    return struct.pack(">BBHIHH", first, primitive, units, conference, transaction, user)


def error(datagram, code):
    return head(0x50, 13, 1, *struct.unpack(">IHH", datagram[4:12])) + bytes([12, 3, code, 0])


def units_of(datagram):
    return struct.unpack(">H", datagram[2:4])[0]


def id_of(datagram):
    return struct.unpack(">H", datagram[8:10])[0]


class Session:
    """One peer's session. Each call gives the bytes for the server, the datagrams for the peer, and how it ended."""

    def __init__(self, conference, user, limit, probe, first):
        self.conference, self.user, self.limit, self.probe = conference, user, limit, probe
        self.last = self.asked = None
        self.answer = []
        self.next = (first + 32768) % 65536
        self.out = None
        self.waiting = {}
        self.own = {}
        self.parts = None
        self.stream = b""
        self.answered = False
        self.round = None
        self.t1 = 500
        self.heard = 0
        self.end = None
        self.up, self.down = b"", []

    def finish(self, end):
        self.end = end
        self.out, self.waiting, self.own, self.parts, self.stream = None, {}, {}, None, b""

    # ---- the peer

    def peer(self, datagram, now):
        self.heard = now
        if datagram[0] & 8:
            whole = self.fragment(datagram, now)
            if whole is not None:
                self.judge(whole, now)
        elif len(datagram) != 12 + 4 * units_of(datagram):
            if not datagram[0] & 16:
                self.down.append(error(datagram, 13))
        else:
            self.judge(datagram, now)

    def judge(self, message, now):
        primitive, transaction = message[1], id_of(message)
        if message[0] & 16 or primitive in (14, 15, 17):
            self.acknowledge(transaction, now)
        elif primitive != 13 and transaction:
            self.request(message, primitive, transaction)

    def age(self, transaction):
        if self.last is None:
            return "newer"
        ahead = (transaction - self.last) % 65536
        return "copy" if ahead == 0 else "newer" if ahead < 32768 else "older"

    def request(self, message, primitive, transaction):
        age = self.age(transaction)
        if age == "copy":
            self.down += self.answer
        if age != "newer" or self.end:
            return
        if primitive == 16:
            self.last, self.answer = transaction, [head(0x50, 17, 0, *struct.unpack(">IHH", message[4:12]))]
            self.down += self.answer
            self.finish("Goodbye")
        elif len(message) <= ROOM:
            self.last, self.asked, self.answer = transaction, primitive, []
            self.up += b"\x20" + message[1:]

    def fragment(self, datagram, now):
        if datagram[0] & 16 or len(datagram) < 16:
            return None
        offset, units = struct.unpack(">HH", datagram[12:16])
        if not units:
            return None
        key = datagram[1:12]
        if offset + units > units_of(datagram) or len(datagram) != 16 + 4 * units or 12 + 4 * units_of(datagram) > LONGEST:
            self.down.append(error(datagram, 13))
            if self.parts and self.parts[0] == key:
                self.parts = None
            return None
        age = self.age(id_of(datagram))
        if age == "copy" and offset == 0:
            self.down += self.answer
        if age != "newer" or self.end:
            return None
        if not self.parts or self.parts[0] != key:
            self.parts = (key, {}, now)
        held = self.parts[1]
        if offset in held and len(held[offset]) == 4 * units:
            return None
        if any(offset < at + len(body) // 4 and at < offset + units for at, body in held.items()):
            self.parts = None
            return None
        held[offset] = datagram[16:]
        if sum(map(len, held.values())) < 4 * units_of(datagram):
            return None
        self.parts = None
        return b"\x40" + key + b"".join(held[at] for at in sorted(held))

    # ---- notices

    def acknowledge(self, transaction, now):
        if not self.out or self.out["id"] != transaction:
            return
        if self.out["tries"] == 1:
            self.measure(min(60000, now - self.out["first"]))
        self.out = None
        self.pump(now)

    def measure(self, time):
        if self.round is None:
            self.round = (time, time // 2)
        else:
            smoothed, variation = self.round
            self.round = ((7 * smoothed + time) // 8, (3 * variation + abs(smoothed - time)) // 4)
        self.t1 = min(60000, max(500, self.round[0] + max(100, 4 * self.round[1])))

    def pump(self, now):
        if self.out is None and self.waiting:
            self.begin(self.waiting.pop(next(iter(self.waiting))), now)

    def begin(self, message, now):
        transaction = self.next or 1
        if self.last is not None and (transaction - self.last) % 65536 < 1024:
            transaction = (transaction + 16384) % 65536 or 1
        self.next = (transaction + 1) % 65536
        datagrams = self.cut(b"\x40" + message[1:8] + struct.pack(">H", transaction) + message[10:])
        self.out = {"id": transaction, "datagrams": datagrams, "first": now, "tries": 1, "t1": self.t1}
        self.down += datagrams

    def cut(self, message):
        if len(message) <= self.limit:
            return [message]
        step = (self.limit - 16) // 4 * 4
        return [
            bytes([message[0] | 8]) + message[1:12] + struct.pack(">HH", (at - 12) // 4, len(message[at : at + step]) // 4) + message[at : at + step]
            for at in range(12, len(message), step)
        ]

    # ---- the server

    def server(self, piece, now):
        if self.end:
            return
        self.stream += piece
        while len(self.stream) >= 12 and len(self.stream) >= 12 + 4 * units_of(self.stream):
            size = 12 + 4 * units_of(self.stream)
            message, self.stream = self.stream[:size], self.stream[size:]
            self.message(message, now)

    def subject(self, message):
        return message[1], message[14:16] if len(message) >= 16 else b"\0\0"

    def message(self, message, now):
        primitive, transaction = message[1], id_of(message)
        self.answered = True
        if primitive == 4 and len(message) > 22:
            request = self.subject(message)
            if transaction == 0 or request in self.own or (transaction == self.last and self.asked == 1):
                self.own.pop(request, None)
                if message[22] < 4:
                    self.own[request] = message
        if transaction == 0:
            self.waiting[self.subject(message)] = message
            self.pump(now)
            return
        if primitive in (4, 8) and len(message) >= 16 and self.out:
            self.waiting[self.subject(message)] = message
        message = with_primitives(message)
        datagrams = self.cut(b"\x50" + message[1:])
        self.down += datagrams
        if transaction == self.last:
            self.answer = datagrams

    # ---- ends and times

    def part(self, end, now):
        self.finish(end)
        self.begin(head(0x20, 16, 0, self.conference, 0, self.user), now)

    def ended(self, now):
        if self.end:
            return
        if self.answered:
            self.part("ServerGone", now)
            return
        self.finish("NoServer")
        if self.last is not None:
            self.answer = [error(head(0, 0, 0, self.conference, self.last, self.user), 14)]
            self.down += self.answer

    def lose(self, end):
        if not self.end:
            self.up += b"\x20"
            self.finish(end)

    def shut(self, now):
        if not self.end:
            self.part("ShutOut", now)
            self.up += b"\x20"

    def dues(self):
        """When something is due, 0 among it."""
        dues = [0]
        if self.parts:
            dues.append(self.parts[2] + max(10000, 20 * self.t1))
        if self.out:
            dues.append(self.out["first"] + self.out["t1"] * (2 ** self.out["tries"] - 1))
        elif self.own:
            dues.append(self.heard + self.probe)
        return dues

    def time(self, now):
        if self.parts and now - self.parts[2] >= max(10000, 20 * self.t1):
            self.parts = None
        if self.out:
            late = now - self.out["first"] >= self.out["t1"] * (2 ** self.out["tries"] - 1)
            if late and self.out["tries"] == 4:
                self.out = None
                self.lose("Lost")
            elif late:
                self.out["tries"] += 1
                self.down += self.out["datagrams"]
        elif self.own and now - self.heard >= self.probe:
            self.begin(list(self.own.values())[-1], now)


def with_primitives(message):
    """A HelloAck that lists the primitives of version 2 behind the server's."""
    if message[1] != 12 or len(message) < 14 or message[12] // 2 != 11:
        return message
    size = message[13]
    if not 2 <= size < 252 or 12 + size > len(message) or units_of(message) == 65535:
        return message
    body = bytes([message[12], size + 4]) + message[14 : 12 + size] + bytes([14, 15, 16, 17]) + message[12 + size :]
    return message[:2] + struct.pack(">H", units_of(message) + 1) + message[4:12] + body


class Chance:
    """Inputs by chance, most of which mean something."""

    def __init__(self, random):
        self.random = random

    def begin(self):
        r = self.random
        self.now = 0
        self.fragmented = 1, 3, 2
        self.sent = [r.choice([1, 32767, 65535, r.randrange(1, 65536)])]
        self.numbers = (1, 10, r.choice([576, 1200, 8192]), r.choice([5000, 10000]), self.sent[0])
        self.model = Session(*self.numbers)

    def transaction(self):
        r = self.random
        kind = r.random()
        if kind < 0.45:
            self.sent.append((self.sent[-1] + r.choice([1, 1, 1, 2, 300])) % 65536)
            return self.sent[-1]
        if kind < 0.5:
            self.sent.append((self.model.next - r.randrange(1020, 1028)) % 65536)
            return self.sent[-1]
        if kind < 0.85:
            return r.choice(self.sent[-3:])
        return r.choice([0, r.randrange(65536), (self.sent[-1] + 32768) % 65536])

    def payload(self, units):
        return bytes(self.random.choice([0, 1, 2, 4, 8, 30, 255]) for _ in range(4 * units))

    def datagram(self):
        r = self.random
        kind = r.random()
        if kind < 0.3 and self.model.out:
            transaction = self.model.out["id"] if r.random() < 0.8 else (self.model.out["id"] + 1) % 65536
            return head(r.choice([0x50, 0x40]), r.choice([14, 15, 17]), 0, 1, transaction, 10)
        first = r.choice([0x40] * 12 + [0x50, 0x47])
        primitive = r.choice([1, 1, 2, 5, 7, 7, 11, 11, 99, 13, 14, 15, 17] + ([16] if r.random() < 0.1 else []))
        units = r.choice([0, 1, 2, 3])
        transaction = self.transaction()
        if kind < 0.55:
            if r.random() < 0.2:
                self.fragmented = primitive, units if r.random() < 0.9 else r.choice([2046, 65535]), transaction
            primitive, announced, transaction = self.fragmented
            offset, size = r.randrange(4), r.randrange(4)
            return head(first | 8, primitive, announced, 1, transaction, 10) + struct.pack(">HH", offset, size) + self.payload(size if r.random() < 0.9 else 1)
        announced = units if r.random() < 0.92 else units + 1
        return head(first, primitive, announced, 1, transaction, 10) + self.payload(units)

    def message(self):
        r = self.random
        primitive = r.choice([4, 4, 4, 8, 8, 8, 12, 13, 10])
        transaction = r.choice([0, 0, self.model.last or 0, r.choice(self.sent)])
        if primitive == 4:
            payload = bytes([0x1e, 16, 0, r.choice([1, 2]), 0x24, 8, 0, 1, 0x0A, 4, r.choice([1, 3, 3, 6]), 0, 0x22, 4, 0, 1])
        elif primitive == 8:
            payload = bytes([4, 4, 0, r.choice([1, 2])]) + self.payload(r.choice([0, 1, 200]))
        elif primitive == 12:
            payload = bytes([0x16, 4, 1, 11, 0x14, 3, 2, 0])
        else:
            payload = self.payload(r.choice([0, 1]))
        return head(0x20, primitive, len(payload) // 4, 1, transaction, 10) + payload

    def line(self):
        """A line of a script, and what the model sends by it."""
        r, model = self.random, self.model
        self.now = max(self.now, r.choice(model.dues()) + r.choice([-1, 0])) if r.random() < 0.2 else self.now + r.choice([0, 0, 1, 20, 100, 400, 500, 1000, 3000])
        model.up, model.down = b"", []
        was = model.end
        kind = r.random()
        if kind < 0.5:
            datagram = self.datagram()
            line = f"peer {self.now} {datagram.hex()}"
            model.peer(datagram, self.now)
        elif kind < 0.75:
            piece = b"".join(self.message() for _ in range(r.choice([1, 1, 2, 3])))
            line = f"server {self.now} {piece.hex()}"
            model.server(piece, self.now)
        elif kind < 0.985:
            line = f"time {self.now}"
            model.time(self.now)
        elif kind < 0.99:
            line = f"ended {self.now}"
            model.ended(self.now)
        elif kind < 0.995:
            line = f"lose {self.now}"
            model.lose("Moved")
        else:
            line = f"shut {self.now}"
            model.shut(self.now)
        sends = ["up " + model.up.hex()] if model.up else []
        sends += ["down " + datagram.hex() for datagram in model.down]
        if model.end and not was:
            sends.append("end " + model.end)
        return line, sends


def write(file, chance, inputs):
    file.write("# Sessions by chance.\n\n@ One peer.\n")
    for case in range(inputs // 100):
        chance.begin()
        file.write(f"\n= session {case}\n> begin {' '.join(map(str, chance.numbers))}\n")
        for _ in range(100):
            line, sends = chance.line()
            file.write(f">> {line}\n" + "".join(f"<< {it}\n" for it in sends))


def main():
    program = pathlib.Path(sys.argv[1]).resolve()
    inputs = int(sys.argv[2]) if len(sys.argv) > 2 else 1_000_000
    seed = int(sys.argv[3]) if len(sys.argv) > 3 else random.randrange(1 << 32)
    print("seed", seed, flush=True)
    chance = Chance(random.Random(seed))
    done = 0
    with tempfile.TemporaryDirectory() as folder:
        while done < inputs:
            path = pathlib.Path(folder) / "chance.cases"
            with open(path, "w") as file:
                write(file, chance, min(20_000, inputs - done))
            ran = subprocess.run([program, path], capture_output=True, text=True)
            if ran.returncode:
                kept = pathlib.Path("chance.cases").resolve()
                kept.write_text(path.read_text())
                sys.exit(f"differs: {kept}\n{ran.stdout}{ran.stderr}"[:4000])
            done += min(20_000, inputs - done)
    print(done, "inputs: all as the model")


if __name__ == "__main__":
    main()
