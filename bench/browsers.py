"""What the tries of a gateway for browsers use: a floorweb that runs, requests, WebSockets and their frames, and the
count of what passed and failed.
"""
import base64
import hashlib
import os
import resource
import socket
import struct
import subprocess
import tempfile
import time

import server
from server import FIRST_PORT

PORT = FIRST_PORT + 180
HOST = '127.0.0.1:%d' % PORT
KEY = 'dGhlIHNhbXBsZSBub25jZQ=='
ACCEPT = base64.b64encode(
    hashlib.sha1((KEY + '258EAFA5-E914-47DA-95CA-C5AB0DC85B11').encode()).digest())
CONFERENCES = 8
USERS = 4
FLOOR_REQUEST, FLOOR_RELEASE, FLOOR_QUERY, FLOOR_STATUS = 1, 2, 7, 8
HELLO, HELLO_ACK, ERROR = 11, 12, 13
FLOOR_ID_1 = bytes([4, 4, 0, 1])
LONGEST = 12 + 4 * 65_535
QUIET = 25
HEAD = 10

# The names of the tries that gave what they should, and of those that didn't.
passed = []
failed = []


def check(name, got, wanted):
    """Takes down whether a try gave what it should."""
    if got == wanted:
        passed.append(name)
    else:
        failed.append(name)
        print('FAILED %s: %r, wanted %r' % (name, got, wanted), flush=True)


def token_of(conference, user):
    return 'token-of-user-%02d-of-%02d--' % (user, conference)


def configuration():
    """Eight conferences of four users with tokens; in the first is a user whom no port answers."""
    rows = []
    port = FIRST_PORT
    for conference in range(1, CONFERENCES + 1):
        rows.append('[[conference]]\nid = %d\nlimit = 16\n' % conference)
        for user in range(10, 10 + USERS):
            rows.append('[[conference.user]]\nid = %d\nname = "U%d"\nport = %d\ntoken = "%s"\n' % (
                user, user, port, token_of(conference, user)))
            port += 1
        rows.append('[[conference.floor]]\nid = 1\ntitle = "Microphone"\n')
    return ''.join(rows)


# Of two users more nobody listens at the port of one, and nobody accepts at that of the other.
LOST_USERS = '[[conference]]\nid = 99\n' + ''.join(
    '[[conference.user]]\nid = %d\nport = %d\ntoken = "%s"\n' % (user, FIRST_PORT + 170 + user, token_of(99, user))
    for user in (1, 2))
NO_SERVER = 4404
NOT_TAKEN = 4403


class Gateway:
    """A floorweb that runs."""

    def __init__(self, program, folder, text, *words, address=HOST, descriptors=4_096, variables=None):
        handle, self.path = tempfile.mkstemp(suffix='.toml')
        with os.fdopen(handle, 'w') as file:
            file.write(text)
        self.process = subprocess.Popen(
            [os.path.abspath(program), address, self.path, folder, *words], stdin=subprocess.PIPE,
            stdout=subprocess.PIPE, stderr=subprocess.PIPE, env={**os.environ, **(variables or {})},
            preexec_fn=lambda: resource.setrlimit(resource.RLIMIT_NOFILE, (descriptors,) * 2))

    def ready(self):
        """Waits until it listens."""
        if self.process.stdout.readline() != b'ready\n':
            raise SystemExit(self.process.stderr.read().decode())
        return self

    def end(self, seconds=10):
        """Ends its standard input, and gives its status and what it printed."""
        try:
            printed, errors = self.process.communicate(b'', seconds)
        except subprocess.TimeoutExpired:
            self.process.kill()
            printed, errors = self.process.communicate()
        os.unlink(self.path)
        return self.process.returncode, printed.decode(), errors.decode()

    def use(self):
        """Its resident memory in kB, its threads and its descriptors."""
        pid = self.process.pid
        with open('/proc/%d/status' % pid) as file:
            rows = dict(line.split(':', 1) for line in file if ':' in line)
        return (int(rows['VmRSS'].split()[0]), int(rows['Threads']),
                len(os.listdir('/proc/%d/fd' % pid)))

    def at_rest(self):
        """What it uses once the last of the tries before has let go."""
        since, seen = time.monotonic(), self.use()
        while time.monotonic() - since < 3:
            time.sleep(0.1)
            now = self.use()
            if now[1:] != seen[1:]:
                since = time.monotonic()
            seen = now
        return seen

    def freed(self, before, seconds):
        """Waits until its threads and descriptors are as they were, and gives them."""
        end = time.monotonic() + seconds
        while self.use()[1:] != before[1:] and time.monotonic() < end:
            time.sleep(0.1)
        return self.use()[1:]


def connect(narrow=False, port=PORT):
    """A connection; of what a narrow one doesn't read the sockets hold some 100 kB."""
    stream = server.connect(port, narrow)
    stream.settimeout(90)
    return stream


def reply(stream):
    """All bytes until the stream ends."""
    got = b''
    try:
        while piece := stream.recv(65_536):
            got += piece
    except ConnectionResetError:
        got += b'<reset>'
    return got


def status_of(got):
    words = got.split(b'\r\n')[0].split(b' ')
    return int(words[1]) if len(words) > 1 and words[1].isdigit() else repr(got[:40])


def ask(request):
    stream = connect()
    stream.sendall(request)
    return reply(stream)


def answer_of(stream, seconds):
    """The status by which a connection is answered, also where that isn't within so many seconds."""
    stream.settimeout(seconds)
    try:
        return status_of(reply(stream))
    except TimeoutError:
        return 'no answer'


def get(path, method='GET', more=''):
    return ('%s %s HTTP/1.1\r\nHost: %s\r\n%s\r\n' % (method, path, HOST, more)).encode()


def upgrade(path, more='', **fields):
    """A handshake, with some of its fields changed or, where they are None, left out."""
    sent = {'Host': HOST, 'Upgrade': 'websocket', 'Connection': 'keep-alive, Upgrade',
            'Sec-WebSocket-Key': KEY, 'Sec-WebSocket-Version': '13',
            'Sec-WebSocket-Protocol': 'bfcp'}
    for name, value in fields.items():
        sent[name.replace('_', '-')] = value
    rows = ''.join('%s: %s\r\n' % row for row in sent.items() if row[1] is not None)
    return ('GET %s HTTP/1.1\r\n%s%s\r\n' % (path, rows, more)).encode()


def frame(opcode, payload, mask=True, last=True, width=None, bits=0):
    """A frame of a browser; `width` is how many bytes say its length where more do than need to."""
    length = len(payload)
    width = width or (0 if length < 126 else 2 if length < 65_536 else 8)
    head = bytes([(0x80 if last else 0) | bits | opcode])
    marked = 0x80 if mask else 0
    head += {0: lambda: bytes([marked | length]), 2: lambda: bytes([marked | 126]) + struct.pack('>H', length),
             8: lambda: bytes([marked | 127]) + struct.pack('>Q', length)}[width]()
    if not mask:
        return head + payload
    key = os.urandom(4)
    spread = (key * (length // 4 + 1))[:length]
    masked = (int.from_bytes(payload, 'big') ^ int.from_bytes(spread, 'big')).to_bytes(length, 'big')
    return head + key + masked


def message(primitive, conference=1, transaction=1, user=10, payload=b''):
    return struct.pack('>BBHIHH', 0x20, primitive, len(payload) // 4, conference, transaction,
                       user) + payload


def number_of(told):
    """The floor request that a FloorRequestStatus tells of."""
    return struct.unpack('>H', told[14:16])[0]


class Browser:
    """A WebSocket whose handshake is done."""

    def __init__(self, token, request=None, behind=b'', narrow=False, port=PORT):
        self.stream = connect(narrow, port)
        self.stream.sendall((request or upgrade('/bfcp/' + token)) + behind)
        got = b''
        while b'\r\n\r\n' not in got:
            piece = self.stream.recv(4_096)
            if not piece:
                raise EOFError(got)
            got += piece
        self.head, self.held = got.split(b'\r\n\r\n', 1)

    def take(self, count):
        while len(self.held) < count:
            piece = self.stream.recv(65_536)
            if not piece:
                raise EOFError('the stream ended')
            self.held += piece
        got, self.held = self.held[:count], self.held[count:]
        return got

    def read(self):
        """The next frame: its opcode and its payload. It is whole, and without a mask."""
        first, second = self.take(2)
        assert first & 0x70 == 0 and first & 0x80 and not second & 0x80, (first, second)
        length = second & 127
        if length == 126:
            length = struct.unpack('>H', self.take(2))[0]
        elif length == 127:
            length = struct.unpack('>Q', self.take(8))[0]
        return first & 15, self.take(length)

    def send(self, opcode, payload, **how):
        self.stream.sendall(frame(opcode, payload, **how))

    def ends(self):
        """The code by which it is closed; the frames before are thrown away. Behind it is nothing."""
        try:
            while True:
                opcode, payload = self.read()
                if opcode == 8:
                    code = struct.unpack('>H', payload[:2])[0] if payload else None
                    return code if reply(self.stream) == b'' else 'bytes behind the close'
        except EOFError:
            return 'end'
        except ConnectionResetError:
            return 'reset'

    def primitive(self):
        """The primitive of the message in the next frame, which is binary and holds it alone."""
        opcode, payload = self.read()
        assert opcode == 2 and len(payload) == 12 + 4 * struct.unpack('>H', payload[2:4])[0]
        return payload[1]

    def close(self):
        self.stream.close()
