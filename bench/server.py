"""Starts and stops a floord or a floorhub, reads what the system says of it, and makes a client's bytes."""
import os
import resource
import select
import socket
import struct
import subprocess
import tempfile
import time

FIRST_PORT = 7600


def hello(conference, transaction, user):
    """A Hello (RFC 8855, section 5.3.11)."""
    return struct.pack('>BBHIHH', 0x20, 11, 0, conference, transaction, user)


def proxy_header(name):
    """The header that says at a door who comes, by a certificate's name, as HAProxy writes it (version 2 of the
    PROXY protocol)."""
    name = b'\x22\x00' + bytes([len(name)]) + name.encode()
    session = bytes.fromhex('0700000000210007544c5376312e33') + name
    tlvs = bytes.fromhex('7f0000017f000001d6161edd2000') + bytes([len(session)]) + session
    return bytes.fromhex('0d0a0d0a000d0a515549540a211100') + bytes([len(tlvs)]) + tlvs


def header_by_id(name):
    """The header that says at a door by id who comes: a name in its unique-id."""
    name = name.encode()
    return (bytes.fromhex('0d0a0d0a000d0a515549540a2100') + struct.pack('>H', 3 + len(name)) + b'\5'
            + struct.pack('>H', len(name)) + name)


def configuration(conferences, users, first_port=FIRST_PORT):
    """The text of a configuration, and (port, conference, user) of each user, conferences in turn."""
    text = []
    bindings = []
    for user in range(users):
        for conference in range(1, conferences + 1):
            bindings.append((first_port + len(bindings), conference, 10 + user))
    for conference in range(1, conferences + 1):
        text.append('[[conference]]\nid = %d\n' % conference)
        for port, of, user in bindings:
            if of == conference:
                text.append('[[conference.user]]\nid = %d\nport = %d\n' % (user, port))
        text.append('[[conference.floor]]\nid = 1\n')
    return ''.join(text), bindings


def name_of(program):
    """The name by which a server tells of itself: a floord, a floorhub, or a floorhub_next, which is driven as a
    floorhub is."""
    name = os.path.basename(program)
    return next((known for known in ('floorhub_next', 'floorhub') if name.startswith(known)), 'floord')


def is_hub(program):
    """Whether a server serves by event loops."""
    return name_of(program).startswith('floorhub')


class Server:
    """A floord or a floorhub that runs, pinned to processors where they are given, under limits of the system
    (`resource.RLIMIT_NOFILE` to a number, and the like), with variables of the environment and with further
    words where they are, and with its standard error in a file where one is given."""

    def __init__(self, floord, text, processors=None, limits=None, variables=None, words=(), errors=None):
        # Whether it serves by event loops.
        self.by_loops = is_hub(floord)
        handle, self.path = tempfile.mkstemp(suffix='.toml')
        with os.fdopen(handle, 'w') as file:
            file.write(text)
        pinned = ['taskset', '-c', processors] if processors else []

        def limit():
            for kind, value in (limits or {}).items():
                resource.setrlimit(kind, (value, value))
        self.process = subprocess.Popen(
            pinned + [os.path.abspath(floord), *words, self.path],
            stdin=subprocess.PIPE, stdout=subprocess.PIPE, stderr=errors, preexec_fn=limit,
            env={**os.environ, **(variables or {})})
        self.pid = self.process.pid
        self.printed = b''
        if self.line(20) != 'ready':
            self.process.kill()
            raise SystemExit('the server did not print ready')

    def line(self, seconds):
        """The next line that it prints."""
        end = time.monotonic() + seconds
        while b'\n' not in self.printed:
            left = end - time.monotonic()
            if left <= 0 or not select.select([self.process.stdout], [], [], left)[0]:
                raise SystemExit('the server prints nothing')
            piece = os.read(self.process.stdout.fileno(), 1 << 20)
            if not piece:
                break
            self.printed += piece
        text, _, self.printed = self.printed.partition(b'\n')
        return text.decode()

    def journal(self, conference, seconds=60):
        """The lines of a conference's journal, the last of which is its end."""
        lines = [self.ask('journal %d' % conference, seconds)]
        while not lines[-1].startswith(('end ', 'error ')):
            lines.append(self.line(seconds))
        return lines

    def ask(self, line, seconds=30):
        self.process.stdin.write(line.encode() + b'\n')
        self.process.stdin.flush()
        return self.line(seconds)

    def stop(self):
        answer = self.ask('stop', 60)
        status = self.process.wait(60)
        os.unlink(self.path)
        return answer, status

    def held(self):
        """Memory in kB, threads, descriptors."""
        held = {}
        with open('/proc/%d/status' % self.pid) as file:
            for row in file:
                name, _, value = row.partition(':')
                if name in ('VmRSS', 'VmSize', 'Threads'):
                    held[name] = int(value.split()[0])
        held['descriptors'] = len(os.listdir('/proc/%d/fd' % self.pid))
        return held

    def seen(self):
        """The same, mappings, processor seconds."""
        seen = self.held()
        with open('/proc/%d/maps' % self.pid) as file:
            seen['maps'] = sum(1 for _ in file)
        seen['processor'] = 0
        for task in os.listdir('/proc/%d/task' % self.pid):
            try:
                with open('/proc/%d/task/%s/schedstat' % (self.pid, task)) as file:
                    seen['processor'] += int(file.read().split()[0]) / 1e9
            except FileNotFoundError:
                pass
        return seen


def connect(port, narrow=False):
    """A client of the port. Of what a narrow one doesn't read the sockets hold some 100 kB, else a
    few MB."""
    client = socket.socket()
    if narrow:
        client.setsockopt(socket.SOL_SOCKET, socket.SO_RCVBUF, 4096)
        client.setsockopt(socket.IPPROTO_TCP, socket.TCP_MAXSEG, 536)
    client.connect(('127.0.0.1', port))
    client.setsockopt(socket.IPPROTO_TCP, socket.TCP_NODELAY, 1)
    return client


def greet(client, conference, user, transaction=1):
    """Sends a Hello, and waits for its HelloAck."""
    client.sendall(hello(conference, transaction, user))
    return hear(client, 48)


def hear(client, count):
    """The next so many bytes; fewer where the stream ends before."""
    heard = b''
    while len(heard) < count:
        piece = client.recv(count - len(heard))
        if not piece:
            break
        heard += piece
    return heard


class Control:
    """A program at a floorhub's control socket. Live lines that came before an answer are kept apart."""

    def __init__(self, path, seconds=30):
        self.socket = socket.socket(socket.AF_UNIX)
        self.socket.settimeout(seconds)
        self.socket.connect(path)
        # Bytes behind the last whole line; whole lines, the next one last; live lines so far.
        self.heard, self.lines, self.live = b'', [], []
        self.tags = 0

    def line(self):
        """The next line, without its end; an OSError where the stream ends, or nothing comes."""
        while not self.lines:
            piece = self.socket.recv(1 << 18)
            if not piece:
                raise ConnectionError('the control socket has ended')
            *self.lines, self.heard = (self.heard + piece).split(b'\n')
            self.lines.reverse()
        return self.lines.pop().decode()

    def listen(self, seconds):
        """Takes the live lines that come within so many seconds."""
        end = time.monotonic() + seconds
        while True:
            while self.lines:
                self.live.append(self.line())
            left = end - time.monotonic()
            if left <= 0 or not select.select([self.socket], [], [], left)[0]:
                return
            self.live.append(self.line())

    def settle(self, seconds=2):
        """Takes live lines until none come for so many seconds."""
        before = -1
        while before != len(self.live):
            before = len(self.live)
            self.listen(seconds)

    def send(self, line):
        """Sends a line with a tag of its own, which is given back for `answer`."""
        self.tags += 1
        tag = ('@s%d' if line.startswith('status ') else '@%d') % self.tags
        self.socket.sendall(b'%s %s\n' % (tag.encode(), line.encode()))
        return tag

    def answer(self, tag):
        """The lines of the next answer, without the tag that it has to have; a ConnectionError where it hasn't."""
        lines = []
        while True:
            line = self.line()
            if line[:2] in ('! ', '~ '):
                if lines:
                    raise ConnectionError('inside the answer of %s stands "%s"' % (tag, line))
                self.live.append(line)
                continue
            if not line.startswith(tag + ' '):
                raise ConnectionError('%s is answered by "%s"' % (tag, line))
            lines.append(line[len(tag) + 1:])
            # `status` is answered by a line as it stands in a list.
            if lines[-1].split(' ', 1)[0] in ('ok', 'error', 'end') or tag[1] == 's':
                return lines

    def ask(self, line):
        """The lines of the answer, without the tag."""
        return self.answer(self.send(line))

    def close(self):
        self.socket.close()
