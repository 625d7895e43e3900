#!/usr/bin/env python3
"""Does the hub behave by C as it does elsewhere? ./embedded.py FLOORSIM SERVER FLOORC [SEEDS [PORT]]

Puts the library together (.ci/library), and then:

- compiles floor.h, floor.hpp, the examples and embedded.c by gcc and clang, each with all warnings as errors, and runs the
  conference in C, in C++ and in Python, which have to print the same;
- runs scripts, SEEDS of them (40) of each kind, through libfloor.so by floor.py beside FLOORSIM, a floorsim: conferences,
  connections, messages of every kind, good and hostile, cut anywhere, slow readers, what an administrator does; more
  connections than a conference takes; and a connection that reads nothing until it is cut. Each line has to be answered
  alike, by messages that are taken into rooms of any size. The journal that is read by pieces has to be as long as the
  status says;
- has clients play scripts over TCP against examples/server.c, examples/server.py and SERVER, a floord or a floorhub, at ports from PORT (8900)
  on: each has to hear the bytes that the hub has for it. The server in C is built with the sanitizers of addresses and of undefined
  behavior, and once more plain and run under valgrind. Two FLOORC, each a floorc, have to print the same at the server in C
  as at SERVER;
- refuses each allocation of a run of all calls in turn (embedded.c), under the same sanitizers: no call may end the
  process, and no block may be left.

Prints what was compared. A difference is printed with its seed, and the status is 1. Takes 3 to 9 minutes where the library
is proved.
"""
import ctypes
import os
import pathlib
import random
import signal
import socket
import subprocess
import sys
import tempfile
import time

import messages
from messages import (BENEFICIARY_ID, CHAIR_ACTION, FLOOR_QUERY, FLOOR_RELEASE, FLOOR_REQUEST, FLOOR_REQUEST_ID, HELLO, INFO,
                      PRIORITY, USER_QUERY, attribute, floors, message, number, verdict)

ROOT = pathlib.Path(__file__).resolve().parent.parent
PORT = int(sys.argv[5]) if len(sys.argv) > 5 else 8900
CONFERENCES, USERS, FLOORS = (1, 2), range(10, 14), (1, 2, 3)
# So many connections of a conference are live at most.
MOST_LIVE = 64
# A client waits so long for bytes that it is due, and so long to hear that there are no more.
DUE, QUIET = 10, 0.02
WARNINGS = ['-Wall', '-Wextra', '-Wpedantic', '-Wshadow', '-Werror']
SANITIZERS = ['-g', '-O1', '-fsanitize=address,undefined', '-fno-sanitize-recover=all']


class Differs(Exception):
    """What was otherwise."""


def configuration(first_port=None):
    """The text of a configuration; with ports, and the port of each user of each conference."""
    text, ports = [], {}
    for conference in CONFERENCES:
        text.append(f'[[conference]]\nid = {conference}\nlimit = 3\n')
        for user in USERS:
            text.append(f'[[conference.user]]\nid = {user}\n')
            text.append(f'proxy = true\nname = "Zoë {user}"\n' if user == 12 else '')
            if first_port:
                ports[conference, user] = first_port + len(ports)
                text.append(f'port = {ports[conference, user]}\n')
        for floor in FLOORS:
            text.append(f'[[conference.floor]]\nid = {floor}\n' + ('chair = 10\n' if floor == 2 else ''))
    return ''.join(text), ports


def good(chance, conference, user):
    """A message that may do something."""
    primitive, payload = chance.choice((
        (HELLO, b''), (FLOOR_REQUEST, floors(chance.choice(FLOORS))), (FLOOR_REQUEST, floors(*FLOORS)),
        (FLOOR_REQUEST, floors(1) + attribute(PRIORITY, bytes([chance.randint(0, 4) << 5, 0])) + attribute(INFO, b'why')),
        (FLOOR_REQUEST, floors(1) + number(BENEFICIARY_ID, chance.choice(USERS))),
        (FLOOR_RELEASE, number(FLOOR_REQUEST_ID, chance.randint(1, 12))),
        (CHAIR_ACTION, verdict(chance.randint(1, 12), 2, chance.choice((2, 3, 4, 7)), chance.choice((None, b'no')))),
        (USER_QUERY, number(BENEFICIARY_ID, chance.choice(USERS))), (FLOOR_QUERY, floors(*FLOORS))))
    return message(primitive, conference, chance.randint(1, 65535), user, payload)


def script(seed, over_tcp=False):
    """Lines of a script: over TCP of attach, send and leave alone."""
    chance = random.Random(seed)
    nonsense = {(c, u): messages.hostile(chance, c, u) for c in CONFERENCES for u in USERS}
    members, rests, count = {}, {}, 0
    for _ in range(60 if over_tcp else 150):
        word = chance.choice(('attach', 'leave') + ('send',) * 9 if over_tcp else
                             ('attach', 'attach', 'leave', 'slow', 'fast', 'act') + ('send',) * 9 + ('piece', 'serve') * 2)
        if word == 'attach' or not members:
            conference, user = chance.choice(CONFERENCES), chance.choice(USERS)
            if len([it for it in members.values() if it[0] == conference]) < 12:
                count += 1
                members[count] = conference, user
                yield f'attach {conference} {user}'
        elif word == 'act':
            yield act(chance)
        else:
            connection = chance.choice(list(members))
            if word in ('send', 'piece'):
                is_good = chance.random() < 0.7
                new = good(chance, *members[connection]) if is_good else next(nonsense[members[connection]])[1]
                data = rests.pop(connection, b'') + new
                # What a piece leaves comes with what the connection sends next.
                cut = chance.randint(1, len(data)) if word == 'piece' else len(data)
                rests[connection] = data[cut:]
                yield f'{word} {connection} {data[:cut].hex()}'
            else:
                if word == 'leave':
                    del members[connection]
                yield f'{word} {connection}'


def crowded(seed):
    """Connections that come to a conference, more than it takes, and now and then go and speak."""
    chance = random.Random(seed)
    live, count = {}, 0
    for _ in range(150):
        word = chance.choice(('attach',) * 6 + ('leave', 'send')) if live else 'attach'
        if word == 'attach':
            user = chance.choice(USERS)
            yield f'attach 1 {user}'
            if len(live) < MOST_LIVE:
                count += 1
                live[count] = user
            continue
        connection = chance.choice(list(live))
        if word == 'leave':
            del live[connection]
            yield f'leave {connection}'
        else:
            yield f'send {connection} {good(chance, 1, live[connection]).hex()}'


def behind(seed):
    """A connection watches floor 1, on which another's requests come and go, and reads nothing: it is cut, and later reads."""
    chance = random.Random(seed)
    query, request = message(FLOOR_QUERY, 1, 1, 11, floors(1)), message(FLOOR_REQUEST, 1, 1, 10, floors(1))
    yield from ('attach 1 10', 'attach 1 11', 'attach 1 12', f'send 2 {query.hex()}', f'send 3 {query.hex()}', 'slow 2')
    for number_ in range(1, chance.randint(500, 560)):
        yield f'send 1 {request.hex()}'
        yield f'send 1 {message(FLOOR_RELEASE, 1, 2, 10, number(FLOOR_REQUEST_ID, number_)).hex()}'
    yield from (f'send 2 {message(HELLO, 1, 3, 11).hex()}', 'fast 2', f'send 1 {request.hex()}', f'send 2 {query.hex()}', 'leave 2')


def act(chance):
    """What an administrator does."""
    conference, id_ = chance.choice((1, 2, 3)), chance.randint(9, 16)
    floor, request = chance.randint(1, 6), chance.randint(1, 12)
    said = good(chance, conference, chance.choice((id_, 10)))
    return chance.choice((
        f'say {conference} {id_} {said.hex()}', f'say {conference} {id_} {said.hex()}',
        f'revoke {conference} {request}', f'revoke {conference} {request}', f'user {conference} {id_} proxy name Ann {id_}',
        f'floor {conference} {floor} room {chance.randint(1, 3)} chair {id_}', f'chair {conference} {floor} {id_}',
        f'chair {conference} {floor}', f'close {conference}' if chance.random() < 0.1 else f'revoke {conference} 1'))


class Played:
    """A script over the hub of libfloor.so, and the lines that floorsim prints of each of its lines."""

    def __init__(self, floor, text):
        self.floor, self.refused, self.hub = floor, floor.Refused, floor.Hub()
        self.members, self.slow, self.sizes = {}, set(), random.Random(text)
        self.hub.open(text)

    def line(self, line):
        words, printed, conference = line.split(' '), [], None
        try:
            conference = self.conference_of(words)
            self.do(words, printed)
        except self.refused as refused:
            printed.append(f'refused {refused.name}')
        if words[0] == 'leave':
            self.members.pop(int(words[1]), None)
        for connection in sorted(it for it in self.members if self.members[it] == conference and it not in self.slow):
            while some := self.take(connection):
                parcels, data = some
                while data:
                    length = 12 + 4 * int.from_bytes(data[2:4], 'big')
                    printed.append(f'{connection} {data[:length].hex()}')
                    data = data[length:]
                try:
                    self.hub.took(connection, parcels)
                except self.refused:
                    pass
        return printed

    def take(self, connection):
        """Some of what waits for a connection, into a room of any size, or of as much as is wanted then."""
        size, end = self.sizes.randint(0, 400), b'end'
        while True:
            room = (ctypes.c_uint8 * (size + len(end)))()
            room[size:] = end
            taken = self.hub._call('floor_take', connection, room, size)
            if bytes(room[size:]) != end:
                raise Differs(f'a room of {size} bytes is written beyond')
            if taken.result == self.floor.NOTHING:
                return None
            if taken.result != self.floor.TOO_SHORT:
                self.hub._check(taken.result)
                return taken.parcels, bytes(room[: taken.len])
            if taken.len <= size:
                raise Differs(f'{taken.len} bytes are wanted of a room of {size}')
            size = taken.len

    def conference_of(self, words):
        of_connection = words[0] in ('send', 'piece', 'serve', 'leave', 'slow', 'fast')
        return self.members.get(int(words[1])) if of_connection else int(words[1])

    def do(self, words, printed):
        hub, (word, *rest) = self.hub, words
        numbers = [int(it) for it in rest if it.isdigit()][:2]
        if word == 'attach':
            connection = hub.attach(*numbers)
            self.members[connection] = numbers[0]
            printed.append(f'attached {connection}')
        elif word in ('send', 'piece'):
            hub.piece(int(rest[0]), bytes.fromhex(''.join(rest[1:])))
            while word == 'send' and hub.serve(int(rest[0]))[1]:
                pass
        elif word == 'serve':
            if hub.serve(numbers[0], 1)[0] == 0:
                printed.append('nothing')
        elif word == 'leave':
            hub.leave(numbers[0])
        elif word in ('slow', 'fast'):
            if numbers[0] in self.members:
                (self.slow.add if word == 'slow' else self.slow.discard)(numbers[0])
            else:
                printed.append('refused NoConnection')
        elif word == 'revoke':
            hub.revoke(*numbers)
        elif word == 'close':
            hub.close(numbers[0])
        elif word == 'user':
            hub.add_user(*numbers, ' '.join(rest[rest.index('name') + 1:]), proxy='proxy' in rest)
        elif word == 'floor':
            hub.add_floor(*numbers, int(rest[3]), int(rest[5]))
        elif word == 'chair':
            hub.set_chair(*numbers, *(int(it) for it in rest[2:]))
        elif word == 'say':
            if answer := hub.say(*numbers, bytes.fromhex(rest[2]))[1]:
                printed.append(f'said {answer.hex()}')

    def check_journals(self):
        """Each journal, by pieces, has the events that the status tells, each in a line with its place."""
        for conference in CONFERENCES:
            lines = self.hub.journal(conference).splitlines()
            if [int(it.split()[0]) for it in lines] != list(range(1, self.hub.status(conference).events + 1)):
                raise Differs(f'conference {conference} has another journal')


def run(*command, **more):
    return subprocess.run([str(it) for it in command], stdout=subprocess.PIPE, check=True, **more).stdout.decode()


def compiled(folder, compiler, source, name, *options):
    """A program of a source, with the library."""
    standard = '-std=c++17' if source.suffix == '.cpp' else '-std=gnu11'
    run(compiler, standard, *WARNINGS, *options, '-I', folder, source, folder / 'libfloor.a', '-o', folder / name)
    return folder / name


def compilers(folder):
    said = set()
    for c, cxx in (('gcc', 'g++'), ('clang', 'clang++')):
        for header, compiler, standard in (('floor.h', c, 'c11'), ('floor.h', cxx, 'c++17'), ('floor.hpp', cxx, 'c++17')):
            language = 'c++' if compiler == cxx else 'c'
            run(compiler, f'-std={standard}', '-x', language, *WARNINGS, '-fsyntax-only', '-include', folder / header, os.devnull)
        for compiler, source in ((c, 'conference.c'), (cxx, 'conference.cpp')):
            said.add(run(compiled(folder, compiler, ROOT / 'examples' / source, f'{compiler}-conference')))
        compiled(folder, c, ROOT / 'examples/server.c', f'{c}-server')
    said.add(run(sys.executable, ROOT / 'examples/conference.py'))
    if len(said) != 1:
        raise Differs(f'the conferences print otherwise: {said}')
    print('compiled by gcc, g++, clang and clang++; the conferences in C, C++ and Python print the same')


def scripts(floor, floorsim, kind, seeds, reaches):
    """Scripts of a kind through the library beside floorsim; some line that is printed has to be this."""
    lines, reached = 0, False
    text = configuration()[0]
    for seed in range(seeds):
        played, wanted = Played(floor, text), []
        asked = list(kind(seed))
        for line in asked:
            wanted += played.line(line)
        printed = run(floorsim, input=(text + '---\n' + '\n'.join(asked) + '\n').encode()).splitlines()
        if printed != wanted:
            at = next((at for at, (a, b) in enumerate(zip(printed, wanted)) if a != b), min(len(printed), len(wanted)))
            raise Differs(f'{kind.__name__}, seed {seed}, line {at + 1}: {printed[at:at + 1]} of floorsim, '
                          f'{wanted[at:at + 1]} of the library')
        played.check_journals()
        lines += len(printed)
        reached = reached or reaches in printed
    if not reached:
        raise Differs(f'{kind.__name__}: no script is answered by {reaches}')
    print(f'{kind.__name__}: {seeds} scripts through libfloor.so beside floorsim: {lines} lines, none differs')


class Client:
    def __init__(self, port):
        self.socket = socket.create_connection(('127.0.0.1', port), DUE)

    def hear(self, length):
        heard = b''
        while len(heard) < length and (piece := self.socket.recv(length - len(heard))):
            heard += piece
        return heard


def over_tcp(floor, name, command, seeds):
    """Scripts against a server, beside the hub."""
    heard = 0
    for seed in range(seeds):
        text, ports = configuration(PORT)
        with tempfile.NamedTemporaryFile('w', suffix='.toml') as file:
            file.write(text)
            file.flush()
            server = subprocess.Popen([*map(str, command), file.name], stdin=subprocess.PIPE, stdout=subprocess.PIPE)
            try:
                if server.stdout.readline() != b'ready\n':
                    raise Differs(f'{name} isn\'t ready')
                heard += play(Played(floor, text), ports, script(seed, True), f'{name}, seed {seed}')
                server.communicate(b'stop\n', 60)
            finally:
                server.kill()
                server.wait()
        if server.returncode:
            raise Differs(f'{name}, seed {seed}: its status is {server.returncode}')
    print(f'{seeds} scripts over TCP against {name}: {heard} bytes, none differs')


def play(played, ports, lines, where):
    clients, heard = {}, 0
    for line in lines:
        words = line.split(' ')
        due = {}
        for printed in played.line(line):
            first, _, rest = printed.partition(' ')
            if first == 'attached':
                clients[int(rest)] = Client(ports[int(words[1]), int(words[2])])
                time.sleep(QUIET)
            elif first.isdigit():
                due[int(first)] = due.get(int(first), b'') + bytes.fromhex(rest)
        if words[0] == 'send':
            clients[int(words[1])].socket.sendall(bytes.fromhex(words[2]))
        elif words[0] == 'leave':
            clients.pop(int(words[1])).socket.close()
        for connection, data in due.items():
            got = clients[connection].hear(len(data))
            heard += len(got)
            if got != data:
                raise Differs(f'{where}: {line}: connection {connection} hears {got.hex()}, and not {data.hex()}')
        if not due:
            time.sleep(QUIET)
    for connection, client in clients.items():
        client.socket.settimeout(QUIET)
        try:
            more = client.socket.recv(1000)
        except TimeoutError:
            more = None
        if more is not None:
            raise Differs(f'{where}: connection {connection} hears more: {more.hex()}')
    # Only now, since whoever goes may be told of.
    for client in clients.values():
        client.socket.close()
    return heard


class Typed:
    """A floorc of a user of conference 1, at the user's port; and what it prints."""

    def __init__(self, floorc, port, user):
        words = [str(floorc), f'127.0.0.1:{port}', '1', str(user)]
        self.program = subprocess.Popen(words, stdin=subprocess.PIPE, stdout=subprocess.PIPE, text=True)

    def ask(self, line, answers):
        self.program.stdin.write(line + '\n')
        self.program.stdin.flush()
        return [self.program.stdout.readline() for _ in range(answers)]

    def quit(self):
        return self.program.communicate('quit\n', DUE)[0]


def conversation(command, floorc):
    """What two clients print: one watches a floor that the other asks for, and gives back as it goes."""
    text, ports = configuration(PORT)
    with tempfile.NamedTemporaryFile('w', suffix='.toml') as file:
        file.write(text)
        file.flush()
        server = subprocess.Popen([*map(str, command), file.name], stdin=subprocess.PIPE, stdout=subprocess.PIPE)
        try:
            server.stdout.readline()
            first = Typed(floorc, ports[1, 10], 10)
            said = first.ask('hello', 1) + first.ask('request 1 info slides', 1) + first.ask('watch 1', 1)
            second = Typed(floorc, ports[1, 12], 12)
            said += second.ask('request 1 priority 3', 1) + [second.quit()]
            said += first.ask('listen 2', 2) + [first.quit()]
            server.communicate(b'stop\n', 60)
        finally:
            server.kill()
            server.wait()
    return said


def clients(folder, server, floorc):
    said = [conversation([command], floorc) for command in (folder / 'server', pathlib.Path(server).resolve())]
    if said[0] != said[1] or '' in said[0][:4]:
        raise Differs(f'two clients print at server.c {said[0]}, and at {pathlib.Path(server).name} {said[1]}')
    print(f'two clients at server.c as at {pathlib.Path(server).name}: {sum(map(bool, said[0]))} lines, none differs')


def servers(floor, folder, server, seeds):
    source = ROOT / 'examples/server.c'
    sanitized = compiled(folder, 'gcc', source, 'server-sanitized', *SANITIZERS)
    over_tcp(floor, 'server.c with sanitizers', [sanitized], seeds)
    valgrind = ['valgrind', '-q', '--leak-check=full', '--error-exitcode=9', compiled(folder, 'clang', source, 'server', '-O2')]
    over_tcp(floor, 'server.c under valgrind', valgrind, max(1, seeds // 2))
    over_tcp(floor, 'server.py', [sys.executable, ROOT / 'examples/server.py'], seeds)
    over_tcp(floor, pathlib.Path(server).name, [pathlib.Path(server).resolve()], seeds)


def refusals(folder):
    parts = folder / 'without-heap.a'
    parts.write_bytes((folder / 'libfloor.a').read_bytes())
    run('ar', 'd', parts, 'heap.pic.o')
    program = folder / 'refused'
    run('gcc', *WARNINGS, *SANITIZERS, '-DREFUSING', '-I', folder, ROOT / 'bench/embedded.c', parts, '-o', program)
    print(f'each allocation refused in turn: {run(program, "refuse").strip()}')


def main():
    floorsim, server, floorc = sys.argv[1:4]
    seeds = int(sys.argv[4]) if len(sys.argv) > 4 else 40
    began = time.monotonic()
    with tempfile.TemporaryDirectory() as name:
        folder = pathlib.Path(name)
        run(ROOT / '.ci/library', folder)
        os.environ['FLOOR_LIBRARY'] = str(folder / 'libfloor.so')
        os.environ['PYTHONPATH'] = name
        sys.path.insert(0, name)
        import floor
        print(floor.Hub().version())
        try:
            compilers(folder)
            for kind, reaches in ((script, 'refused Ended'), (crowded, 'refused Full'), (behind, 'refused Cut')):
                scripts(floor, pathlib.Path(floorsim).resolve(), kind, seeds, reaches)
            servers(floor, folder, server, max(1, seeds // 4))
            clients(folder, server, pathlib.Path(floorc).resolve())
            refusals(folder)
        except Differs as differs:
            print(differs)
            return 1
    print(f'{time.monotonic() - began:.0f} seconds')
    return 0


if __name__ == '__main__':
    signal.signal(signal.SIGTERM, lambda *_: sys.exit(1))
    sys.exit(main())
