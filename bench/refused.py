#!/usr/bin/env python3
"""Refuses allocations in turn: ./refused.py SERVER FLOORC [EVERY]

Builds refused.c, and runs both programs with one allocation refused, and with all from one on: the
first, the second, and so on (with EVERY, each so manieth) up to as many as a run makes. floorc
talks to a peer that answers what a server answers; the server, a floord or a floorhub, is driven through
its console, and by a client. A run has to end by itself; what it prints has to be a beginning of what it prints where
nothing is refused, but that a conference may be broken off, which every later answer then says;
where it ends early, its status is 1 and standard error has the fault's name; its report is never
Mismatch. Prints how many runs ended how. Status 1 where one did otherwise.
"""
import collections
import os
import select
import socket
import subprocess
import sys
import tempfile
import threading
import time

from messages import (FLOOR_RELEASE, FLOOR_REQUEST, FLOOR_REQUEST_ID, FLOOR_STATUS, GRANTED, HELLO,
                      RELEASED, floor_request_status, floors, hello_ack, message, number)
from server import hear, name_of

PORT = 7990
CONFIGURATION = '''[[conference]]
id = 1
[[conference.user]]
id = 10
port = %d
[[conference.floor]]
id = 1
[[conference]]
id = 2
[[conference.user]]
id = 10
''' % PORT
OF_PORT = 'port %d of user 10 of conference 1: ' % PORT
FLOOR_STATUS_OF_NONE = message(FLOOR_STATUS, 1, 2, 10)
# A Hello, a FloorRequest for floor 1 and its FloorRelease, and what they are answered.
ASKED = (message(HELLO, 1, 1, 10), message(FLOOR_REQUEST, 1, 2, 10, floors(1)),
         message(FLOOR_RELEASE, 1, 3, 10, number(FLOOR_REQUEST_ID, 1)))
ANSWERED = (hello_ack(1, 1, 10) + floor_request_status(1, 2, 10, 1, GRANTED, 0, 1)
            + floor_request_status(1, 3, 10, 1, RELEASED, 0, 1))
LINES = b'hello\nfly\nwatch\nquit\n'
PRINTED = b'reply 1 HelloAck\nerror BadLine\nreply 2 FloorStatus\n'
SECONDS = 20


class Wrong(Exception):
    """What a run did otherwise than it has to."""


def environment(folder, refused):
    return {**os.environ, 'LD_PRELOAD': os.path.join(folder, 'refused.so'), 'REFUSE': refused,
            'REFUSE_COUNT': os.path.join(folder, 'count'), 'MALLOC_ARENA_MAX': '1'}


def answer(listener):
    """A peer that answers a Hello and a FloorQuery."""
    try:
        client, _ = listener.accept()
    except OSError:
        return
    with client:
        client.settimeout(SECONDS)
        try:
            for wanted, told in ((12, hello_ack(1, 1, 10)), (12, FLOOR_STATUS_OF_NONE)):
                if len(hear(client, wanted)) < wanted:
                    return
                client.sendall(told)
            client.recv(1)
        except OSError:
            pass


def run_floorc(floorc, folder, refused):
    """How a run of floorc ended."""
    listener = socket.create_server(('127.0.0.1', 0))
    listener.settimeout(SECONDS)
    peer = threading.Thread(target=answer, args=(listener,), daemon=True)
    peer.start()
    address = '127.0.0.1:%d' % listener.getsockname()[1]
    try:
        done = subprocess.run([floorc, address, '1', '10'], input=LINES, capture_output=True,
                              timeout=SECONDS, env=environment(folder, refused))
    except subprocess.TimeoutExpired:
        raise Wrong('floorc does not end')
    finally:
        listener.close()
    if done.returncode == 0:
        if (done.stdout, done.stderr) != (PRINTED, b''):
            raise Wrong('floorc ends well, and prints %r and %r' % (done.stdout, done.stderr))
        return 'well'
    if done.returncode != 1 or not PRINTED.startswith(done.stdout):
        raise Wrong('floorc ends with %d and prints %r' % (done.returncode, done.stdout))
    text = done.stderr.decode()
    if text not in ('floorc: Memory\n', 'floorc: Socket\n'):
        raise Wrong('floorc ends early with %r' % text)
    return text.split()[1]


class Driven:
    """A server with its console."""

    def __init__(self, program, folder, refused):
        self.name = name_of(program)
        self.process = subprocess.Popen(
            [program, os.path.join(folder, 'refused.toml')], stdin=subprocess.PIPE,
            stdout=subprocess.PIPE, stderr=subprocess.PIPE, env=environment(folder, refused))
        self.held = b''

    def line(self):
        """The next line that it prints; None at the end."""
        end = time.monotonic() + SECONDS
        while b'\n' not in self.held:
            left = end - time.monotonic()
            if left <= 0 or not select.select([self.process.stdout], [], [], left)[0]:
                raise Wrong('%s prints nothing' % self.name)
            piece = os.read(self.process.stdout.fileno(), 65536)
            if not piece:
                return None
            self.held += piece
        text, _, self.held = self.held.partition(b'\n')
        return text.decode()

    def ask(self, text):
        try:
            self.process.stdin.write(text.encode() + b'\n')
            self.process.stdin.flush()
        except OSError:
            return None
        return self.line()

    def end(self):
        try:
            _, errors = self.process.communicate(timeout=SECONDS)
        except subprocess.TimeoutExpired:
            raise Wrong('%s does not end' % self.name)
        return self.process.returncode, errors.decode()


def talk():
    """What a client of conference 1 hears: an answer to each message, as far as there are."""
    heard = b''
    try:
        with socket.create_connection(('127.0.0.1', PORT), SECONDS) as client:
            client.settimeout(SECONDS)
            for asked in ASKED:
                client.sendall(asked)
                head = hear(client, 12)
                heard += head
                if len(head) < 12:
                    return heard
                heard += hear(client, 4 * int.from_bytes(head[2:4], 'big'))
    except socket.timeout:
        raise Wrong('a client is neither answered nor shut down')
    except OSError:
        pass
    return heard


def run_server(program, folder, refused):
    """How a run of a server ended."""
    driven = Driven(program, folder, refused)
    try:
        return drive(driven)
    finally:
        driven.process.kill()
        driven.process.wait()
        for pipe in (driven.process.stdin, driven.process.stdout, driven.process.stderr):
            try:
                pipe.close()
            except OSError:
                pass


def drive(driven):
    broken = unserved = False
    if driven.line() == 'ready':
        heard = talk()
        if not ANSWERED.startswith(heard):
            raise Wrong('a client hears %s' % heard.hex())
        unserved = heard != ANSWERED
        for text, told in (('status 2', 'conference 2 members 0 ongoing 0 events 0 open'),
                           ('close 2', 'ok closed 2'), ('revoke 1 1', 'error NoRequest'),
                           ('fly', 'error UnknownCommand')):
            answer = driven.ask(text)
            if answer is None:
                break
            if text == 'revoke 1 1' and answer == 'error Broken':
                broken = True
            elif text == 'close 2' and answer == 'error Broken':
                broken = True
            elif answer != told:
                raise Wrong('%s is answered by %s' % (text, answer))
        else:
            report = driven.ask('stop')
            if report is not None:
                words = report.split()
                broken = broken or words[:2] == ['error', 'Broken']
                if words[:2] not in (['ok', 'stopped'], ['error', 'Broken']):
                    raise Wrong('stop is answered by %s' % report)
    status, errors = driven.end()
    if status == 0 and not errors:
        return 'well, but that a client was shut down' if unserved else 'well'
    # Before the name there may be a line that says where.
    *lines, last = errors.splitlines() or ['']
    if status != 1 or last not in [
            '%s: %s' % (driven.name, fault) for fault in ('Memory', 'Broken', 'CannotListen', 'CannotRead')]:
        raise Wrong('%s ends with %d and %r' % (driven.name, status, errors))
    if len(lines) > 1 or any('refused.toml: ' not in line and not line.startswith(OF_PORT) for line in lines):
        raise Wrong('%s tells %r' % (driven.name, lines))
    return last.split()[1]


def try_all(name, run, program, folder, every):
    """Runs a program with each allocation refused, and with all from each on."""
    run(program, folder, '0')
    with open(os.path.join(folder, 'count')) as file:
        made = int(file.read())
    wrong = 0
    for form, said in (('%d', 'one is refused'), ('%d-', 'all from one on are refused')):
        ends = collections.Counter()
        for number in range(1, made + 20, every):
            try:
                ends[run(program, folder, form % number)] += 1
            except Wrong as fault:
                wrong += 1
                ends['WRONG'] += 1
                print('%s, %s: %s' % (name, form % number, fault), flush=True)
        print('%s, %d allocations, %s: %s' % (
            name, made, said, ', '.join('%d %s' % (count, end) for end, count in
                                        ends.most_common())), flush=True)
    return wrong


def main():
    if len(sys.argv) < 3:
        raise SystemExit(__doc__)
    every = int(sys.argv[3]) if len(sys.argv) > 3 else 1
    here = os.path.dirname(os.path.abspath(__file__))
    with tempfile.TemporaryDirectory() as folder:
        subprocess.run(['cc', '-O2', '-shared', '-fPIC', '-o', os.path.join(folder, 'refused.so'),
                        os.path.join(here, 'refused.c')], check=True)
        with open(os.path.join(folder, 'refused.toml'), 'w') as file:
            file.write(CONFIGURATION)
        wrong = try_all('floorc', run_floorc, os.path.abspath(sys.argv[2]), folder, every)
        server = os.path.abspath(sys.argv[1])
        wrong += try_all(name_of(server), run_server, server, folder, every)
    raise SystemExit(1 if wrong else 0)


if __name__ == '__main__':
    main()
