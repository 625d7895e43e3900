#!/usr/bin/env python3
"""The administrator's lines while clients flood: ./console.py SERVER

Four clients flood two conferences. Meanwhile come `open`, `close` and `revoke`, each of them twice,
in all 90 orders, the k-th of which is cut off by `stop` after k mod 7 lines: each line has the
answer that docs/operate/names.md has for it, each client hears a beginning of the HelloAcks of what it
sent, and the report of `stop` is at least what was heard and at most twice what was sent: a message
that is answered has one acknowledgement at most. Then the file of `open` changes, breaks and
vanishes between lines and while it is read, standard input ends or isn't UTF-8, and nobody reads
standard output. Status 1 where anything is otherwise.
"""
import itertools
import multiprocessing
import os
import select
import sys
import tempfile
import threading
import time

from messages import (FLOOR_REQUEST, GRANTED, HELLO, REVOKED, floor_request_status, floors,
                      hello_ack, message)
from server import Server, connect, hear

FIRST_PORT = 7900
PIECE = 100
DEADLINE = 20


class Failed(Exception):
    """What was otherwise."""


def conference(number, port, users=(10, 11)):
    rows = ['[[conference]]\nid = %d\n' % number]
    rows += ['[[conference.user]]\nid = %d\nport = %d\n' % (user, port + k)
             for k, user in enumerate(users)]
    return ''.join(rows) + '[[conference.floor]]\nid = 1\n'


TWO = conference(1, FIRST_PORT) + conference(2, FIRST_PORT + 2)
THREE = conference(3, FIRST_PORT + 4)


def flood(bindings, ready, results):
    """Floods a connection of each binding until all are shut down; gives (sent, heard, wrong)."""
    clients = {}
    for port, conference_, user in bindings:
        client = connect(port)
        client.sendall(message(HELLO, conference_, 1, user))
        if hear(client, 48) != hello_ack(conference_, 1, user):
            results.put((0, 0, 'no HelloAck'))
            return
        clients[client] = [1, 48, b'', message(HELLO, conference_, 1, user) * PIECE,
                           hello_ack(conference_, 1, user)]
    ready.wait()
    for client, state in clients.items():
        client.sendall(state[3])
        state[0] += PIECE
    sent = heard = 0
    wrong = None
    while clients:
        for client in select.select(list(clients), [], [])[0]:
            state = clients[client]
            try:
                piece = client.recv(1 << 16)
                before, state[1] = state[1], state[1] + len(piece)
                if piece and piece != (state[4] * (len(piece) // 48 + 2))[
                        before % 48:before % 48 + len(piece)]:
                    wrong = 'a HelloAck is wrong'
                if piece and state[0] - state[1] // 48 < PIECE:
                    client.sendall(state[3])
                    state[0] += PIECE
            except OSError:
                piece = b''
            if not piece:
                client.close()
                sent += state[0]
                heard += state[1] // 48
                del clients[client]
    results.put((sent, heard, wrong))


def expected(lines):
    """The answer to each line, by what came before it."""
    answers = []
    before = []
    for line in lines:
        if line == 'open':
            answer = 'error Used' if line in before else 'ok opened 1'
        elif line == 'close':
            answer = 'error Ended' if line in before else 'ok closed 1'
        elif 'close' in before:
            answer = 'error Ended'
        else:
            answer = 'error NoRequest' if line in before else 'ok revoked 1 1'
        answers.append(answer)
        before.append(line)
    return answers


def run(floord, lines, path):
    """One order of lines under the flood; the longest time of a line, and that of `stop`."""
    server = Server(floord, TWO)
    holder = connect(FIRST_PORT)
    holder.sendall(message(FLOOR_REQUEST, 1, 1, 10, floors(1)))
    if hear(holder, 40) != floor_request_status(1, 1, 10, 1, GRANTED, 0, 1):
        raise Failed('the request is not granted')
    ready = multiprocessing.Barrier(3)
    results = multiprocessing.Queue()
    flooders = [multiprocessing.Process(target=flood, args=(bindings, ready, results), daemon=True)
                for bindings in (((FIRST_PORT + 1, 1, 11), (FIRST_PORT + 3, 2, 11)),
                                 ((FIRST_PORT + 1, 1, 11), (FIRST_PORT + 2, 2, 10)))]
    for flooder in flooders:
        flooder.start()
    ready.wait()
    time.sleep(0.02)
    texts = {'open': 'open %s' % path, 'close': 'close 1', 'revoke': 'revoke 1 1'}
    longest = 0
    newcomer = None
    seats, least = 5, 6
    for line, wanted in zip(lines, expected(lines)):
        began = time.monotonic()
        answer = server.ask(texts[line], DEADLINE)
        longest = max(longest, time.monotonic() - began)
        if answer != wanted:
            raise Failed('%s is answered by %s, not by %s' % (line, answer, wanted))
        if answer == 'ok opened 1':
            newcomer = connect(FIRST_PORT + 4)
            newcomer.sendall(message(HELLO, 3, 1, 10))
            if hear(newcomer, 48) != hello_ack(3, 1, 10):
                raise Failed('a conference that was just opened does not answer')
            seats, least = seats + 1, least + 3
        elif answer.startswith('ok'):
            least += 1
            if line == 'revoke' and hear(holder, 40) != floor_request_status(
                    1, 0, 10, 1, REVOKED, 0, 1):
                raise Failed('the holder is not told of the revocation')
    # Those who are members when it is closed never leave.
    least += 2 if 'close' in lines else 5
    began = time.monotonic()
    answer, status = server.stop()
    took = time.monotonic() - began
    sent = heard = 0
    for _ in flooders:
        some_sent, some_heard, wrong = results.get(timeout=DEADLINE)
        if wrong:
            raise Failed(wrong)
        sent += some_sent
        heard += some_heard
    words = answer.split()
    if words[:4] != ['ok', 'stopped', 'seats', str(seats)] or status != 0:
        raise Failed('the report is "%s", status %d, for %d seats' % (answer, status, seats))
    if not least + heard <= int(words[5]) <= 2 * (least + sent):
        raise Failed('the report is "%s", for %d events heard of and %d at most' % (
            answer, least + heard, 2 * (least + sent)))
    holder.close()
    if newcomer:
        newcomer.close()
    return longest, took, heard


def orders(floord):
    handle, path = tempfile.mkstemp(suffix='.toml')
    with os.fdopen(handle, 'w') as file:
        file.write(THREE)
    all_orders = sorted(set(itertools.permutations(('open', 'close', 'revoke') * 2)))
    longest, stopping, heard = 0, 0, 0
    for k, lines in enumerate(all_orders):
        lines = lines[:k % 7]
        try:
            line_took, stop_took, some = run(floord, lines, path)
        except (Failed, OSError, SystemExit) as fault:
            raise Failed('%s: %s' % (', '.join(lines + ('stop',)), fault))
        longest, stopping = max(longest, line_took), max(stopping, stop_took)
        heard += some
    os.unlink(path)
    print('%d orders under a flood, %d HelloAcks: the longest line took %.0f ms, the longest stop '
          '%.0f ms' % (len(all_orders), heard, 1000 * longest, 1000 * stopping), flush=True)


def answered(server, line, *wanted):
    answer = server.ask(line, DEADLINE)
    if answer not in wanted:
        raise Failed('%s is answered by %s, not by %s' % (line, answer, ' or '.join(wanted)))
    return answer


def changing_files(floord):
    """The file of `open` is read anew at each line."""
    server = Server(floord, TWO)
    folder = tempfile.mkdtemp()
    path = os.path.join(folder, 'more.toml')
    line = 'open %s' % path

    def write(text, mode='w'):
        with open(path, mode) as file:
            file.write(text)
    answered(server, line, 'error CannotRead')
    write(THREE)
    answered(server, line, 'ok opened 1')
    answered(server, line, 'error Used')
    write(conference(4, FIRST_PORT + 6) + conference(5, FIRST_PORT + 8))
    answered(server, line, 'ok opened 2')
    answered(server, 'status 5', 'conference 5 members 0 ongoing 0 events 0 open')
    write(conference(6, FIRST_PORT + 10) + conference(5, FIRST_PORT + 12))
    answered(server, line, 'error Used')
    answered(server, 'status 6', 'conference 6 members 0 ongoing 0 events 0 open')
    write(conference(7, FIRST_PORT + 14)[:-9])
    answered(server, line, 'error Syntax')
    write('[[conference]]\n')
    answered(server, line, 'error MissingKey')
    write(b'# \xff\n' + conference(7, FIRST_PORT + 14).encode(), 'wb')
    answered(server, line, 'error CannotRead')
    write(conference(7, FIRST_PORT))
    answered(server, line, 'error CannotListen')
    os.unlink(path)
    answered(server, line, 'error CannotRead')
    os.mkdir(path)
    answered(server, line, 'error CannotRead')
    os.rmdir(path)
    answered(server, 'status 7', 'error NoConference')
    turns = while_it_is_written(server, path, line)
    os.unlink(path)
    os.rmdir(folder)
    report = server.stop()
    if report != ('ok stopped seats 0 events 0', 0):
        raise Failed('the report is %s' % (report,))
    print('the file of open changes, breaks, vanishes, and is written %d times while it is read: '
          'each line has its answer' % turns, flush=True)


def while_it_is_written(server, path, line):
    """Another thread writes the file anew all the while, whole or in part."""
    texts = [THREE, conference(1, FIRST_PORT), '[[conference]]\n', THREE[:31], '']
    goes_on = True
    turns = 0

    def write():
        nonlocal turns
        while goes_on:
            with open(path, 'w') as file:
                file.write(texts[turns % len(texts)])
            turns += 1
    writer = threading.Thread(target=write)
    writer.start()
    time.sleep(0.1)
    try:
        for _ in range(1000):
            answered(server, line, 'error Used', 'error MissingKey', 'error Syntax')
    finally:
        goes_on = False
        writer.join()
    answered(server, 'status 3', 'conference 3 members 0 ongoing 0 events 0 open')
    return turns


def ends(floord):
    """Standard input ends, or isn't UTF-8; a line is long; nobody reads standard output."""
    for name, text in (('its end', b'status 1'), ('bytes that are no UTF-8', b'status \xff\n')):
        server = Server(floord, TWO)
        client = connect(FIRST_PORT)
        client.sendall(message(HELLO, 1, 1, 10))
        if hear(client, 48) != hello_ack(1, 1, 10):
            raise Failed('no HelloAck')
        server.process.stdin.write(text)
        server.process.stdin.close()
        # The Hello may be acknowledged by now, and before the member leaves.
        wanted = [('ok stopped seats 1 events 3', 'ok stopped seats 1 events 4'), ('',)]
        if name == 'its end':
            wanted.insert(0, ('conference 1 members 1 ongoing 0 events 2 open',
                              'conference 1 members 1 ongoing 0 events 3 open'))
        printed = [server.line(DEADLINE) for _ in wanted]
        if (any(line not in lines for line, lines in zip(printed, wanted))
                or server.process.wait(DEADLINE) != 0):
            raise Failed('%s: %s is printed, status %s' % (name, printed, server.process.poll()))
        os.unlink(server.path)
        client.close()
    server = Server(floord, TWO)
    answered(server, 'status ' + '1' * 10_000_000, 'error BadNumber')
    answered(server, 'x ' * 1_000_000, 'error UnknownCommand')
    server.process.stdout.close()
    server.process.stdin.write(b'status 1\n')
    server.process.stdin.flush()
    if server.process.wait(DEADLINE) != 1:
        raise Failed('standard output is closed, and the status is %d' % server.process.poll())
    os.unlink(server.path)
    print('the ends of standard input and output: each has its status', flush=True)


def main():
    if len(sys.argv) < 2:
        raise SystemExit(__doc__)
    try:
        changing_files(sys.argv[1])
        ends(sys.argv[1])
        orders(sys.argv[1])
    except (Failed, OSError, SystemExit) as fault:
        raise SystemExit('FAILED: %s' % fault)


if __name__ == '__main__':
    main()
