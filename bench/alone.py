#!/usr/bin/env python3
"""A conference of a script is answered as if it were alone.

    bench/alone.py FLOORSIM [FIRST [COUNT [SERVER]]]

Makes COUNT scripts (200 if absent) of 150 lines over three conferences, one for each seed from FIRST (0 if
absent) on: connections that come and leave, messages of every kind, cut anywhere and malformed ones among
them, revokes and closes, users and floors that are added, chairs that are given and taken away. Each script
is run whole, and then once for each conference with that conference's lines alone, its connections under the
numbers that they have there. What the conference's lines print is to be the same. What all scripts print has
to reach grants, queues, each refusal and so on, three times each. Prints how many lines were compared;
status 1 where something differs or isn't reached.

With a SERVER, a floord or a floorhub of one loop, each script is then played over sockets, its three conferences
beside each other: what floorsim prints behind a conference's line where it is alone, the connections have to hear
behind that line, and nothing else. A message is served there as soon as it is whole. Each line of an administrator
has to have that answer, and in the end each connection leaves.
"""
import random
import socket
import subprocess
import sys
import threading
import time

from server import Server, connect, hear, is_hub

CONFERENCES = 3
LINES = 150
# A conference has a hundred ports of the server from here on: a user's, and one at which nobody is let in.
FIRST_PORT, SPARE = 8400, 99
DEADLINE = 20

# A message for each line. #c, #t and #u are the conference, a transaction and the user of the connection; #f,
# #r, #b, #p and #v a floor, a request, a beneficiary, a priority and a verdict.
MESSAGES = """\
200b0000 #c #t #u
200b0001 #c #t #u 04010001
400b0000 #c #t #u
20100000 #c #t #u
200b0000 00000001 #t #u
200b0000 00000009 #t #u
20010001 #c #t #u 0404 #f
20010001 #c #t #u 0404 #f
20010001 #c #t #u 0404 #f
20010001 #c #t #u 0404 0001
20010001 #c #t #u 0404 0002
20010001 #c #t #u 0404 0002
20010001 #c #t #u 0404 0002
20010002 #c #t #u 0404 #f 0404 #f
20010002 #c #t #u 0404 #f 0804 #p
20010002 #c #t #u 0404 #f 0804 #p
20010002 #c #t #u 0404 #f 0204 #b
20010002 #c #t #u 0404 #f 1005 616e6e00 0000
20020001 #c #t #u 0604 #r
20020001 #c #t #u 0604 #r
20020001 #c #t #u 0604 #r
20030001 #c #t #u 0604 #r
20050000 #c #t #u
20050001 #c #t #u 0204 #b
20070001 #c #t #u 0404 #f
20070002 #c #t #u 0404 #f 0404 #f
20070000 #c #t #u
20090003 #c #t 000c 1e0c #r 2208 0002 0a04 #v
20090003 #c #t #u 1e0c #r 2208 0002 0a04 #v
20090003 #c #t #u 1e0c #r 2208 0002 0a04 #v
20090003 #c #t #u 1e0c #r 2208 0002 0a04 #v
20090003 #c #t #u 1e0c #r 2208 0002 0a04 #v
20090003 #c #t #u 1e0c #r 2208 0002 0a04 #v
20090003 #c #t #u 1e0c #r 2208 0002 0a04 #v
20090003 #c #t #u 1e0c #r 2208 0002 0a04 #v
20090003 #c #t #u 1e0c #r 2208 0002 0a04 #v""".splitlines()

# What the scripts have to reach, and what a printed line has where one does.
REACHED = {
    'a grant': '0a040300', 'a place in a queue': '0a040201', 'the second place': '0a040202',
    'a pending request': '0a040100', 'a request denied': '0a040400', 'a request cancelled': '0a040500',
    'a request released': '0a040600', 'a request revoked': '0a040700',
    'a notice of a request': '20040007000000020000', 'a HelloAck': '200c0009',
    'a ChairActionAck': '200a0000', 'a UserStatus': '2006', 'a FloorStatus': '20080008',
    'a notice of a floor': '20080001000000030000', 'a connection': 'attached', 'no message': 'nothing',
    'no user': 'NoUser', 'no connection': 'NoConnection', 'no request': 'NoRequest',
    'a closed conference': 'Ended',
    'a user who is there': 'DoubleUser', 'a floor that is there': 'DoubleFloor', 'no floor': 'NoFloor',
    'no chair': 'UnknownChair', 'an act out of range': 'OutOfRange', "an added user's name": '1806446176650000',
    'an added floor': '22080005', 'an added floor with a chair': '22080006',
    **{'Error %d' % code: '0c03%02x00' % code for code in (1, 2, 3, 5, 6, 7, 8, 10, 12, 14)}}

# Behind each line: nothing else attaches to conference 0, so that what a line prints ends with this.
MARKER = 'attach 0 0\n'
MARK = 'refused NoConference\n'

VERDICTS = (0x0200, 0x0300, 0x0400, 0x0700)


def port_of(conference, user):
    return FIRST_PORT + 100 * (conference - 1) + user


def configuration(conference):
    return ('[[conference]]\nid = %d\nlimit = 2\nuser = [%s]\n'
            'floor = [{ id = 1 }, { id = 2, chair = 12 }, { id = 3, room = 2 }]\n' % (conference, ', '.join(
                '{ id = %d, port = %d, proxy = %s }' % (user, port_of(conference, user), str(user == 13).lower())
                for user in (10, 11, 12, 13))))


class Script:
    """The lines of a seed: each its conference, the words in front of the connection's number, the
    connection or None, and the words behind it."""

    def __init__(self, seed):
        self.random = random.Random(seed)
        self.connections = []
        self.closed = set()
        self.users = {it: {10, 11, 12, 13} for it in range(1, CONFERENCES + 1)}
        self.lines = []
        for place in range(LINES):
            choice = self.random.randrange(22) if place >= 8 else 0
            if choice <= 2:
                self.attach()
            elif choice in (3, 20, 21):
                self.administer()
            else:
                self.use(choice)

    def attach(self):
        conference = self.random.randint(1, CONFERENCES)
        user = 99 if self.random.randrange(20) == 0 else self.random.choice(sorted(self.users[conference]))
        self.lines.append((conference, 'attach %d %d' % (conference, user), None, ''))
        if user != 99 and conference not in self.closed:
            number = 1 + sum(it['conference'] == conference for it in self.connections)
            self.connections.append({'conference': conference, 'number': number, 'user': user, 'rest': ''})

    def administer(self):
        conference = self.random.randint(1, CONFERENCES)
        choice = self.random.randrange(16)
        if choice == 0:
            self.closed.add(conference)
            line = 'close %d' % conference
        elif choice <= 4:
            line = 'revoke %d %d' % (conference, self.request())
        elif choice <= 7:
            line = self.user(conference)
        elif choice <= 10:
            line = 'floor %d %d%s%s' % (
                conference, self.random.randint(3, 6), self.random.choice(('', ' room 2', ' room 0')),
                self.random.choice(('', ' chair 12', ' chair %d' % self.random.randint(10, 17))))
        else:
            line = 'chair %d %d%s' % (
                conference, self.random.randint(1, 6),
                self.random.choice(('', ' 12', ' %d' % self.random.randint(10, 17))))
        self.lines.append((conference, line, None, ''))

    def user(self, conference):
        """The line of a user who is added, unless one has the number."""
        number = self.random.randint(12, 17)
        name = self.random.choice(('', ' name Dave', ' name Dave', ' name ' + 31 * 'x'))
        if conference not in self.closed and len(name) < 30:
            self.users[conference].add(number)
        return 'user %d %d%s%s%s' % (conference, number, self.random.choice(('', ' proxy')),
                                     self.random.choice(('', ' port 7')), name)

    def use(self, choice):
        if not self.connections:
            return
        place = self.random.randrange(len(self.connections))
        connection = self.connections[place]
        rest = ''
        if choice == 4:
            word = 'leave'
        elif choice <= 7:
            word, bytes_ = 'piece', self.bytes_of(connection)
            cut = 2 * self.random.randint(1, len(bytes_) // 2)
            rest, connection['rest'] = bytes_[:cut], bytes_[cut:]
        elif choice <= 9:
            word = 'serve'
        else:
            word, rest = 'send', self.bytes_of(connection)
        self.lines.append((connection['conference'], word, place, rest))

    def bytes_of(self, connection):
        """The rest of what was cut, or a message."""
        held, connection['rest'] = connection['rest'], ''
        return held or ''.join(self.word(word, connection) for word in self.random.choice(MESSAGES).split())

    def word(self, word, connection):
        values = {
            '#c': lambda: '%08x' % connection['conference'],
            '#t': lambda: '%04x' % self.random.randint(1, 9),
            '#u': lambda: '%04x' % connection['user'],
            '#f': lambda: '%04x' % self.random.randint(1, 6),
            '#r': lambda: '%04x' % self.request(),
            '#b': lambda: '%04x' % self.random.randint(10, 17),
            '#p': lambda: '%04x' % (0x2000 * self.random.randrange(5)),
            '#v': lambda: '%04x' % self.random.choice(VERDICTS)}
        return values[word]() if word in values else word

    def request(self):
        return self.random.randint(1, len(self.lines) // 12 + 1)


def text_of(conferences, lines):
    text = ''.join(configuration(it) for it in conferences) + '---\n'
    for front, number, rest in lines:
        text += ('%s %d %s\n' % (front, number, rest) if number else front + '\n') + MARKER
    return text


def printed(floorsim, text):
    """What each line prints."""
    done = subprocess.run([floorsim], input=text.encode(), capture_output=True, check=True)
    return done.stdout.decode().split(MARK)[:-1]


def renamed(line, numbers):
    """A printed line, with the number that its connection has where the conference is alone."""
    words = line.split(' ')
    at = 1 if words[0] == 'attached' else 0
    if words[at].isdigit():
        words[at] = str(numbers[int(words[at])])
    return ' '.join(words)


def compare(floorsim, seed):
    script = Script(seed)
    answers = printed(floorsim, text_of(range(1, CONFERENCES + 1), (
        (front, None if place is None else place + 1, rest) for _, front, place, rest in script.lines)))
    if len(answers) != len(script.lines):
        sys.exit('seed %d: %d lines are answered, of %d' % (seed, len(answers), len(script.lines)))
    for conference in range(1, CONFERENCES + 1):
        own = [(line, answer) for line, answer in zip(script.lines, answers) if line[0] == conference]
        numbers = {place + 1: it['number'] for place, it in enumerate(script.connections)
                   if it['conference'] == conference}
        alone = printed(floorsim, text_of([conference], (
            (front, None if place is None else script.connections[place]['number'], rest)
            for (_, front, place, rest), _ in own)))
        among = [[renamed(it, numbers) for it in answer.splitlines()] for _, answer in own]
        if [it.splitlines() for it in alone] != among:
            sys.exit('seed %d: conference %d is answered otherwise than alone' % (seed, conference))
    return answers


class Played:
    """A conference of a script, over the sockets of a server."""

    def __init__(self, floorsim, script, conference, ask):
        self.conference = conference
        self.ask = ask
        self.clients = {}
        self.is_closed = False
        self.wrong = None
        self.compared = 0
        self.lines = []
        staying = {}
        for it, front, place, rest in script.lines:
            if it == conference and front != 'serve':
                number = None if place is None else script.connections[place]['number']
                self.lines.append(('send' if front == 'piece' else front, number, rest))
                if front == 'leave':
                    staying.pop(number, None)
                elif number:
                    staying[number] = True
        self.lines += [('leave', number, '') for number in staying]
        self.answers = [it.splitlines() for it in printed(floorsim, text_of([conference], self.lines))]

    def play(self):
        try:
            for (front, number, rest), answer in zip(self.lines, self.answers):
                self.do(front.split(), number, rest, answer)
                self.compared += 1
        except (Exception, SystemExit) as fault:
            self.wrong = 'line %d, %s: %r' % (self.compared + 1, self.lines[self.compared], fault)

    def do(self, words, number, rest, answer):
        refusal = answer[0].split()[1] if answer and answer[0].startswith('refused') else None
        if words[0] == 'attach':
            self.attach(words, refusal, answer)
        elif words[0] == 'send' and not refusal:
            self.clients[number].sendall(bytes.fromhex(rest))
        elif words[0] == 'leave' and not refusal and not self.is_closed:
            client = self.clients.pop(number)
            client.shutdown(socket.SHUT_WR)
            self.ends(client)
            self.wait()
        elif words[0] not in ('send', 'leave'):
            self.administer(words, refusal)
        self.hear(answer)

    def attach(self, words, refusal, answer):
        if not refusal:
            client = connect(port_of(self.conference, int(words[2])))
            client.settimeout(DEADLINE)
            self.clients[int(answer[0].split()[1])] = client
            self.wait()
        elif refusal == 'Ended' and words[2] == '10':
            try:
                connect(port_of(self.conference, 10)).close()
                assert False, 'somebody listens for a closed conference'
            except ConnectionRefusedError:
                pass

    def administer(self, words, refusal):
        if words[0] == 'user':
            port = port_of(self.conference, SPARE if refusal else int(words[2]))
            rest = words[5:] if words[3:4] == ['port'] else words[3:]
            if rest[:1] == ['proxy']:
                rest = rest[1:] if rest[1:2] != ['port'] else rest[3:]
                rest = ['proxy', 'port', str(port), *rest]
            else:
                rest = ['port', str(port), *rest]
            words = words[:3] + rest
        got = self.ask(' '.join(words))
        assert got == 'error %s' % refusal if refusal else got.startswith('ok '), got
        if words[0] == 'close' and not refusal:
            for client in self.clients.values():
                self.ends(client)
            self.clients = {}
            self.is_closed = True

    def ends(self, client):
        heard = client.recv(65536)
        assert not heard, '%s is heard at the end' % heard.hex()
        client.close()

    def wait(self):
        """Waits until so many are members as are connected."""
        wanted = 'conference %d members %d ' % (self.conference, len(self.clients))
        end = time.monotonic() + DEADLINE
        while not self.ask('status %d' % self.conference).startswith(wanted):
            assert time.monotonic() < end, 'the status is never "%s"' % wanted
            time.sleep(0.0005)

    def hear(self, answer):
        told = {}
        for line in answer:
            first, _, rest = line.partition(' ')
            if first not in ('attached', 'refused'):
                told[int(first)] = told.get(int(first), b'') + bytes.fromhex(rest)
        for number, wanted in told.items():
            heard = hear(self.clients[number], len(wanted))
            assert heard == wanted, '%d heard %s, not %s' % (number, heard.hex(), wanted.hex())


def play(program, floorsim, seed):
    """Plays a script over a server, all its conferences beside each other."""
    script = Script(seed)
    text = ''.join(configuration(it) for it in range(1, CONFERENCES + 1))
    server = Server(program, text, words=('--loops', '1') if is_hub(program) else ())
    turn = threading.Lock()

    def ask(line):
        with turn:
            return server.ask(line)
    played = [Played(floorsim, script, conference, ask) for conference in range(1, CONFERENCES + 1)]
    threads = [threading.Thread(target=one.play) for one in played]
    for thread in threads:
        thread.start()
    for thread in threads:
        thread.join()
    for one in played:
        if one.wrong:
            server.process.kill()
            sys.exit('seed %d, conference %d: %s' % (seed, one.conference, one.wrong))
    report, status = server.stop()
    if status or not report.startswith('ok stopped '):
        sys.exit('seed %d: the report is %s, status %d' % (seed, report, status))
    return sum(one.compared for one in played)


def main():
    if len(sys.argv) < 2:
        sys.exit(__doc__)
    floorsim, first, count = sys.argv[1], *(int(it) for it in (sys.argv[2:4] + ['0', '200'][len(sys.argv[2:4]):]))
    lines = []
    for seed in range(first, first + count):
        for answer in compare(floorsim, seed):
            lines.extend(answer.splitlines())
    for name, part in REACHED.items():
        if sum(part in line for line in lines) < 3:
            sys.exit('%s is reached fewer than three times' % name)
    print('%d scripts, %d printed lines: each conference is answered as if it were alone' % (count, len(lines)))
    if len(sys.argv) > 4:
        done = sum(play(sys.argv[4], floorsim, seed) for seed in range(first, first + count))
        print('%d lines of them over sockets: likewise' % done)


if __name__ == '__main__':
    main()
