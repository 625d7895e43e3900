#!/usr/bin/env python3
"""What a message and a conference take of memory: ./events.py SERVER [MESSAGES]

One connection sends so many Hellos (200,000), 500 at once, and reads every answer: what each takes
has its share of the acknowledgements. And a server opens 1,000 conferences of 4 users without ports.
"""
import os
import sys
import tempfile

from server import Server, configuration, connect, hear, hello


def pieces(count, conference, user):
    for at in range(0, count, 500):
        yield b''.join(hello(conference, k % 65535 + 1, user)
                       for k in range(at, min(count, at + 500)))


def main():
    if len(sys.argv) < 2:
        raise SystemExit(__doc__)
    count = int(sys.argv[2]) if len(sys.argv) > 2 else 200_000
    text, ((port, conference, user),) = configuration(1, 1)
    server = Server(sys.argv[1], text)
    client = connect(port)
    before = server.seen()['VmRSS']
    for piece in pieces(count, conference, user):
        client.sendall(piece)
        hear(client, 4 * len(piece))
    after = server.seen()['VmRSS']
    print('a Hello: %.0f bytes (VmRSS %d to %d kB; %s)' % (
        1024 * (after - before) / count, before, after, server.ask('status %d' % conference)))
    before = after
    handle, path = tempfile.mkstemp(suffix='.toml')
    with os.fdopen(handle, 'w') as file:
        for conference in range(1000):
            file.write('[[conference]]\nid = %d\n' % (1000 + conference))
            for user in range(4):
                file.write('[[conference.user]]\nid = %d\nname = "User %d"\n' % (user, user))
            file.write('[[conference.floor]]\nid = 1\n')
    print(server.ask('open %s' % path))
    os.unlink(path)
    after = server.seen()['VmRSS']
    print('a conference of 4 users and a floor: %.0f bytes' % (1024 * (after - before) / 1000))
    client.close()
    print('%s, status %d' % server.stop())


if __name__ == '__main__':
    main()
