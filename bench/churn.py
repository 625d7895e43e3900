#!/usr/bin/env python3
"""What connections leave behind: ./churn.py SERVER [TURNS [AT ONCE]]

Connects to one port, waits for the HelloAck and closes, so many times (1,000), so many at once (1),
then does nothing for a second, and looks at the server; three times over. Then stops it, and says
how long that took.
"""
import sys
import time

from server import Server, configuration, connect, greet


def main():
    if len(sys.argv) < 2:
        raise SystemExit(__doc__)
    turns = int(sys.argv[2]) if len(sys.argv) > 2 else 1000
    at_once = int(sys.argv[3]) if len(sys.argv) > 3 else 1
    text, bindings = configuration(1, 1)
    port, conference, user = bindings[0]
    server = Server(sys.argv[1], text)
    print('%-22s %8s %8s %12s %6s' % ('', 'VmRSS kB', 'threads', 'descriptors', 'maps'))

    def look(name):
        seen = server.seen()
        print('%-22s %8d %8d %12d %6d' % (
            name, seen['VmRSS'], seen['Threads'], seen['descriptors'], seen['maps']))
        return seen

    last = look('at the start')
    for turn in range(3):
        for _ in range(turns // at_once):
            clients = [connect(port) for _ in range(at_once)]
            for client in clients:
                if len(greet(client, conference, user)) != 48:
                    raise SystemExit('a connection was not answered')
            for client in clients:
                client.close()
        time.sleep(1)
        now = look('after %d connections' % ((turn + 1) * turns))
        print('%-22s %8.2f kB for each' % ('', (now['VmRSS'] - last['VmRSS']) / turns))
        last = now
    began = time.monotonic()
    answer, status = server.stop()
    print('%s, status %d, in %.2f s' % (answer, status, time.monotonic() - began))


if __name__ == '__main__':
    main()
