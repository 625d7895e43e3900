#!/usr/bin/env python3
"""What idle connections cost: ./idle.py SERVER [CONNECTIONS [SECONDS]]

Connects so many clients (500) to 16 conferences or more, 60 to each, waits for each one's HelloAck, and
then looks for so many seconds (10) at the server: its processor time, and what each connection takes of
memory, threads, descriptors and mappings. Where the system has no descriptors for four ports of each
conference beside them, each has one.
"""
import resource
import sys
import time

from server import Server, configuration, connect, greet


def main():
    if len(sys.argv) < 2:
        raise SystemExit(__doc__)
    count = int(sys.argv[2]) if len(sys.argv) > 2 else 500
    seconds = float(sys.argv[3]) if len(sys.argv) > 3 else 10
    conferences = max(16, -(-count // 60))
    descriptors = resource.getrlimit(resource.RLIMIT_NOFILE)[0]
    text, bindings = configuration(conferences, 4 if count + 4 * conferences + 100 < descriptors else 1)
    server = Server(sys.argv[1], text)
    before = server.seen()
    clients = []
    began = time.monotonic()
    for k in range(count):
        port, conference, user = bindings[k % len(bindings)]
        client = connect(port)
        if len(greet(client, conference, user)) != 48:
            raise SystemExit('connection %d was not answered' % k)
        clients.append(client)
    took = time.monotonic() - began
    time.sleep(1)
    first = server.seen()
    time.sleep(seconds)
    last = server.seen()
    print('%d connections, made and answered in %.2f s' % (count, took))
    print('processor time in %g s: %.1f ms' % (
        seconds, 1000 * (last['processor'] - first['processor'])))
    for name, unit in (('VmRSS', 'kB'), ('VmSize', 'kB'), ('Threads', ''),
                       ('descriptors', ''), ('maps', '')):
        print('%-11s %9d before, %9d with them: %.2f %s for each' % (
            name, before[name], last[name], (last[name] - before[name]) / count, unit))
    for client in clients:
        client.close()
    time.sleep(1)
    after = server.seen()
    print('after their end: VmRSS %d kB, threads %d, descriptors %d, maps %d' % (
        after['VmRSS'], after['Threads'], after['descriptors'], after['maps']))
    print('%s, status %d' % server.stop())


if __name__ == '__main__':
    main()
