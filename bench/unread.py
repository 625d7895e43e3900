#!/usr/bin/env python3
"""What do peers that never read cost a server? ./unread.py SERVER [SECONDS [MOST]]

A conference with the longest answers that there are: 256 requests, each for the same eight floors, with
names of 30 bytes and a text of 62, so that one FloorQuery is answered by eight messages of some 56 kB.
It has 64 connections: one asked for all that and reads, the others ask once and read nothing. Then, each
over a server of its own,

- one of those asks on, as fast as its socket takes it;
- all of them ask on.

Prints the most memory that the server had, and how many connections it shut down. A run ends when all
that asked on are gone, after so many seconds (60), or beyond so many MB (8,000).
"""
import select
import sys
import time

from messages import (BENEFICIARY_ID, FLOOR_QUERY, FLOOR_REQUEST, INFO, attribute, floors, message,
                      number)
from server import FIRST_PORT, Server, connect, greet, hear

CONFERENCE, PROXY, PEER = 1, 10, 9
OTHERS = range(11, 27)
MEMBERS = 64
QUERY = message(FLOOR_QUERY, CONFERENCE, 2, PEER, floors(*range(1, 9)))


def configuration():
    rows = ['[[conference]]\nid = %d\nlimit = 16\n' % CONFERENCE]
    for user in (PROXY, PEER, *OTHERS):
        rows.append('[[conference.user]]\nid = %d\nname = "%s"\nproxy = %s\n' % (
            user, 'x' * 30, str(user == PROXY).lower()))
        if user in (PROXY, PEER):
            rows.append('port = %d\n' % (FIRST_PORT + user - PEER))
    rows += ['[[conference.floor]]\nid = %d\n' % floor for floor in range(1, 9)]
    return ''.join(rows)


def queue(client):
    """Asks for 256 requests, and reads the answers, which are as long as the first."""
    answer = 0
    for user in OTHERS:
        for _ in range(16):
            client.sendall(message(FLOOR_REQUEST, CONFERENCE, 1, PROXY, floors(*range(1, 9)) + number(
                BENEFICIARY_ID, user) + attribute(INFO, b'y' * 62)))
            head = hear(client, 12)
            answer = len(hear(client, 4 * int.from_bytes(head[2:4], 'big')))
    return answer


def is_shut(peer):
    """Whether the server has ended the connection, whatever lies unread before its end."""
    poll = select.poll()
    poll.register(peer, select.POLLRDHUP | select.POLLHUP | select.POLLERR)
    return bool(poll.poll(0))


def run(floord, asking, seconds, most):
    server = Server(floord, configuration())
    proxy = connect(FIRST_PORT + PROXY - PEER)
    greet(proxy, CONFERENCE, PROXY)
    answer = queue(proxy)
    peers = [connect(FIRST_PORT, narrow=True) for _ in range(MEMBERS - 1)]
    for peer in peers:
        peer.sendall(QUERY)
        peer.setblocking(False)
    left = [bytearray() for _ in peers]
    began = time.monotonic()
    memory = server.held()['VmRSS']
    first = memory
    while time.monotonic() - began < seconds and memory < 1000 * most:
        live = [k for k in range(asking) if not is_shut(peers[k])]
        if not live:
            break
        for k in live:
            try:
                left[k] = left[k] or bytearray(QUERY * 8)
                del left[k][:peers[k].send(left[k])]
            except (BlockingIOError, OSError):
                pass
        memory = max(memory, server.held()['VmRSS'])
        time.sleep(0.01)
    took = time.monotonic() - began
    gone = sum(map(is_shut, peers))
    print('%2d of %d ask on: %d MB before, at most %d MB, %d shut down after %.1f s (a request is told '
          'in %d bytes)' % (asking, MEMBERS, first // 1000, memory // 1000, gone, took, answer),
          flush=True)
    if memory < 1000 * most:
        # What it keeps once they have gone, whoever it was.
        for peer in peers:
            peer.close()
        time.sleep(2)
        print('   %d MB once they have gone' % (server.held()['VmRSS'] // 1000), flush=True)
        proxy.close()
        server.stop()
    else:
        server.process.kill()


def main():
    if len(sys.argv) < 2:
        raise SystemExit(__doc__)
    seconds = float(sys.argv[2]) if len(sys.argv) > 2 else 60
    most = int(sys.argv[3]) if len(sys.argv) > 3 else 8000
    for asking in (1, MEMBERS - 1):
        run(sys.argv[1], asking, seconds, most)


if __name__ == '__main__':
    main()
