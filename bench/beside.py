#!/usr/bin/env python3
"""How long does another conference wait beside dear messages? ./beside.py SERVER [SECONDS]

The conference of unread.py, whose FloorQuery is answered by eight messages of some 56 kB, has 63 members who
ask for them as fast as their sockets take it, and read all. One client of another conference, which a
floorhub serves by the same loop, sends a Hello, waits for its answer, and sends the next: for so many
seconds (20) before, and so many while they ask. Then the console asks for a status. Prints how long the
answers took, and how much of a processor the server had meanwhile. Status 1 where half of them took more than
MOST milliseconds: beside one dear message they take a few, and hundreds beside one of each member.
"""
import sys
import threading
import time

import unread
from messages import FLOOR_QUERY, floors, message
from server import FIRST_PORT, Server, connect, greet, is_hub

CONFERENCE, USER, PORT = 2, 10, FIRST_PORT + 20
QUERY = message(FLOOR_QUERY, unread.CONFERENCE, 2, unread.PEER, floors(*range(1, 9)))
DEADLINE = 300
MOST = 50


def configuration():
    return unread.configuration() + (
        '[[conference]]\nid = %d\n[[conference.user]]\nid = %d\nport = %d\n' % (CONFERENCE, USER, PORT))


def ask_on(peers, is_over):
    """Has each ask as fast as its socket takes it, and read what there is."""
    left = [b''] * len(peers)
    while not is_over.is_set():
        for k, peer in enumerate(peers):
            try:
                left[k] = left[k] or QUERY * 8
                left[k] = left[k][peer.send(left[k]):]
            except OSError:
                pass
            try:
                peer.recv(1 << 20)
            except OSError:
                pass
        time.sleep(0.002)


def tell(what, server, client, seconds):
    """Greets for so many seconds, and tells how long the answers took; whether half of them were quick."""
    took = []
    began, used = time.monotonic(), server.seen()['processor']
    while time.monotonic() - began < seconds:
        at = time.monotonic()
        if len(greet(client, CONFERENCE, USER)) != 48:
            raise SystemExit('FAILED: a Hello has no answer')
        took.append(1000 * (time.monotonic() - at))
        time.sleep(0.005)
    used = (server.seen()['processor'] - used) / (time.monotonic() - began)
    took.sort()
    print('%s: %d answers, median %.1f ms, longest %.1f ms, at %.2f of a processor' % (
        what, len(took), took[len(took) // 2], took[-1], used), flush=True)
    return took[len(took) // 2] <= MOST


def main():
    if len(sys.argv) < 2:
        raise SystemExit(__doc__)
    seconds = float(sys.argv[2]) if len(sys.argv) > 2 else 20
    server = Server(sys.argv[1], configuration(),
                    words=('--loops', '1') if is_hub(sys.argv[1]) else ())
    client = connect(PORT)
    client.settimeout(DEADLINE)
    proxy = connect(FIRST_PORT + unread.PROXY - unread.PEER)
    greet(proxy, unread.CONFERENCE, unread.PROXY)
    unread.queue(proxy)
    tell('alone', server, client, seconds)
    peers = [connect(FIRST_PORT) for _ in range(unread.MEMBERS - 1)]
    for peer in peers:
        peer.setblocking(False)
    is_over = threading.Event()
    asking = threading.Thread(target=ask_on, args=(peers, is_over), daemon=True)
    asking.start()
    time.sleep(1)
    is_quick = tell('beside 63 that ask', server, client, seconds)
    began = time.monotonic()
    server.ask('status %d' % CONFERENCE, DEADLINE)
    print('a line of the console: %.1f s' % (time.monotonic() - began), flush=True)
    is_over.set()
    asking.join()
    server.process.kill()
    server.process.wait()
    if not is_quick:
        raise SystemExit('FAILED: half of the answers took more than %d ms' % MOST)


if __name__ == '__main__':
    main()
