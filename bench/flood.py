#!/usr/bin/env python3
"""Whether a flooded conference keeps another waiting: ./flood.py SERVER [CONNECTIONS]

Times Hellos of one conference, one after another: while nothing else is sent; while so many
connections (8) of another conference send pipelined Hellos as fast as they are answered; and while
the same flood goes to another server on the same processors, which shares nothing with this one but
them. What the second is above the third is what the conferences share inside the server. Where
there are four processors, the servers have two of them, the flood one and the timing one.
"""
import multiprocessing
import os
import sys
import time

from server import Server, configuration, connect, hear, hello

TIMED = 4000
EVENTS = 900_000
# Two pieces are unanswered at most, so that no member falls behind and is cut.
PIECE = 450


def pin(processors):
    if os.cpu_count() >= 4:
        os.sched_setaffinity(0, processors)


def timed(client, conference, user, going_on):
    """The times of Hellos in microseconds, sorted, for as long as `going_on` says."""
    times = []
    while going_on(len(times)):
        transaction = len(times) % 65535 + 1
        began = time.perf_counter()
        client.sendall(hello(conference, transaction, user))
        if len(hear(client, 48)) != 48:
            raise SystemExit('a Hello was not answered')
        times.append(1e6 * (time.perf_counter() - began))
    return sorted(times)


def flood(port, conference, user, pieces, sent):
    """Sends pieces of Hellos, the next piece ahead of the last one's answers."""
    pin({2})
    client = connect(port)
    piece = b''.join(hello(conference, k + 1, user) for k in range(PIECE))
    client.sendall(piece)
    for k in range(pieces):
        if k + 1 < pieces:
            client.sendall(piece)
        if len(hear(client, 48 * PIECE)) != 48 * PIECE:
            raise SystemExit('the flood was not answered')
        with sent.get_lock():
            sent.value += PIECE
    client.close()


def tell(name, times):
    def at(share):
        return times[min(len(times) - 1, int(share * len(times)))]
    print('%-10s %6d Hellos: p50 %7.1f us, p90 %7.1f us, p99 %7.1f us, p99.9 %7.1f us' % (
        name, len(times), at(0.5), at(0.9), at(0.99), at(0.999)))
    return at(0.5), at(0.99)


def flooded(name, count, binding, other, client):
    """Times Hellos of a connection while another conference is flooded."""
    sent = multiprocessing.Value('Q', 0)
    senders = [multiprocessing.Process(
        target=flood, args=(*binding, EVENTS // count // PIECE, sent)) for _ in range(count)]
    for sender in senders:
        sender.start()
    while sent.value < EVENTS // 100:
        time.sleep(0.01)
    began, before = time.monotonic(), sent.value
    times = timed(client, other[1], other[2],
                  lambda done: done < 100_000 and all(sender.is_alive() for sender in senders))
    rate = (sent.value - before) / (time.monotonic() - began)
    for sender in senders:
        sender.join()
    seen = tell(name, times)
    print('%-10s %d connections, %.0f answers/s' % ('', count, rate))
    return seen


def main():
    if len(sys.argv) < 2:
        raise SystemExit(__doc__)
    count = int(sys.argv[2]) if len(sys.argv) > 2 else 8
    processors = '0-1' if os.cpu_count() >= 4 else None
    text, (near, other) = configuration(2, 1)
    server = Server(sys.argv[1], text, processors)
    text, (_, far) = configuration(2, 1, near[0] + 10)
    second = Server(sys.argv[1], text, processors)
    pin({3})
    client = connect(other[0])
    timed(client, other[1], other[2], lambda done: done < 500)
    idle = tell('idle', timed(client, other[1], other[2], lambda done: done < TIMED))
    inside = flooded('inside', count, near, other, client)
    beside = flooded('beside', count, far, other, client)
    print('inside/idle:   p50 %.2f, p99 %.2f' % (inside[0] / idle[0], inside[1] / idle[1]))
    print('inside/beside: p50 %.2f, p99 %.2f' % (inside[0] / beside[0], inside[1] / beside[1]))
    client.close()
    for each in (server, second):
        print('%s, status %d' % each.stop())


if __name__ == '__main__':
    main()
