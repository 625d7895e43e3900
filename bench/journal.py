#!/usr/bin/env python3
"""Who waits for a journal? ./journal.py SERVER [EVENTS]

A conference gets so many events (1,000,000). One of its clients sends a Hello, waits for its answer, and
sends the next: for five seconds, and then while the console prints the conference's journal. Prints how
long the answers took both times. The journal has to have a line for each place, and its end.
"""
import multiprocessing
import sys
import time

from server import Server, configuration, connect, greet, hear, hello

CONFERENCE, BURST = 1, 500


def fill(client, user, events):
    """Hellos, as many as their events are with the fewest acknowledgements."""
    for _ in range(events // BURST):
        client.sendall(hello(CONFERENCE, 1, user) * BURST)
        if len(hear(client, 48 * BURST)) != 48 * BURST:
            raise SystemExit('FAILED: a Hello has no answer')


def waits(port, user, is_over, results):
    """How long each answer took, in ms, until it is over: in a process of its own, so that it doesn't
    wait for who reads the console."""
    client = connect(port)
    greet(client, CONFERENCE, user)
    took = []
    while not is_over.is_set():
        began = time.monotonic()
        if len(greet(client, CONFERENCE, user)) != 48:
            raise SystemExit('FAILED: a Hello has no answer')
        took.append(1000 * (time.monotonic() - began))
    client.close()
    results.put(sorted(took))


def tell(what, took):
    print('%s: %d answers, median %.2f ms, of a hundred the slowest %.2f ms, slowest %.2f ms' % (
        what, len(took), took[len(took) // 2], took[len(took) * 99 // 100], took[-1]), flush=True)


def main():
    if len(sys.argv) < 2:
        raise SystemExit(__doc__)
    events = int(sys.argv[2]) if len(sys.argv) > 2 else 1_000_000
    text, bindings = configuration(1, 2)
    server = Server(sys.argv[1], text)
    (port, _, user), (other_port, _, other) = bindings
    client = connect(port)
    fill(client, user, events)

    def beside(work):
        """What the work gives, and how long a client's answers took meanwhile."""
        is_over, results = multiprocessing.Event(), multiprocessing.Queue()
        asking = multiprocessing.Process(target=waits, args=(other_port, other, is_over, results))
        asking.start()
        done = work()
        is_over.set()
        took = results.get(timeout=60)
        asking.join()
        return done, took

    tell('alone', beside(lambda: time.sleep(5))[1])
    began = time.monotonic()
    lines, took = beside(lambda: server.journal(CONFERENCE, 300))
    tell('beside a journal of %d lines in %.1f s' % (len(lines), time.monotonic() - began), took)
    if lines[-1] != 'end %d' % (len(lines) - 1) or len(lines) <= events or any(
            not line.startswith('%d ' % place) for place, line in enumerate(lines[:-1], 1)):
        raise SystemExit('FAILED: the journal is not one text')
    client.close()
    server.stop()


if __name__ == '__main__':
    main()
