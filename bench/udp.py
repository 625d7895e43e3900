#!/usr/bin/env python3
"""A gateway for room systems, tried over sockets: bench/udp.py FLOORHUB FLOORUDP [GROUP ..]

Starts a floorhub and a floorudp of its own for each group of tries: starts, requests, notices, around, near, fragments,
who, words, bounds, dropped, ends, loss, many; and where they are named memory (which wants a C compiler), libre (which
wants Debian's libre-dev besides), lossy and dtls (which wants socat and openssl too). `loss:7` is loss with another seed.
What was served is read from the conference's journal, who was lost from floorhub's log. Prints a line for each try that
fails, and how many passed; status 1 where one failed.
"""
import pathlib
import random
import signal
import struct
import subprocess
import sys
import tempfile
import threading
import time

import libre
from datagrams import error, head, id_of, units_of, with_primitives
from rooms import (
    ERROR, FLOOR_ACK, FLOOR_QUERY, FLOOR_RELEASE, FLOOR_REQUEST, FLOOR_STATUS, GOODBYE, GOODBYE_ACK, HELLO, HELLO_ACK, HOST,
    PORT, REQUEST_STATUS, Gate, Member, Network, Peer, check, configuration, failed, floor, passed, request_id)

USERS = {10: HOST, 11: HOST, 12: HOST, 13: HOST + ":50113", 20: None, 30: "127.0.0.9"}
# Behind how many seconds nothing more is expected.
QUIET = 0.3


def begin(programs, *words, users=USERS, **how):
    return Gate(*programs, configuration(users, how.pop("conferences", 1), how.pop("floors", 3), how.pop("keys", "")), *words, **how)


def request_of(status):
    """The number of the floor request of a FloorRequestStatus."""
    return struct.unpack(">H", status[14:16])[0]


# Requests

def requests(programs):
    gate = begin(programs)
    peer = Peer(10)
    member = Member(20)
    acked = with_primitives(member.ask(HELLO))
    hello = peer.message(HELLO, 1)
    for _ in range(4):
        peer.send(hello)
        answer = peer.hear()
        check("a Hello, and its copies", answer, b"\x50" + acked[1:8] + struct.pack(">HH", 1, 10) + acked[12:])
    check("a Hello is served once", gate.messages()[10], [(HELLO, 1)])
    for name, datagram in [
            ("ID 0", peer.message(HELLO, 0)), ("an Error", peer.message(ERROR, 2)), ("14", peer.message(14, 2)),
            ("15", peer.message(15, 2)), ("17", peer.message(17, 2)), ("R", peer.message(HELLO, 2, first=0x50)),
            ("version 0", b"\0\1\0\0" + b"\x21\x12\xa4\x42" + bytes(12)), ("DTLS", b"\x16\xfe\xfd" + bytes(60)),
            ("version 1 with R", peer.message(HELLO, 2, first=0x30)), ("an older one", peer.message(HELLO, 65000)),
            ("wrong length with R", peer.message(HELLO, 2, first=0x50) + bytes(4)),
            *[("%d bytes" % count, hello[:count]) for count in range(12)]]:
        peer.send(datagram)
        check(name, peer.all(0.05), [])
    for version in (1, 3, 4, 5, 6, 7):
        datagram = peer.message(HELLO, 2, first=version << 5)
        peer.send(datagram)
        check("version %d" % version, peer.hear(), error(datagram, 12))
    for name, datagram in [("four bytes too many", hello + bytes(4)), ("too few", peer.message(FLOOR_QUERY, 2, floor(1))[:-4])]:
        peer.send(datagram)
        check(name, peer.hear(), error(datagram, 13))
    peer.next = 2
    check("an unknown primitive", (peer.ask(99) or b"")[12:16], bytes([12, 3, 3, 0]))
    peer.send(peer.message(HELLO, 3, first=0x47))
    check("reserved bits", peer.hear()[:2], bytes([0x50, 12]))
    for transaction in (30000, 60000, 65535):
        peer.send(peer.message(HELLO, transaction))
        check("ID %d" % transaction, id_of(peer.hear()), transaction)
    peer.send(peer.message(HELLO, 0))
    check("ID 0 behind 65535", peer.all(0.1), [])
    peer.send(peer.message(HELLO, 1))
    check("ID 1 behind 65535", id_of(peer.hear()), 1)
    goodbye = peer.message(GOODBYE, 2)
    for name in ("Goodbye", "its copy", "its second copy"):
        peer.send(goodbye)
        check(name, peer.hear(), peer.message(GOODBYE_ACK, 2, first=0x50))
    time.sleep(QUIET)
    check("Goodbye is a leave", gate.hub_says("left EndOfStream"), 1)
    for name, late in [("a late copy of an older one", peer.message(FLOOR_QUERY, 1, floor(1))),
                       ("a late copy of a Hello", peer.message(HELLO, 1)),
                       ("a newer one that is no Hello", peer.message(FLOOR_QUERY, 3, floor(1)))]:
        peer.send(late)
        check("behind Goodbye " + name, peer.all(QUIET), [])
    peer.next = 3
    check("a Hello behind Goodbye", peer.ask(HELLO)[1], 12)
    check("each is served once, in order", gate.messages()[10], [
        (HELLO, 1), (99, 2), (HELLO, 3), (HELLO, 30000), (HELLO, 60000), (HELLO, 65535), (HELLO, 1), (HELLO, 3)])
    check("two sessions", [line.rsplit(" by ", 1)[0] for line in gate.log()], [
        "joined conference 1 user 10", "left conference 1 user 10: Goodbye", "joined conference 1 user 10"])
    alone = Peer(11)
    alone.send(alone.message(GOODBYE, 9))
    check("Goodbye without a session", alone.hear(), alone.message(GOODBYE_ACK, 9, first=0x50))
    check("it begins none", 11 in gate.messages(), False)
    unread(gate, member)
    gate.end()


def unread(gate, member):
    """A Goodbye that comes while bytes of floorhub's are unread: a close would reset the stream, and that is no leave."""
    peer, leaves = Peer(12), gate.hub_says("left EndOfStream")
    peer.ask(HELLO)
    peer.ask(FLOOR_QUERY, floor(1))
    # Until it waits for its sockets.
    time.sleep(QUIET)
    gate.process.send_signal(signal.SIGSTOP)
    for _ in range(5):
        member.ask(FLOOR_RELEASE, request_id(request_of(member.ask(FLOOR_REQUEST, floor(1)))))
    peer.send(peer.message(GOODBYE, peer.next))
    time.sleep(0.1)
    gate.process.send_signal(signal.SIGCONT)
    # A notice may come ahead of the answer.
    answer = next((it for it in iter(peer.hear, None) if it[0] & 16), None)
    check("Goodbye over unread bytes", answer, peer.message(GOODBYE_ACK, peer.next, first=0x50))
    time.sleep(QUIET)
    check("it is a leave", gate.hub_says("left EndOfStream"), leaves + 1)
    check("behind it nothing is told", peer.all(QUIET), [])


# Notices

def notices(programs):
    gate = begin(programs)
    peer, member = Peer(10), Member(20)
    peer.ask(HELLO)
    peer.acknowledges = False
    peer.send(peer.message(FLOOR_QUERY, 2, floor(1, 2)))
    start, came = time.monotonic(), []
    while time.monotonic() - start < 9:
        datagram = peer.hear(0.2)
        if datagram is not None:
            came.append((time.monotonic() - start, datagram))
    check("the answer to a query of two floors", [came[0][1][0], came[0][1][1], came[0][1][12:16]], [0x50, FLOOR_STATUS, floor(1)])
    sent = came[1:]
    check("the second floor is a notice", [sent[0][1][0], sent[0][1][1], sent[0][1][12:16]], [0x40, FLOOR_STATUS, floor(2)])
    check("its ID is 32,768 more than the session's first", id_of(sent[0][1]), 32769)
    check("it is sent four times, the same", [datagram for _, datagram in sent], [sent[0][1]] * 4)
    late = [at - sent[0][0] - due for (at, _), due in zip(sent, (0, 0.5, 1.5, 3.5))]
    # On a busy machine it is read some tenths of a second later.
    check("and at its times", [-0.1 < it < 0.4 for it in late], [True] * 4)
    check("the peer is lost", gate.log()[-1], "left conference 1 user 10: Lost")
    check("to floorhub too", gate.hub_says("away InsideMessage"), 1)
    again = Peer(10)
    check("it comes again", again.ask(HELLO)[1], 12)
    for name, acknowledge in [
            ("by R", lambda notice: again.acknowledge(notice)), ("without R", lambda notice: again.acknowledge(notice, 0x40)),
            ("by an Error", lambda notice: again.send(error(notice, 3)))]:
        again.acknowledges = False
        again.ask(FLOOR_QUERY, floor(1, 2))
        notice = again.told.pop() if again.told else again.hear()
        acknowledge(notice)
        check("acknowledged " + name, again.all(0.8), [])
    again.ask(FLOOR_QUERY, floor(1, 2))
    notice = again.told.pop() if again.told else again.hear()
    again.send(head(0x50, FLOOR_ACK, 0, 1, (id_of(notice) + 1) % 65536, 10))
    check("another ID acknowledges nothing", again.hear(), notice)
    # Ten changes while one is out: the newest is told, and once.
    requested = [request_of(member.ask(FLOOR_REQUEST, floor(1))) for _ in range(5)]
    for number in requested:
        member.ask(FLOOR_RELEASE, request_id(number))
    check("while one is out no other comes", [it for it in again.all(0.4) if it != notice], [])
    again.acknowledge(notice)
    newest = next_notice(again, notice)
    again.acknowledge(newest)
    check("of one floor the newest is told", newest[16:], b"")
    check("and nothing behind it", again.all(0.8), [])
    # Of two floors that change while a notice is out each is told, in their order.
    requested = request_of(member.ask(FLOOR_REQUEST, floor(1)))
    notice = again.hear()
    for number in (2, 1):
        member.ask(FLOOR_RELEASE, request_id(request_of(member.ask(FLOOR_REQUEST, floor(number)))))
    member.ask(FLOOR_RELEASE, request_id(requested))
    for number in (2, 1):
        again.acknowledge(notice)
        notice = next_notice(again, notice)
        check("floor %d is told" % number, notice and notice[12:], floor(number))
    again.acknowledge(notice)
    check("and no other", again.all(0.8), [])
    again.acknowledges = True
    # An answer that crosses a notice of its subject is told once more.
    member.ask(FLOOR_REQUEST, floor(2))
    notice = again.hear()
    again.send(again.message(FLOOR_QUERY, again.next, floor(1)))
    answer = again.hear()
    check("an answer doesn't wait for a notice", [answer[0], answer[1]], [0x50, FLOOR_STATUS])
    again.acknowledge(notice)
    crossed = again.hear()
    check("an answer that crossed is told again", crossed and [crossed[0], crossed[12:]], [0x40, answer[12:]])
    if crossed:
        again.acknowledge(crossed)
    again.next += 1
    # An acknowledgement after 0.4 s, of a notice that was sent once, makes the retransmission timer longer.
    for _ in range(2):
        number = request_of(member.ask(FLOOR_REQUEST, floor(1)))
        notice = again.hear()
        time.sleep(0.4)
        again.acknowledge(notice)
        member.ask(FLOOR_RELEASE, request_id(number))
        notice = again.hear()
        time.sleep(0.4)
        again.acknowledge(notice)
    member.ask(FLOOR_REQUEST, floor(1))
    notice = again.hear()
    start = time.monotonic()
    check("it is sent again", again.hear(3), notice)
    check("after a retransmission timer that was measured", time.monotonic() - start > 0.7)
    again.acknowledge(notice)
    # The acknowledgement of a notice that was sent twice measures nothing: nobody knows of which.
    fresh = Peer(12)
    fresh.ask(HELLO)
    fresh.ask(FLOOR_QUERY, floor(3))
    number = request_of(member.ask(FLOOR_REQUEST, floor(3)))
    notice = fresh.hear()
    check("a notice, twice", fresh.hear(), notice)
    time.sleep(0.3)
    fresh.acknowledge(notice)
    member.ask(FLOOR_RELEASE, request_id(number))
    notice = fresh.hear()
    start = time.monotonic()
    check("the next is sent again", fresh.hear(2), notice)
    check("after the retransmission timer as it was", 0.4 < time.monotonic() - start < 0.9)
    fresh.acknowledge(notice)
    gate.end()


def next_notice(peer, notice):
    """The next datagram that isn't this notice once more."""
    following = notice
    while following == notice:
        following = peer.hear()
    return following


def around(programs):
    """The server's IDs go around: 0 is passed over."""
    gate = begin(programs)
    peer, member = Peer(10, first=32767), Member(20)
    peer.ask(HELLO)
    peer.ask(FLOOR_QUERY, floor(1))
    came = []
    for _ in range(2):
        number = request_of(member.ask(FLOOR_REQUEST, floor(1)))
        came.append(peer.hear())
        peer.acknowledge(came[-1])
        member.ask(FLOOR_RELEASE, request_id(number))
        came.append(peer.hear())
        peer.acknowledge(came[-1])
    check("IDs behind 65535", [notice and id_of(notice) for notice in came], [65535, 1, 2, 3])
    gate.end()


def near(programs):
    """The server's IDs keep their distance from the peer's."""
    gate = begin(programs)
    peer, member = Peer(10), Member(20)
    peer.ask(HELLO)
    peer.ask(FLOOR_QUERY, floor(1))
    for step in range(1, 36):
        peer.next = step * 1000
        peer.ask(HELLO)
        number = request_of(member.ask(FLOOR_REQUEST, floor(1)))
        notice = peer.hear()
        check("a distance of 1,024 at %d" % (step * 1000), (id_of(notice) - step * 1000) % 65536 >= 1024 and id_of(notice) != 0)
        peer.acknowledge(notice)
        member.ask(FLOOR_RELEASE, request_id(number))
        peer.listen(0.05)
    gate.end()


# Fragments

def cut(message, *ranges):
    """Fragments of a message, each from a unit on with so many units."""
    return [bytes([message[0] | 8]) + message[1:12] + struct.pack(">HH", at, count) + message[12 + 4 * at : 12 + 4 * (at + count)]
            for at, count in ranges]


def begun(peer, transaction):
    """The first fragment, of a unit, of the longest request that is put together."""
    return peer.message(FLOOR_QUERY, transaction, first=0x48)[:2] + struct.pack(">HIHHHHI", 2044, peer.conference, transaction, peer.user, 0, 1, 0)


def fragments(programs):
    gate = begin(programs, floors=8)
    peer = Peer(10)
    peer.ask(HELLO)
    wanted, transaction = [peer.message(HELLO, 1)], 2
    ranges = [(0, 1), (1, 1), (2, 1)]
    for order in [(0, 1, 2), (2, 1, 0), (1, 0, 2), (0, 0, 1, 1, 2)]:
        message = peer.message(FLOOR_QUERY, transaction, floor(1, 2, 3))
        pieces = cut(message, *ranges)
        for index in order:
            peer.send(pieces[index])
        answer = peer.hear()
        check("fragments in order %r" % (order,), [answer[0], id_of(answer), answer[1]], [0x50, transaction, FLOOR_STATUS])
        peer.listen(0.1)
        peer.send(pieces[0])
        check("a copy of the first fragment", peer.hear(), answer)
        peer.send(pieces[1])
        check("a copy of another one", peer.all(0.1), [])
        wanted.append(message)
        transaction += 1
    message = peer.message(FLOOR_QUERY, transaction, floor(1, 2, 3))
    for name, pieces in [
            ("one is missing", cut(message, (0, 1), (2, 1))), ("in two calls that overlap", cut(message, (0, 2), (1, 2))),
            ("of one that overlapped", cut(peer.message(FLOOR_QUERY, transaction + 1, floor(1, 2, 3)), (0, 2), (1, 2), (2, 1))),
            ("without a unit", cut(message, (0, 0))), ("of fewer than 16 bytes", [cut(message, (0, 1))[0][:15]]),
            ("with R", [bytes([0x58]) + message[1:12] + struct.pack(">HH", 0, 3) + message[12:]])]:
        for piece in pieces:
            peer.send(piece)
        check("fragments, " + name, peer.all(0.1), [])
    for name, piece in [
            ("past the end", cut(message, (2, 1))[0][:12] + struct.pack(">HH", 3, 1) + bytes(4)),
            ("longer than it says", cut(message, (0, 1))[0] + bytes(4)),
            ("of 262,152 bytes", message[:2] + b"\xff\xff" + message[4:12] + struct.pack(">HH", 0, 1) + bytes(4))]:
        piece = bytes([0x48]) + piece[1:]
        peer.send(piece)
        check("a fragment " + name, peer.hear(), error(piece, 13))
    for piece in cut(message, *ranges):
        peer.send(piece)
    check("the same message once more", id_of(peer.hear()), transaction)
    wanted.append(message)
    peer.listen(0.3)
    check("each is served once, whole", gate.served()[10], [b"\x20" + message[1:] for message in wanted])
    alone = Peer(11)
    for piece in cut(alone.message(HELLO, 1, bytes(8)), (0, 1), (1, 1)):
        alone.send(piece)
    check("fragments begin nothing", alone.all(0.1), [])
    before = gate.memory()
    for number in range(300):
        peer.send(begun(peer, transaction + 1 + number))
        time.sleep(0.012)
    check("what is begun isn't answered", peer.all(0.1), [])
    check("300 that were begun take no memory", gate.memory() - before < 1024)
    gate.end()
    long_messages(programs)


def long_messages(programs):
    gate = begin(programs, "--datagram", "576", floors=1)
    peer, members = Peer(10), [Member(20), Member(30)]
    for member in members:
        numbers = [request_of(member.ask(FLOOR_REQUEST, floor(1))) for _ in range(16)]
    peer.ask(HELLO)
    peer.send(peer.message(FLOOR_QUERY, 2, floor(1)))
    pieces = peer.all(QUIET)
    whole = put_together(pieces)
    check("a long answer is cut", [len(pieces) > 1, all(len(piece) <= 576 for piece in pieces)], [True, True])
    check("and whole", [whole[0], whole[1], len(whole)], [0x50, FLOOR_STATUS, 12 + 4 * units_of(whole)])
    member.ask(FLOOR_RELEASE, request_id(numbers[-1]))
    pieces = peer.all(0.9)
    half = len(pieces) // 2
    check("a long notice is cut, and sent again whole", [half > 1, pieces[:half]], [True, pieces[half:]])
    whole = put_together(pieces[:half])
    check("it has one ID", {id_of(piece) for piece in pieces}, {id_of(whole)})
    peer.acknowledge(whole)
    check("one acknowledgement is enough", peer.all(1.2), [])
    gate.end()


def put_together(pieces):
    """The message of these fragments, each of which begins where the one before ends."""
    pieces, at = sorted(pieces, key=lambda piece: piece[12:14]), 0
    for piece in pieces:
        offset, units = struct.unpack(">HH", piece[12:16])
        check("a fragment's offset and length", [offset, 16 + 4 * units], [at, len(piece)])
        at += units
    return bytes([pieces[0][0] & ~8]) + pieces[0][1:12] + b"".join(piece[16:] for piece in pieces)


# Who is who

def who(programs):
    gate = begin(programs, "--probe", "5")
    stranger = Peer(10, address="127.0.0.5")
    stranger.send(stranger.message(HELLO, 1))
    check("an address that nobody has", stranger.all(QUIET), [])
    for user, conference, code in [(30, 1, 2), (20, 1, 2), (99, 1, 2), (10, 2, 1)]:
        other = Peer(user, conference)
        other.send(other.message(HELLO, 1))
        check("user %d of conference %d" % (user, conference), other.hear(), error(other.message(HELLO, 1), code))
        for primitive in (13, 14, 15, 17):
            other.send(other.message(primitive, 1))
        other.send(other.message(HELLO, 1, first=0x50))
        check("no answer to an answer", other.all(0.1), [])
    wrong = Peer(13)
    wrong.send(wrong.message(HELLO, 1))
    check("another port than the user's", wrong.hear(), error(wrong.message(HELLO, 1), 2))
    right = Peer(13, port=50113)
    check("the user's port", right.ask(HELLO)[1], 12)
    right.ask(GOODBYE)
    first, second = Peer(10), Peer(10, first=500)
    first.ask(HELLO)
    number = request_of(first.ask(FLOOR_REQUEST, floor(1)))
    first.ask(FLOOR_QUERY, floor(3))
    second.send(second.message(FLOOR_QUERY, 7, floor(1)))
    check("another port without a Hello", second.all(QUIET), [])
    member = Member(20)
    member.ask(FLOOR_REQUEST, floor(3))
    told = first.hear()
    check("a notice goes to the session's own port", told and [told[0], told[1], told[12:16]], [0x40, FLOOR_STATUS, floor(3)])
    first.acknowledge(told)
    check("and to no other", second.all(QUIET), [])
    check("and with one", second.ask(HELLO)[1], 12)
    time.sleep(QUIET)
    check("the session has moved", gate.log()[-2:], [
        "left conference 1 user 10: Moved", "joined conference 1 user 10 by %s:%d" % (HOST, second.port)])
    status = second.ask(FLOOR_QUERY, floor(1))
    check("its request stands", struct.unpack(">H", status[18:20])[0] if len(status) > 20 else None, number)
    first.send(first.message(FLOOR_QUERY, first.next, floor(1)))
    check("the old port is nobody's", first.all(QUIET), [])
    # It has asked for a floor since, and goes without a word: it is asked, and lost.
    number = request_of(second.ask(FLOOR_REQUEST, floor(2)))
    second.listen(QUIET)
    start = time.monotonic()
    probe = second.hear(8)
    check("who holds a floor is asked behind 5 s", probe and [probe[1], 4.5 < time.monotonic() - start < 6.5], [REQUEST_STATUS, True])
    check("of the request that it has", request_of(probe), number)
    second.acknowledge(probe)
    quiet = Peer(11)
    quiet.ask(HELLO)
    check("it is asked again", second.hear(8)[1], REQUEST_STATUS)
    time.sleep(8)
    check("who doesn't acknowledge is lost", gate.log()[-1], "left conference 1 user 10: Lost")
    check("who holds nothing isn't asked", quiet.all(0.1), [])
    # A client that began anew at its port.
    late = Peer(12, first=1000)
    late.ask(HELLO)
    late.send(late.message(HELLO, 10))
    check("an older Hello at once", late.all(QUIET), [])
    time.sleep(10)
    late.next = 10
    check("an older Hello after the response retransmission timer", late.ask(HELLO)[1], 12)
    check("is a client that began anew", gate.log()[-2].split(": ")[-1], "Anew")
    closed = Peer(11, first=9)
    gate.hub.ask("close 1")
    goodbye = quiet.hear(2)
    check("the end of the conference is told", [goodbye[0], goodbye[1], len(goodbye)], [0x40, GOODBYE, 12])
    quiet.acknowledge(goodbye)
    check("once it is acknowledged nothing more", quiet.all(0.8), [])
    closed.send(closed.message(HELLO, 9))
    check("no conference any more", closed.hear(), error(closed.message(HELLO, 9), 14))
    gate.end()
    silent(programs)


def silent(programs):
    """Who is silent is asked of the latest of its requests that goes on."""
    gate = begin(programs, "--probe", "5")
    peer = Peer(10)
    peer.ask(HELLO)
    first, second = [request_of(peer.ask(FLOOR_REQUEST, floor(number))) for number in (1, 2)]
    peer.ask(FLOOR_RELEASE, request_id(second))
    peer.listen(QUIET)
    for name, number in [("not of one that has ended", first), ("of the latest", None)]:
        if number is None:
            number = request_of(peer.ask(FLOOR_REQUEST, floor(3)))
            peer.ask(FLOOR_RELEASE, request_id(request_of(peer.ask(FLOOR_REQUEST, floor(2)))))
            peer.listen(QUIET)
        probe = peer.hear(8)
        check("who is silent is asked, " + name, probe and [probe[1], request_of(probe)], [REQUEST_STATUS, number])
        peer.acknowledge(probe)
    for kept in (first, number):
        peer.ask(FLOOR_RELEASE, request_id(kept))
    peer.listen(QUIET)
    check("who has none any more isn't asked", peer.hear(6), None)
    gate.end()


# Words at the control socket

def words(programs):
    from server import Control
    gate = begin(programs, users={10: HOST, 11: None}, control=True)
    control = Control(gate.control)
    control.ask("user 1 40 name " + "Room".encode().hex())
    late = Peer(40)
    late.send(late.message(HELLO, 1))
    check("a late user without a word", late.hear()[:2], bytes([0x50, ERROR]))
    control.ask("word 1 udp.40 " + HOST.encode().hex())
    time.sleep(2.5)
    check("a late user with one", late.ask(HELLO)[1], 12)
    first = Peer(10)
    first.ask(HELLO)
    control.ask("word 1 udp.10 " + "127.0.0.7".encode().hex())
    goodbye = first.hear(3)
    check("a word that counts before the file ends the session", goodbye and goodbye[1], GOODBYE)
    first.acknowledge(goodbye)
    moved = Peer(10, address="127.0.0.7")
    check("who comes as the word says", moved.ask(HELLO)[1], 12)
    control.ask("word 1 udp.40 " + "no address".encode().hex())
    goodbye = late.hear(3)
    check("a word that is no address ends it", goodbye and goodbye[1], GOODBYE)
    late.acknowledge(goodbye)
    control.ask("word 1 udp.10 -")
    goodbye = moved.hear(3)
    check("a word that is taken away ends it", goodbye and goodbye[1], GOODBYE)
    moved.acknowledge(goodbye)
    time.sleep(0.2)
    first.next = 100
    check("then the file counts", first.ask(HELLO)[1], 12)
    time.sleep(QUIET)
    check("they are shut out", sum(1 for line in gate.log() if line.endswith(": ShutOut")), 3)
    # Who is back at once has left: its user is there.
    check("and lost to floorhub", gate.hub_says(" InsideMessage"), 3)
    gate.end()


# Bounds

def bounds(programs):
    gate = begin(programs, floors=1)
    peer = Peer(10)
    peer.ask(HELLO)
    before = gate.memory()
    for number in range(3000):
        peer.send(peer.message(HELLO, 2 + number))
    stranger = Peer(10, address="127.0.0.5")
    for number in range(2000):
        stranger.send(stranger.message(HELLO, number + 1))
    answers = peer.all(1.0)
    check("a session takes 100 at once, and some a second", 50 <= len(answers) <= 320)
    check("a stranger gets nothing", stranger.all(0.1), [])
    peer.next = 20_000
    check("it is at work a second later", peer.ask(HELLO)[1], 12)
    check("without growth", gate.memory() - before < 2048)
    member = Member(20)
    for _ in range(16):
        member.ask(FLOOR_REQUEST, floor(1))
    for user in (11, 12):
        other = Peer(user)
        other.ask(HELLO)
        for _ in range(16):
            other.ask(FLOOR_REQUEST, floor(1))
    start, got = time.monotonic(), 0
    for number in range(600):
        peer.send(peer.message(FLOOR_QUERY, 21_000 + number, floor(1)))
        while (datagram := peer.hear(0)) is not None:
            got += len(datagram)
            if not datagram[0] & 16:
                peer.acknowledge(datagram)
        time.sleep(0.004)
    took = time.monotonic() - start
    check("a peer is sent 64 KiB a second at most", got <= 131_072 + 65_536 * took + 4096)
    wrong = Peer(99)
    for number in range(200):
        wrong.send(wrong.message(HELLO, number + 1))
    check("20 Errors a second outside of sessions", 15 <= len(wrong.all(0.8)) <= 45)
    gate.end()


# The log

def dropped(programs):
    """Once a minute it is told how much was dropped, where there was any."""
    gate = begin(programs)
    start = time.monotonic()
    peer, other = Peer(10), Peer(10)
    stranger = Peer(10, address="127.0.0.5")
    peer.ask(HELLO)
    for count, sender, datagram in [
            (7, stranger, stranger.message(HELLO, 1)), (3, peer, peer.message(HELLO, 2)[:11]), (2, peer, bytes(20)),
            (4, other, other.message(FLOOR_QUERY, 2, floor(1))), (5, peer, Peer(30).message(HELLO, 1, first=0x50))]:
        for _ in range(count):
            sender.send(datagram)
    peer.listen(QUIET)
    told = lambda: [line for line in gate.log() if line.startswith("dropped")]
    check("what was dropped isn't told at once", told(), [])
    time.sleep(start + 62 - time.monotonic())
    check("a minute later it is told how much was dropped", told(), ["dropped 21"])
    time.sleep(60)
    check("where nothing was dropped nothing is told", told(), ["dropped 21"])
    gate.end()


# Ends

def ends(programs):
    gate = begin(programs, grace=8)
    peer = Peer(10)
    peer.ask(HELLO)
    number = request_of(peer.ask(FLOOR_REQUEST, floor(1)))
    gate.process.stdin.close()
    goodbye = peer.hear(1)
    check("the end is told by Goodbye", [goodbye[0], goodbye[1]], [0x40, GOODBYE])
    peer.acknowledge(goodbye)
    check("and it ends", gate.process.wait(8), 0)
    check("the log says so", gate.log()[-1], "left conference 1 user 10: Stopped")
    check("floorhub lost the member", gate.hub_says("away InsideMessage"), 1)
    gate.start()
    # A gateway that was started anew is met by a client that doesn't know.
    status = peer.ask(FLOOR_QUERY, floor(1))
    check("a client goes on by any request, and has its floor", struct.unpack(">H", status[18:20])[0], number)
    silent = Peer(11)
    silent.ask(HELLO)
    peer.close()
    status, took = gate.end_gate()
    check("it ends within 8 s of those who are silent", [status, took < 8.5], [0, True])
    gate.start()
    gate.process.kill()
    gate.process.wait()
    gate.end()


# A network that loses

def run_link(gate, user, network, rounds, seed):
    """A client behind a network: what it asked, and the client, which was told of three floors; None for that where the
    link was given up."""
    peer = Peer(user, to=network.address)
    chance = random.Random(seed)
    asked, mine = [], []
    def ask(primitive, payload=b""):
        asked.append((primitive, peer.next))
        return peer.ask(primitive, payload)
    if ask(HELLO) is None or (status := ask(FLOOR_QUERY, floor(1, 2, 3))) is None:
        return asked, None
    # What came before the answer to a query is older than it.
    peer.told = [status]
    for _ in range(rounds):
        if mine and chance.random() < 0.5:
            answer = ask(FLOOR_RELEASE, request_id(mine.pop()))
        else:
            answer = ask(FLOOR_REQUEST, floor(chance.choice([1, 2, 3])))
            if answer is not None and answer[1] == REQUEST_STATUS:
                mine.append(request_of(answer))
        if answer is None:
            return asked, None
    peer.listen(9)
    return asked, peer


def loss(programs, seed=0):
    gate = begin(programs, grace=20)
    links = {}
    def go(user):
        network = Network(0.10, 0.15, 0.12, 100 * seed + user)
        links[user] = run_link(gate, user, network, 12, 100 * seed + user)
        network.end()
    threads = [threading.Thread(target=go, args=(user,)) for user in (10, 11, 12)]
    for thread in threads:
        thread.start()
    for thread in threads:
        thread.join()
    journal = gate.messages()
    member = Member(20)
    stand = {number: member.ask(FLOOR_QUERY, floor(number)) for number in (1, 2, 3)}
    lost = 0
    for user, (asked, peer) in links.items():
        served = journal.get(user, [])
        if peer is None or any("user %d: Lost" % user in line for line in gate.log()):
            lost += 1
            check("what user %d asked is served once, in order, as far as it came" % user, [it for it in asked if it in served][: len(served)], served)
            continue
        check("what user %d asked is served once, in order" % user, served, asked)
        for number in stand:
            told = [notice for notice in peer.told if notice[1] == FLOOR_STATUS and notice[12:16] == floor(number)]
            check("user %d ends with floor %d as it is" % (user, number), told[-1][12:] if told else None, stand[number][12:])
    check("one link at most was given up", lost <= 1)
    print("loss, seed %d: %d requests, %d links given up" % (seed, sum(len(asked) for asked, _ in links.values()), lost))
    gate.end()


# Many

def many(programs):
    users = {10 + number: HOST for number in range(50)}
    gate = begin(programs, users=users, conferences=4)
    peers = [Peer(user, conference) for conference in range(1, 5) for user in users]
    before = gate.processor()
    check("200 peers are answered", sum(1 for peer in peers if peer.ask(HELLO)), 200)
    for _ in range(20):
        for peer in peers:
            peer.send(peer.message(HELLO, peer.next))
        for peer in peers:
            answer = peer.hear(2)
            check("a Hello among 200", answer and id_of(answer), peer.next)
            peer.next += 1
    used = [after - was for after, was in zip(gate.processor(), before)]
    print("processor: floorudp %.2f s, floorhub %.2f s, memory %d kB" % (*used, gate.memory()))
    check("at most 3 times the processor of floorhub alone", used[0] + used[1] <= 3 * max(used[1], 0.05))
    before = gate.memory()
    for peer in peers:
        peer.send(begun(peer, peer.next))
    check("what is begun isn't answered", peers[-1].hear(QUIET), None)
    check("200 that were begun hold what came, and not what they announce", gate.memory() - before < 600)
    gate.process.kill()
    gate.process.wait()
    gate.start()
    check("a gateway that is killed and started anew", sum(1 for peer in peers if peer.ask(HELLO)), 200)
    gate.end()


# Memory

def talk():
    """A participant's way, and another's Hello and Goodbye. Who isn't answered, or by an Error, begins anew by a Hello, once in
    all. How much isn't answered as it should be."""
    wrong, has_begun_anew, number, peer, other = 0, False, 0, Peer(10), Peer(11)
    for who, primitive, wanted in [
            (peer, HELLO, HELLO_ACK), (peer, FLOOR_QUERY, FLOOR_STATUS), (peer, FLOOR_REQUEST, REQUEST_STATUS),
            (peer, FLOOR_REQUEST, REQUEST_STATUS), (peer, FLOOR_RELEASE, REQUEST_STATUS), (peer, GOODBYE, GOODBYE_ACK),
            (other, HELLO, HELLO_ACK), (other, GOODBYE, GOODBYE_ACK)]:
        payload = {FLOOR_QUERY: floor(1, 2), FLOOR_REQUEST: floor(1), FLOOR_RELEASE: request_id(number)}.get(primitive, b"")
        answer = who.ask(primitive, payload, tries=2, wait=0.4)
        if not has_begun_anew and (answer is None or answer[1] == ERROR):
            has_begun_anew = True
            answer = who.ask(HELLO, tries=3, wait=0.4)
            wrong += answer is None or answer[1] != HELLO_ACK
            answer = who.ask(primitive, payload, tries=2, wait=0.4)
        # Whose session was lost may have no request any more.
        wrong += answer is None or answer[1] not in (wanted, ERROR if has_begun_anew and primitive == FLOOR_RELEASE else wanted)
        number = request_of(answer) if answer and answer[1] == REQUEST_STATUS else number
    return wrong


def memory(programs):
    """One allocation of floorudp's is refused, the first behind its start, the second, up to as many as a talk makes.

    It goes on, and ends by itself. The session that was refused memory ends as `Memory`, and floorhub takes its member as
    lost; or nothing of it ends, and what is asked again is answered. Whoever comes then is served."""
    with tempfile.TemporaryDirectory() as folder:
        library, count = folder + "/refused.so", folder + "/count"
        source = pathlib.Path(__file__).resolve().parent / "refused.c"
        subprocess.run(["cc", "-O2", "-shared", "-fPIC", "-o", library, str(source)], check=True)
        gate = begin(programs, grace=1)
        variables = {"LD_PRELOAD": library, "REFUSE_COUNT": count, "MALLOC_ARENA_MAX": "1"}
        made = []
        for talks in (False, True):
            gate.end_gate()
            gate.variables = {**variables, "REFUSE": "0"}
            gate.start()
            if talks:
                check("none is refused", talk(), 0)
            gate.end_gate()
            made.append(int(pathlib.Path(count).read_text()))
        ends = {}
        for number in range(made[0] - 40, made[1] + 5):
            gate.variables = {**variables, "REFUSE": str(number)}
            try:
                gate.start()
            except SystemExit:
                check("allocation %d refused: it says so" % number, gate.process.wait(20), 1)
                ends["not started"] = ends.get("not started", 0) + 1
                continue
            lines, away = len(gate.log()), gate.hub_says("away InsideMessage")
            wrong = talk()
            status, _ = gate.end_gate()
            told = gate.log()[lines:]
            check("allocation %d refused: whoever comes is served" % number, wrong, 0)
            check("allocation %d refused: it ends by itself" % number, status, 0)
            name = "Memory" if any(line.endswith(": Memory") for line in told) else "went on"
            if name == "Memory":
                check("allocation %d refused: who was refused is lost" % number, gate.hub_says("away InsideMessage") > away)
            ends[name] = ends.get(name, 0) + 1
        check("a session has ended for want of memory", ends.get("Memory", 0) > 0)
        print("memory, %d allocations: %s" % (made[1] - made[0], ", ".join("%d %s" % (count, name) for name, count in sorted(ends.items()))))
        gate.end()


# Starts

def starts(programs):
    user = "[[conference]]\nid = 1\n%s[[conference.user]]\nid = 10\n%s"
    good = user % ("", 'udp = "127.0.0.1"\n')
    for name, text, address, status, said in [
            ("no TOML", "[[", "127.0.0.1:%d" % PORT, 1, "Syntax"), ("the server's fault", user % ("limit = 17\n", ""), "127.0.0.1:%d" % PORT, 1, "OutOfRange"),
            ("no udp", user % ("", ""), "127.0.0.1:%d" % PORT, 1, "NoAddress"), ("a bad address", user % ("", 'udp = "here"\n'), "127.0.0.1:%d" % PORT, 1, "line 5"),
            ("a number", user % ("", "udp = 7\n"), "127.0.0.1:%d" % PORT, 1, "BadAddress"), ("one connection", user % ("connections = 1\n", 'udp = "::1"\n'), "127.0.0.1:%d" % PORT, 1, "OneConnection"),
            ("no address to listen at", good, "here", 1, "CannotListen"), ("a foreign address", good, "192.0.2.1:5070", 1, "CannotListen"),
            ("all in order", good, "127.0.0.1:%d" % PORT, 0, ""), ("IPv6", user % ("", 'udp = "[2001:db8::7]:50000"\n'), "127.0.0.1:%d" % PORT, 0, "")]:
        for check_word in (["--check"], []):
            with tempfile.NamedTemporaryFile("w", suffix=".toml") as file:
                file.write(text)
                file.flush()
                ran = subprocess.run([programs[1], address, file.name, "--door-by-id", "7", *check_word], stdin=subprocess.DEVNULL, capture_output=True, text=True, timeout=20)
            check("%s %s" % (name, check_word), [ran.returncode, said in ran.stderr], [status, True])
            check("what is printed of " + name, ran.stdout, "ready\n" if status == 0 and not check_word else "")
    for word, said in [("--help", "--datagram"), ("--version", "floorudp 0.2.0")]:
        ran = subprocess.run([programs[1], word], capture_output=True, text=True, timeout=20)
        check(word, [ran.returncode, said in ran.stdout], [0, True])
    for words_ in ([], ["a", "b"], ["a", "b", "--door-by-id", "7", "--datagram", "575"], ["a", "b", "--door-by-id", "7", "--probe", "4"]):
        check("words %r" % (words_,), subprocess.run([programs[1], *words_], capture_output=True, timeout=20).returncode, 2)


GROUPS = {it.__name__: it for it in (
    starts, requests, notices, around, near, fragments, who, words, bounds, dropped, ends, loss, many)}
NAMED = {"memory": memory, "libre": libre.straight, "lossy": libre.lossy, "dtls": libre.dtls}


def main():
    programs = [str(pathlib.Path(it).resolve()) for it in sys.argv[1:3]]
    for name in sys.argv[3:] or GROUPS:
        start = time.monotonic()
        group, _, seed = name.partition(":")
        ({**GROUPS, **NAMED}[group])(programs, *([int(seed)] if seed else []))
        print("%s: %.0f s" % (name, time.monotonic() - start), flush=True)
    print("%d passed, %d failed" % (len(passed), len(failed)))
    sys.exit(1 if failed else 0)


if __name__ == "__main__":
    main()
