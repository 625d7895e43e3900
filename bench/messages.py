"""Messages as bytes, and what a conference without floor requests answers to each of them.

Written from RFC 8855 (section 5) and docs/protocol.md alone: what a script compares the server with
is never the server's own. At its import the worked messages below are answered, as a check of it.
"""
import random
import struct

FLOOR_REQUEST, FLOOR_RELEASE, FLOOR_REQUEST_QUERY, FLOOR_REQUEST_STATUS = 1, 2, 3, 4
USER_QUERY, USER_STATUS, FLOOR_QUERY, FLOOR_STATUS = 5, 6, 7, 8
CHAIR_ACTION, CHAIR_ACTION_ACK, HELLO, HELLO_ACK, ERROR = 9, 10, 11, 12, 13
BENEFICIARY_ID, FLOOR_ID, FLOOR_REQUEST_ID, PRIORITY, REQUEST_STATUS, ERROR_CODE = 1, 2, 3, 4, 5, 6
INFO, STATUS_INFO, USER_DISPLAY_NAME, USER_URI = 8, 9, 12, 13
BENEFICIARY_INFORMATION, FLOOR_REQUEST_INFORMATION, REQUESTED_BY_INFORMATION = 14, 15, 16
FLOOR_REQUEST_STATUS_GROUP, OVERALL_REQUEST_STATUS = 17, 18
PENDING, ACCEPTED, GRANTED, DENIED, CANCELLED, RELEASED, REVOKED = range(1, 8)


def message(primitive, conference, transaction, user, payload=b'', first=0x20):
    """A message (section 5.1)."""
    return struct.pack('>BBHIHH', first, primitive, len(payload) // 4, conference, transaction,
                       user) + payload


def attribute(kind, contents=b'', must=False, length=None):
    """An attribute with its padding (section 5.2); `length` in place of the right Length."""
    if length is None:
        length = 2 + len(contents)
    text = bytes([kind << 1 | must, length]) + contents
    return text + bytes(-len(text) % 4)


def number(kind, value):
    return attribute(kind, struct.pack('>H', value))


def group(kind, value, *attributes):
    return attribute(kind, struct.pack('>H', value) + b''.join(attributes))


def floors(*numbers):
    return b''.join(number(FLOOR_ID, floor) for floor in numbers)


def verdict(request, floor, status, reason=None, own=None):
    """The attribute of a ChairAction. A reason stands in the overall status, or in the floor's own."""
    def said(text):
        return b'' if text is None else attribute(STATUS_INFO, text)
    overall = b'' if reason is None else group(OVERALL_REQUEST_STATUS, request, said(reason))
    return group(FLOOR_REQUEST_INFORMATION, request, overall, group(
        FLOOR_REQUEST_STATUS_GROUP, floor, attribute(REQUEST_STATUS, bytes([status, 0])), said(own)))


def hello_ack(conference, transaction, user):
    return message(HELLO_ACK, conference, transaction, user, bytes.fromhex(
        '160f0102030405060708090a0b0c0d00 1414020406080a0c0e10121416181a1c1e202224'))


def error(conference, transaction, user, code, details=b''):
    return message(ERROR, conference, transaction, user,
                   attribute(ERROR_CODE, bytes([code]) + details))


def floor_request_status(conference, transaction, user, request, status, position, floor,
                         beneficiary=None, requester=None):
    """The status of a request of priority 2 for one floor, for the user who is told, or another,
    by the same or another, all without names."""
    shown = attribute(REQUEST_STATUS, bytes([status, position]))
    beneficiary = beneficiary or user
    by = b'' if requester in (None, beneficiary) else group(REQUESTED_BY_INFORMATION, requester)
    return message(FLOOR_REQUEST_STATUS, conference, transaction, user, group(
        FLOOR_REQUEST_INFORMATION, request,
        group(OVERALL_REQUEST_STATUS, request, shown),
        group(FLOOR_REQUEST_STATUS_GROUP, floor, shown),
        group(BENEFICIARY_INFORMATION, beneficiary), by,
        attribute(PRIORITY, bytes([2 << 5, 0]))))


class Malformed(Exception):
    """Bytes that spell no attributes."""


def read(data):
    """The attributes that bytes spell: (type, M, contents), a group's contents (number, list)."""
    found = []
    at = 0
    while at < len(data):
        if at + 2 > len(data):
            raise Malformed
        kind, must, length = data[at] >> 1, data[at] & 1, data[at + 1]
        is_group = 14 <= kind <= 18
        if kind in (1, 2, 3, 4, 5) and length != 4 or length < 2:
            raise Malformed
        if is_group and (length < 4 or length % 4):
            raise Malformed
        if at + (length + 3) // 4 * 4 > len(data):
            raise Malformed
        contents = data[at + 2:at + length]
        if is_group:
            contents = (struct.unpack('>H', contents[:2])[0], read(contents[2:]))
        elif kind in (1, 2, 3):
            contents = struct.unpack('>H', contents)[0]
        found.append((kind, must, contents))
        at += (length + 3) // 4 * 4
    return found


def unknown_mandatory(attributes):
    """The unknown types whose M bit is set, in the order in which they stand."""
    found = []
    for kind, must, contents in attributes:
        if must and not 1 <= kind <= 18:
            found.append(kind)
        if 14 <= kind <= 18:
            found += unknown_mandatory(contents[1])
    return list(dict.fromkeys(found))


def first(attributes, kind):
    return next((contents for k, _, contents in attributes if k == kind), None)


def requests_of(attributes):
    """The status and the position of each floor request that attributes tell of."""
    found = {}
    for kind, _, contents in attributes:
        if kind == FLOOR_REQUEST_INFORMATION:
            status = first(first(contents[1], OVERALL_REQUEST_STATUS)[1], REQUEST_STATUS)
            found[contents[0]] = status[0], status[1]
    return found


def verdicts(attributes):
    """Whether the FLOOR-REQUEST-INFORMATION of a ChairAction has a verdict on each floor."""
    overall = first(attributes, OVERALL_REQUEST_STATUS)
    overall = first(overall[1], REQUEST_STATUS) if overall else None
    named = {}
    for kind, _, contents in attributes:
        if kind == FLOOR_REQUEST_STATUS_GROUP and contents[0] not in named:
            named[contents[0]] = first(contents[1], REQUEST_STATUS) or overall
    return bool(named) and all(
        status and status[0] in (ACCEPTED, GRANTED, DENIED, REVOKED) for status in named.values())


def reason_of(attributes):
    """The STATUS-INFO in the FLOOR-REQUEST-INFORMATION of a ChairAction that is its reason."""
    overall = first(attributes, OVERALL_REQUEST_STATUS)
    chosen = first(overall[1], STATUS_INFO) if overall else None
    named = set()
    for kind, _, contents in attributes:
        if kind == FLOOR_REQUEST_STATUS_GROUP and contents[0] not in named:
            named.add(contents[0])
            chosen = first(contents[1], STATUS_INFO) if chosen is None else chosen
    return chosen


def is_text(octets):
    try:
        (octets or b'').decode()
    except UnicodeDecodeError:
        return False
    return True


class Conference:
    """A conference without floor requests. `users` maps a user's number to (name, URI, proxy)."""

    def __init__(self, number_, users, floors_):
        self.number = number_
        self.users = users
        self.floors = floors_

    def answers(self, data, bound):
        """What a connection of the user `bound` is sent for a message; `None` where the message
        is a FloorRequest that is accepted, so that the conference is no longer without any."""
        _, primitive, words, conference, transaction, user = struct.unpack('>BBHIHH', data[:12])
        ids = (conference, transaction, user)
        if data[0] >> 5 != 1:
            return error(*ids, 12)
        if conference != self.number:
            return error(*ids, 1)
        if user not in self.users:
            return error(*ids, 2)
        if user != bound:
            return error(*ids, 5)
        if primitive == ERROR:
            return b''
        if primitive not in (1, 2, 3, 5, 7, 9, 11):
            return error(*ids, 3)
        try:
            attributes = read(data[12:])
        except Malformed:
            return error(*ids, 10)
        unknown = unknown_mandatory(attributes)
        if unknown:
            return error(*ids, 4, bytes(kind << 1 for kind in unknown))
        named = list(dict.fromkeys(c for kind, _, c in attributes if kind == FLOOR_ID))
        if primitive == HELLO:
            return hello_ack(*ids)
        if primitive == FLOOR_REQUEST:
            return self.floor_request(ids, attributes, named)
        if primitive in (FLOOR_RELEASE, FLOOR_REQUEST_QUERY):
            return error(*ids, 10 if first(attributes, FLOOR_REQUEST_ID) is None else 7)
        if primitive == CHAIR_ACTION:
            information = first(attributes, FLOOR_REQUEST_INFORMATION)
            is_read = information and verdicts(information[1]) and is_text(reason_of(information[1]))
            return error(*ids, 7 if is_read else 10)
        if primitive == USER_QUERY:
            return self.user_query(ids, first(attributes, BENEFICIARY_ID))
        return self.floor_query(ids, named)

    def floor_request(self, ids, attributes, named):
        if not is_text(first(attributes, INFO)) or not named:
            return error(*ids, 10)
        beneficiary = first(attributes, BENEFICIARY_ID)
        if beneficiary is not None and beneficiary != ids[2]:
            if not self.users[ids[2]][2]:
                return error(*ids, 5)
            if beneficiary not in self.users:
                return error(*ids, 2)
        if any(floor not in self.floors for floor in named):
            return error(*ids, 6)
        return error(*ids, 14) if len(named) > 8 else None

    def user_query(self, ids, beneficiary):
        if beneficiary is None:
            return message(USER_STATUS, *ids)
        if beneficiary not in self.users:
            return error(*ids, 2)
        name, uri, _ = self.users[beneficiary]
        shown = ([attribute(USER_DISPLAY_NAME, name.encode())] if name else []) + (
            [attribute(USER_URI, uri.encode())] if uri else [])
        return message(USER_STATUS, *ids, group(BENEFICIARY_INFORMATION, beneficiary, *shown))

    def floor_query(self, ids, named):
        if any(floor not in self.floors for floor in named):
            return error(*ids, 6)
        if not named:
            return message(FLOOR_STATUS, *ids)
        conference, transaction, user = ids
        return b''.join(
            message(FLOOR_STATUS, conference, 0 if at else transaction, user, floors(floor))
            for at, floor in enumerate(named))


def deep(depth, innermost=b''):
    """Groups in one another, the innermost with these bytes (fewer than its depth leaves)."""
    for _ in range(depth):
        innermost = group(FLOOR_REQUEST_INFORMATION, 0, innermost)
    return innermost


def hostile(chance, conference, user):
    """Messages of every kind that isn't wanted, for ever: (kind, message)."""
    def word(low=0, high=65535):
        return chance.randint(low, high)

    def send(primitive, payload=b'', of=conference, by=user, first_=0x20):
        return message(primitive, of, word(), by, payload, first_)

    asks = (FLOOR_REQUEST, FLOOR_RELEASE, FLOOR_REQUEST_QUERY, USER_QUERY, FLOOR_QUERY,
            CHAIR_ACTION, HELLO)

    def text():
        """A text that may be none."""
        return b'x' * word(0, 40) + chance.choice((b'', '\u00e4'.encode(), b'\xff'))

    def fine():
        """A payload that some message may have."""
        return chance.choice((
            b'', floors(word(1, 3)), number(FLOOR_REQUEST_ID, word()),
            number(BENEFICIARY_ID, word(9, 15)), verdict(word(), word(1, 3), word(0, 9)),
            verdict(word(), word(1, 3), word(0, 9), chance.choice((None, text())), text()),
            floors(1, 2, 1), floors(*range(1, 10)),
            floors(1) + attribute(INFO, chance.randbytes(word(0, 9))),
            floors(1) + attribute(PRIORITY, bytes([word(0, 255), word(0, 255)]))))

    def loose():
        """Words that look like attributes."""
        return b''.join(bytes([word(0, 255) if chance.random() < 0.3 else word(0, 20) << 1,
                               chance.choice((0, 1, 2, 3, 4, 4, 4, 5, 8, 12, 252, 255)),
                               word(0, 3), word(0, 255)]) for _ in range(word(1, 12)))

    def flipped():
        text = bytearray(send(chance.choice(asks), fine()))
        for _ in range(word(1, 3)):
            at = word(0, len(text) - 1)
            # Not the Payload Length, which would take in the messages behind.
            if at not in (2, 3):
                text[at] ^= 1 << word(0, 7)
        return bytes(text)

    kinds = (
        ('wrong version', lambda: send(
            word(0, 255), fine(), first_=chance.choice((0, 2, 3, 4, 5, 6, 7)) << 5 | word(0, 31))),
        ('reserved bits', lambda: send(HELLO, first_=0x20 | word(1, 31))),
        ('wrong conference', lambda: send(
            word(0, 255), fine(), of=conference + word(1, 1 << 20))),
        ('no user', lambda: send(word(0, 255), fine(), by=word(1000))),
        ('another user', lambda: send(word(0, 255), fine(), by=chance.choice((10, 11, 12, 13)))),
        ('unknown primitive', lambda: send(chance.choice((0, 4, 6, 8, 10, 12, word(14, 255))),
                                           loose())),
        ('an Error', lambda: send(ERROR, loose())),
        ('unknown attributes', lambda: send(chance.choice(asks), fine() + b''.join(
            attribute(chance.choice((0, word(19, 127))), chance.randbytes(word(0, 6)),
                      must=chance.random() < 0.3) for _ in range(word(1, 6))))),
        ('unknown attributes in groups', lambda: send(HELLO, deep(word(1, 9), attribute(
            word(19, 127), chance.randbytes(word(0, 9)), must=chance.random() < 0.5)))),
        ('wrong length', lambda: send(chance.choice(asks), fine() + attribute(
            word(1, 5), b'\0\1', length=chance.choice((0, 1, 2, 3, 5, 6, 8, 255))))),
        ('zero length', lambda: send(chance.choice(asks), attribute(
            word(0, 127), b'\0\0', length=word(0, 1)) + fine())),
        ('truncated group', lambda: send(chance.choice(asks), attribute(
            word(14, 18), b'\0\1' + fine(), length=chance.choice((2, 3, 5, 6, 7, 40, 252, 255))))),
        ('overrun in a group', lambda: send(chance.choice(asks), group(
            word(14, 18), word(), attribute(INFO, b'', length=word(5, 255))))),
        ('deep groups', lambda: send(HELLO, deep(word(10, 63)))),
        ('deep fault', lambda: send(HELLO, deep(word(10, 62), attribute(
            word(1, 5), b'\0\0', length=word(5, 255))))),
        ('missing attribute', lambda: send(chance.choice((1, 2, 3, 9)))),
        ('no UTF-8', lambda: send(FLOOR_REQUEST, floors(1) + attribute(
            INFO, b'a' * word(0, 70) + bytes([word(128, 255)])))),
        ('a reason', lambda: send(CHAIR_ACTION, verdict(
            word(), 1, word(2, 4), *chance.choice(((None, text()), (text(), b'\xff')))))),
        ('no verdict', lambda: send(CHAIR_ACTION, verdict(
            word(), 1, chance.choice((0, 1, 5, 6, word(8, 255)))))),
        ('no request', lambda: send(chance.choice((2, 3)), number(FLOOR_REQUEST_ID, word()))),
        ('no floor', lambda: send(chance.choice((1, 7)), floors(1, word(100)))),
        ('a beneficiary', lambda: send(
            FLOOR_REQUEST, floors(1) + number(BENEFICIARY_ID, word(20)))),
        ('nine floors', lambda: send(FLOOR_REQUEST, floors(*range(1, 10)))),
        ('words', lambda: send(chance.choice(asks), loose())),
        ('flipped bits', flipped),
        ('nothing wrong', lambda: send(chance.choice((5, 7, 11)), fine())),
    )
    while True:
        for kind, make in kinds:
            yield kind, make()


def parted(text):
    """Bytes from spaced hexadecimal."""
    return bytes.fromhex(text)


# Conference 1 has users 10 to 13, of which 13 is Ann and 12 has the proxy mark, and floors 1 to 9.
WORKED = Conference(1, {10: ('', '', False), 11: ('', '', False), 12: ('', '', True),
                        13: ('Ann', '', False)}, range(1, 10))
ANSWERED = '''
200b0000 00000001 0001 000a = 200c0009 00000001 0001 000a 160f0102 03040506 0708090a 0b0c0d00 14140204 06080a0c 0e101214 16181a1c 1e202224
200b0000 00000002 0005 000a = 200d0001 00000002 0005 000a 0c030100
200b0001 00000001 0001 000a 04010001 = 200d0001 00000001 0001 000a 0c030a00
200b0001 00000001 0001 000a 10080000 = 200d0001 00000001 0001 000a 0c030a00
200b0002 00000001 0001 000a 1e060001 00000000 = 200d0001 00000001 0001 000a 0c030a00
200b0002 00000001 0001 000a 1e070001 18036100 = 200d0001 00000001 0001 000a 0c030a00
200b0003 00000001 0001 000a 29040000 29040000 01040000 = 200d0002 00000001 0001 000a 0c050428 00000000
200b0001 00000001 0001 000a 28040000 = 200c0009 00000001 0001 000a 160f0102 03040506 0708090a 0b0c0d00 14140204 06080a0c 0e101214 16181a1c 1e202224
400b0000 00000001 0001 000a = 200d0001 00000001 0001 000a 0c030c00
20100000 00000001 0002 000a = 200d0001 00000001 0002 000a 0c030300
200d0001 00000001 0003 000a 0c030100 =
200b0000 00000001 0001 000b = 200d0001 00000001 0001 000b 0c030500
200b0000 00000001 0001 0063 = 200d0001 00000001 0001 0063 0c030200
20010001 00000001 0001 000a 04040063 = 200d0001 00000001 0001 000a 0c030600
20010002 00000001 0001 000a 04040001 0204000b = 200d0001 00000001 0001 000a 0c030500
20020001 00000001 0001 000a 06040007 = 200d0001 00000001 0001 000a 0c030700
20050001 00000001 0001 000a 0204000d = 20060003 00000001 0001 000a 1c0c000d 1805416e 6e000000
20070003 00000001 0001 000a 04040002 04040001 04040002 = 20080001 00000001 0001 000a 04040002 20080001 00000001 0000 000a 04040001
20070000 00000001 0002 000a = 20080000 00000001 0002 000a
20090003 00000001 0001 000a 1e0c0001 22080004 0a040100 = 200d0001 00000001 0001 000a 0c030a00
20090003 00000001 0001 000a 1e0c0001 22080004 0a040700 = 200d0001 00000001 0001 000a 0c030700
20090004 00000001 0002 000a 1e100001 220c0004 0a040400 12046e6f = 200d0001 00000001 0002 000a 0c030700
20090004 00000001 0002 000a 1e100001 220c0004 0a040400 1203ff00 = 200d0001 00000001 0002 000a 0c030a00
20090007 00000001 0002 000a 1e1c0001 240c0001 1205616c 6c000000 220c0004 0a040400 1203ff00 = 200d0001 00000001 0002 000a 0c030700
20010009 00000001 0001 000a 04040001 04040002 04040003 04040004 04040005 04040006 04040007 04040008 04040009 = 200d0001 00000001 0001 000a 0c030e00
'''
TOLD = (
    ((1, 2, 10, 1, GRANTED, 0, 1), '20040007 00000001 0002 000a 1e1c0001 24080001 0a040300 '
     '22080001 0a040300 1c04000a 08044000'),
    ((1, 3, 10, 1, RELEASED, 0, 1), '20040007 00000001 0003 000a 1e1c0001 24080001 0a040600 '
     '22080001 0a040600 1c04000a 08044000'),
    ((1, 1, 12, 1, GRANTED, 0, 1, 11, 12), '20040008 00000001 0001 000c 1e200001 24080001 0a040300 '
     '22080001 0a040300 1c04000b 2004000c 08044000'),
)


def check():
    """Answers the worked messages."""
    for row in ANSWERED.strip().split('\n'):
        asked, wanted = (parted(text) for text in row.split('='))
        assert WORKED.answers(asked, 10) == wanted, row
    for told, wanted in TOLD:
        assert floor_request_status(*told) == parted(wanted), wanted
    many = b''.join(bytes([kind << 1 | 1, 4, 0, 0]) for kind in [0] + list(range(19, 128)))
    details = bytes(kind << 1 for kind in [0] + list(range(19, 128)))
    assert WORKED.answers(message(HELLO, 1, 1, 10, many), 10) == parted(
        '200d001d 00000001 0001 000a 0c7104') + details + bytes(3)
    assert WORKED.answers(message(HELLO, 1, 1, 10, deep(63)), 10) == hello_ack(1, 1, 10)
    for (kind, text), _ in zip(hostile(random.Random(1), 1, 10), range(100)):
        assert len(text) == 12 + 4 * struct.unpack('>H', text[2:4])[0], kind


check()
