"""What a conference's journal shows to whoever watches the conference, and how the conference then stands.

Reckoned from the opening configuration and the journal's lines, by RFC 8855 and docs/protocol.md alone: what a
script compares the server with is never the server's own. Each event is decided as that page says; then what is
shown of every ongoing request is compared with what was shown before it. `compare` has the same journal as floorsim
ran it, and sees that floorsim tells each member as many messages, and each status just so.
"""
import collections
import struct
import tomllib

import messages
from messages import (BENEFICIARY_ID, CHAIR_ACTION, ERROR, FLOOR_ID, FLOOR_QUERY, FLOOR_RELEASE,
                      FLOOR_REQUEST, FLOOR_REQUEST_ID, FLOOR_REQUEST_QUERY, FLOOR_REQUEST_STATUS_GROUP,
                      INFO, OVERALL_REQUEST_STATUS, PRIORITY, REQUEST_STATUS, STATUS_INFO, first)

STATUSES = (None, 'Pending', 'Accepted', 'Granted', 'Denied', 'Cancelled', 'Released', 'Revoked')
PENDING, ACCEPTED, GRANTED, DENIED, CANCELLED, RELEASED, REVOKED = STATUSES[1:]
MAX_ONGOING, MAX_NUMBER, MAX_FLOORS = 256, 65535, 8
# Whom an event would bring to be more messages behind is told nothing by it, and is cut.
MAX_BEHIND = 1024
MAX_REASON = 30


def kept(octets, most):
    """A text's longest front of at most so many bytes that ends at a character, or none."""
    if not octets or len(octets) <= most:
        return octets or None
    while octets[most] & 0xc0 == 0x80:
        most -= 1
    return octets[:most]


def text_of(octets):
    """A text of people, as a journal and a live line have it."""
    return octets.hex() if octets else '-'


class Request:
    """An ongoing floor request. `floors` has for each of its floors Pending or Accepted, and the chair's last word."""

    def __init__(self, number, requester, beneficiary, priority, floors):
        self.number = number
        self.requester = requester
        self.beneficiary = beneficiary
        self.priority = priority
        self.floors = floors
        self.is_granted = False
        self.ended = None
        self.reason = None

    def waits(self):
        return not self.is_granted and all(status == ACCEPTED for status, _ in self.floors.values())

    def ends(self, by_chair=None):
        """Ends it as its requester does, or by a chair's or the administrator's word."""
        self.ended = by_chair or (RELEASED if self.is_granted else CANCELLED)

    def shown(self, positions):
        """What is shown of it: status, position, reason, and of each floor the same. `positions` are the places
        that it has where it waits."""
        overall = self.ended or (GRANTED if self.is_granted else None)
        if overall:
            return overall, 0, self.reason, tuple((floor, overall, 0) for floor in self.floors)
        if positions:
            return (ACCEPTED, max(positions.values()), self.reason,
                    tuple((floor, ACCEPTED, positions[floor]) for floor in self.floors))
        return PENDING, 0, self.reason, tuple((floor, status, 0) for floor, (status, _) in self.floors.items())


class Member:
    """A connection that joined."""

    def __init__(self, user):
        self.user = user
        self.watched = ()
        self.behind = 0
        self.is_cut = False


class Reckoning:
    """A conference, from its table of a configuration on. `event` takes the words of one line of its journal
    behind the place, and gives the live lines of that place, without what all of them begin with."""

    def __init__(self, table):
        self.number = table['id']
        self.limit = table.get('limit', 4)
        self.users = {user['id']: (user.get('name', ''), user.get('uri', ''), user.get('proxy', False))
                      for user in table.get('user', ())}
        self.ports = {user['id']: user['port'] for user in table.get('user', ()) if 'port' in user}
        self.rooms = {floor['id']: floor.get('room', 1) for floor in table.get('floor', ())}
        self.chairs = {floor['id']: floor.get('chair') for floor in table.get('floor', ())}
        # Answers by the checks that no floor request counts in; it looks at these users and floors themselves.
        self.quiet = messages.Conference(self.number, self.users, self.rooms)
        self.joins = 0
        self.live = {}
        self.requests = {}
        self.shown = {}
        self.accepted = 0
        self.events = 0
        self.is_open = True

    def event(self, kind, *words):
        self.events += 1
        own, sender, replies, answered, changes = [], None, 0, None, True
        if kind == 'join':
            self.joins += 1
            self.live[self.joins] = Member(int(words[0]))
            own, changes = ['joined %d user %s' % (self.joins, words[0])], False
        elif kind == 'took':
            self.live[int(words[0])].behind -= int(words[1])
            changes = False
        elif kind == 'leave':
            own = [self.leave(int(words[0]))]
        elif kind == 'message':
            sender = int(words[0])
            replies, answered, changes = self.message(self.live[sender], bytes.fromhex(words[1]))
        elif kind == 'close':
            self.requests.clear()
            self.shown.clear()
            self.is_open = False
            return ['closed', '.']
        else:
            own = self.act(kind, words)
        changed = self.renew() if changes else {}
        cut = self.tell(sender, replies, answered, changed)
        lines = own + [self.line_of(*changed[number]) for number in sorted(changed)] + [
            'cut %d user %d' % (n, self.live[n].user) for n in cut]
        return lines + ['.'] if lines else []

    def leave(self, n):
        user = self.live.pop(n).user
        if all(member.user != user for member in self.live.values()):
            for request in self.requests.values():
                if request.beneficiary == user:
                    request.ends()
        return 'left %d user %d' % (n, user)

    def act(self, kind, words):
        """What the administrator does; the own lines of it."""
        if kind == 'revoke':
            request = self.requests[int(words[0])]
            request.ends(REVOKED if request.is_granted else DENIED)
            return []
        if kind == 'user':
            user, name, uri = int(words[0]), *(('' if it == '-' else bytes.fromhex(it).decode()) for it in words[2:])
            self.users[user] = name, uri, words[1] == '1'
            return [self.user_line(user)]
        chair = None if words[-1] == '-' else int(words[-1])
        floor = int(words[0])
        if kind == 'floor':
            self.rooms[floor], self.chairs[floor] = int(words[1]), chair
            return ['floor %d room %s chair %s' % (floor, words[1], words[-1])]
        had, self.chairs[floor] = self.chairs[floor], chair
        if had is not None and chair is None:
            for request in self.requests.values():
                if floor in request.floors:
                    request.floors[floor] = ACCEPTED, None
        return ['chair %d %s' % (floor, words[-1])]

    def message(self, member, data):
        """How many messages answer it, which request's status is among them, and whether it may change what is
        shown of requests."""
        primitive, user = data[1], member.user
        answer = self.quiet.answers(data, user)
        if answer is None:
            request = self.floor_request(user, messages.read(data[12:]))
            return 1, request, request is not None
        no_request = messages.error(*struct.unpack('>IHH', data[4:12]), 7)
        if answer == no_request and primitive in (FLOOR_RELEASE, FLOOR_REQUEST_QUERY, CHAIR_ACTION):
            attributes = messages.read(data[12:])
            if primitive == CHAIR_ACTION:
                return 1, None, self.chair_action(user, first(attributes, messages.FLOOR_REQUEST_INFORMATION))
            number = first(attributes, FLOOR_REQUEST_ID)
            request = self.requests.get(number)
            if primitive == FLOOR_REQUEST_QUERY or not request:
                return 1, number if request else None, False
            if user not in (request.requester, request.beneficiary):
                return 1, None, False
            request.ends()
            return 1, number, True
        count = self.count(answer)
        if primitive == FLOOR_QUERY and answer[1] != ERROR:
            member.watched = tuple(dict.fromkeys(
                contents for kind, _, contents in messages.read(data[12:]) if kind == FLOOR_ID))
        return count, None, False

    @staticmethod
    def count(answer):
        """How many messages these bytes are."""
        count = at = 0
        while at < len(answer):
            at += 12 + 4 * struct.unpack('>H', answer[at + 2:at + 4])[0]
            count += 1
        return count

    def floor_request(self, user, attributes):
        """The number of the request that is accepted, or none."""
        floors = dict.fromkeys(contents for kind, _, contents in attributes if kind == FLOOR_ID)
        beneficiary = first(attributes, BENEFICIARY_ID)
        beneficiary = user if beneficiary is None else beneficiary
        if any(sum(request.beneficiary == beneficiary and floor in request.floors
                   for request in self.requests.values()) >= self.limit for floor in floors):
            return None
        if len(self.requests) >= MAX_ONGOING or self.accepted >= MAX_NUMBER:
            return None
        self.accepted += 1
        priority = first(attributes, PRIORITY)
        self.requests[self.accepted] = Request(
            self.accepted, user, beneficiary, 2 if priority is None else min(4, priority[0] >> 5),
            {floor: (ACCEPTED if self.chairs[floor] is None else PENDING, None) for floor in floors})
        return self.accepted

    def chair_action(self, user, information):
        """Whether it is accepted."""
        number, attributes = information
        overall = first(attributes, OVERALL_REQUEST_STATUS)
        overall = first(overall[1], REQUEST_STATUS) if overall else None
        named = {}
        for kind, _, contents in attributes:
            if kind == FLOOR_REQUEST_STATUS_GROUP and contents[0] not in named:
                named[contents[0]] = STATUSES[(first(contents[1], REQUEST_STATUS) or overall)[0]]
        request = self.requests.get(number)
        if not request or any(floor not in request.floors for floor in named):
            return False
        if any(self.chairs[floor] != user for floor in named):
            return False
        if any((verdict == REVOKED) != request.is_granted for verdict in named.values()):
            return False
        request.reason = kept(messages.reason_of(attributes), MAX_REASON) or request.reason
        for ending in (REVOKED, DENIED):
            if ending in named.values():
                request.ends(ending)
        if not request.ended:
            request.floors.update((floor, (ACCEPTED, verdict)) for floor, verdict in named.items())
        return True

    def order(self, request):
        words = [word for floor, (_, word) in request.floors.items() if self.chairs[floor] is not None]
        is_express = bool(words) and all(word == GRANTED for word in words)
        return not is_express, -request.priority, request.number

    def waiting(self):
        """The requests that wait, in their order."""
        return sorted((it for it in self.requests.values() if it.waits() and not it.ended), key=self.order)

    def renew(self):
        """Grants what may be granted, lets go what has ended, and finds what is shown otherwise than before:
        for each number its request and what is shown of it."""
        ended = {it.number: it for it in self.requests.values() if it.ended}
        for number in ended:
            del self.requests[number]
        taken = collections.Counter(
            floor for it in self.requests.values() if it.is_granted for floor in it.floors)
        waiting = self.waiting()
        for request in waiting:
            request.is_granted = all(taken[floor] < self.rooms[floor] for floor in request.floors)
            taken.update(request.floors.keys())
        ahead, places = collections.Counter(), {}
        for request in waiting:
            if not request.is_granted:
                ahead.update(request.floors.keys())
                places[request.number] = {floor: ahead[floor] for floor in request.floors}
        shown = {number: it.shown(places.get(number)) for number, it in self.requests.items()}
        changed = {number: (self.requests[number], now) for number, now in shown.items()
                   if self.shown.get(number) != now}
        changed.update((number, (it, it.shown(None))) for number, it in ended.items())
        self.shown = shown
        return changed

    def tell(self, sender, replies, answered, changed):
        """Counts what each member is told; who is cut by it."""
        cut = []
        floors = {floor for request, _ in changed.values() for floor in request.floors}
        for n, member in self.live.items() if changed else [(sender, self.live[sender])] if replies else ():
            due = replies if n == sender else 0
            due += sum(member.user in (request.requester, request.beneficiary)
                       and not (n == sender and number == answered)
                       for number, (request, _) in changed.items())
            due += sum(floor in floors for floor in member.watched)
            if not due or member.is_cut:
                continue
            if member.behind + due > MAX_BEHIND:
                member.is_cut = True
                cut.append(n)
            else:
                member.behind += due
        return sorted(cut)

    @staticmethod
    def line_of(request, shown):
        overall, position, reason, floors = shown
        by = ' by %d' % request.requester if request.requester != request.beneficiary else ''
        named = ''.join(' %d%s' % (floor, '' if status == overall else ':' + status)
                        for floor, status, _ in floors)
        return 'request %d user %d%s %s:%d floors%s reason %s' % (
            request.number, request.beneficiary, by, overall, position, named, text_of(reason))

    def user_line(self, user, port=False):
        name, _, proxy = self.users[user]
        return 'user %d%s%s%s' % (user, ' proxy' if proxy else '',
                                  ' port %d' % self.ports[user] if port and user in self.ports else '',
                                  ' name ' + name.encode().hex() if name else '')

    def user_lines(self):
        """What `users` answers, where no port was added by a `user` line, without its end."""
        return [self.user_line(user, True) for user in self.users]

    def member_lines(self):
        """What `members` answers where nobody is away, without its end."""
        return ['member %d user %d behind %d%s' % (n, it.user, it.behind, ' cut' if it.is_cut else '')
                for n, it in self.live.items()]

    def floor_lines(self):
        """What `floors` answers, without its end."""
        lines = []
        waiting = self.waiting()
        for floor, room in self.rooms.items():
            named = [it for it in self.requests.values() if floor in it.floors]
            parts = (('holders', [it for it in named if it.is_granted]),
                     ('waiting', [it for it in waiting if floor in it.floors and not it.is_granted]),
                     ('pending', [it for it in named if not it.is_granted and not it.waits()]))
            chair = self.chairs[floor]
            lines.append('floor %d room %d chair %s%s' % (
                floor, room, '-' if chair is None else chair,
                ''.join(' %s%s' % (part, ''.join(' %d:%d' % (it.number, it.beneficiary) for it in them))
                        for part, them in parts if them)))
        return lines

    def status_line(self):
        return 'conference %d members %d ongoing %d events %d %s' % (
            self.number, len(self.live), len(self.requests), self.events, 'open' if self.is_open else 'ended')


def tables(text):
    """Each conference's table of a configuration, by its number."""
    return {table['id']: table for table in tomllib.loads(text)['conference']}


def live_lines(table, journal):
    """The live lines of a journal's lines, without its end; and the conference behind them."""
    reckoned, lines = Reckoning(table), []
    for line in journal:
        place, *words = line.split(' ')
        lines += ['! %d %s %s' % (reckoned.number, place, it) for it in reckoned.event(*words)]
    return lines, reckoned


def told_status(data):
    """The line of the request whose FloorRequestStatus this is."""
    (number, attributes), = [contents for kind, _, contents in messages.read(data[12:]) if kind == 15]
    return status_line(number, attributes)


def status_line(number, attributes):
    overall = first(attributes, OVERALL_REQUEST_STATUS)[1]
    status, position = first(overall, REQUEST_STATUS)
    beneficiary = first(attributes, 14)[0]
    requester = first(attributes, 16)
    floors = tuple((contents[0], STATUSES[first(contents[1], REQUEST_STATUS)[0]], 0)
                   for kind, _, contents in attributes if kind == FLOOR_REQUEST_STATUS_GROUP)
    request = Request(number, requester[0] if requester else beneficiary, beneficiary, 0, {})
    return Reckoning.line_of(request, (STATUSES[status], position, first(overall, STATUS_INFO), floors))


def compare(table, journal, printed):
    """Compares what floorsim prints behind each line of a journal with what is reckoned; how many statuses."""
    reckoned, statuses, printed = Reckoning(table), 0, iter(printed)
    for line in journal:
        place, *words = line.split(' ')
        # floorsim acknowledges all that it prints, and so do its members here.
        if words[0] == 'took':
            reckoned.events += 1
            continue
        for member in reckoned.live.values():
            member.behind = 0
        lines = reckoned.event(*words)
        told = collections.Counter()
        for n, data in next(printed):
            told[n] += 1
            if data[1] == messages.FLOOR_REQUEST_STATUS and data[8:10] == b'\0\0':
                statuses += 1
                if told_status(data) not in lines:
                    raise SystemExit('FAILED: place %s tells "%s", reckoned is %s' % (place, told_status(data), lines))
            if data[1] == messages.FLOOR_STATUS:
                for kind, _, contents in messages.read(data[12:]):
                    if kind != 15:
                        continue
                    statuses += 1
                    number, attributes = contents
                    now = Reckoning.line_of(reckoned.requests[number], reckoned.shown[number])
                    if status_line(number, attributes) != now:
                        raise SystemExit('FAILED: place %s tells "%s", reckoned is "%s"' % (
                            place, status_line(number, attributes), now))
        wanted = {n: it.behind for n, it in reckoned.live.items() if it.behind}
        if told != wanted:
            raise SystemExit('FAILED: place %s tells %s messages, reckoned are %s' % (place, dict(told), wanted))
    return statuses
