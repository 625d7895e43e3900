"""Conferences with floor control (BFCP, RFC 8855), without input or output: the hub of libfloor.so.

A Hub holds conferences. The caller has the connections: it says which is which user's, hands in the bytes that come,
cut anywhere (`piece`, then `serve`), and sends what waits for those that are told (`told`, `take`). A refused call raises
Refused, and changes nothing, but that ROOM_MEMORY breaks off the one conference. One thread at a time may call a hub.

    hub = Hub()
    hub.open(open('conferences.toml').read())
    ann = hub.attach(1, 10)
    for connection in hub.receive(ann, bytes_of_a_socket):
        send(connection, hub.take(connection))
"""
import ctypes
import os
from ctypes import POINTER, Structure, c_bool, c_char_p, c_size_t, c_uint8, c_uint16, c_uint32, c_uint64, c_void_p

OK, NOTHING, TOO_SHORT, NOT_UTF8 = range(4)
USED, NO_CONFERENCE, NO_CONNECTION, MEMORY, JOURNAL_FULL, FORGOTTEN, RUNNING, BAD_MESSAGE = range(10, 18)
(BROKEN, ENDED, NO_MEMBER, NO_USER, FULL, NO_REQUEST, CUT, BAD_COUNT, OUT_OF_RANGE, DOUBLE_USER, DOUBLE_FLOOR, NO_FLOOR,
 UNKNOWN_CHAIR, ROOM_MEMORY) = range(20, 34)
(TEXT_SYNTAX, TEXT_MISSING_KEY, TEXT_WRONG_TYPE, TEXT_OUT_OF_RANGE, TEXT_DOUBLE_USER, TEXT_DOUBLE_FLOOR, TEXT_NO_FLOOR,
 TEXT_UNKNOWN_CHAIR, TEXT_DOUBLE_CONFERENCE, TEXT_DOUBLE_PORT) = range(40, 50)
PHASES = ('running', 'ended', 'broken')

# No conference has more connections, and no message more bytes.
MAX_CONNECTIONS, MAX_MESSAGE = 64, 262_152


def _answer(*fields):
    return type('Answer', (Structure,), {'_fields_': [('result', c_uint32), *fields]})


_Count = _answer(('count', c_size_t))
_Attached = _answer(('connection', c_uint64))
_Served = _answer(('served', c_uint32))
_Taken = _answer(('parcels', c_uint32), ('len', c_size_t))
_Said = _answer(('place', c_uint32), ('len', c_size_t))
_Lines = _answer(('events', c_size_t), ('len', c_size_t))


class State(Structure):
    """How a conference stands: `members` are live, `ongoing` floor requests, `events` happened; `phase` is of PHASES."""

    _fields_ = [(name, c_uint32) for name in ('result', 'members', 'ongoing', 'events', 'phase')]


_BYTES, _HUB, _CONFERENCE, _ID, _CONNECTION = [c_char_p, c_size_t], c_void_p, c_uint32, c_uint16, c_uint64
_CALLS = {
    'floor_hub_size': (c_size_t,),
    'floor_hub_init': (None, _HUB),
    'floor_hub_drop': (None, _HUB),
    'floor_open': (_Count, _HUB, *_BYTES),
    'floor_diagnose': (_Count, *_BYTES, *_BYTES),
    'floor_attach': (_Attached, _HUB, _CONFERENCE, _ID),
    'floor_piece': (c_uint32, _HUB, _CONNECTION, *_BYTES),
    'floor_serve': (_Served, _HUB, _CONNECTION, c_uint32),
    'floor_told': (_Count, _HUB, POINTER(c_uint64), c_size_t),
    'floor_take': (_Taken, _HUB, _CONNECTION, POINTER(c_uint8), c_size_t),
    'floor_took': (c_uint32, _HUB, _CONNECTION, c_uint32),
    'floor_is_cut': (c_bool, _HUB, _CONNECTION),
    'floor_leave': (c_uint32, _HUB, _CONNECTION),
    'floor_close': (c_uint32, _HUB, _CONFERENCE),
    'floor_revoke': (c_uint32, _HUB, _CONFERENCE, _ID),
    'floor_user': (c_uint32, _HUB, _CONFERENCE, _ID, c_bool, *_BYTES, *_BYTES),
    'floor_floor': (c_uint32, _HUB, _CONFERENCE, _ID, c_uint16, c_bool, _ID),
    'floor_chair': (c_uint32, _HUB, _CONFERENCE, _ID, c_bool, _ID),
    'floor_say': (_Said, _HUB, _CONFERENCE, _ID, *_BYTES, POINTER(c_uint8), c_size_t),
    'floor_forget': (c_uint32, _HUB, _CONFERENCE),
    'floor_status': (State, _HUB, _CONFERENCE),
    'floor_journal': (_Lines, _HUB, _CONFERENCE, c_size_t, *_BYTES),
    'floor_name': (c_size_t, c_uint32, *_BYTES),
    'floor_version': (c_size_t, *_BYTES),
}


def load(path=None):
    """The library, from this path, else from FLOOR_LIBRARY, else where the system finds libfloor.so."""
    library = ctypes.CDLL(path or os.environ.get('FLOOR_LIBRARY') or 'libfloor.so')
    for name, (result, *parameters) in _CALLS.items():
        call = getattr(library, name)
        call.restype, call.argtypes = result, parameters
    return library


def _text(call, *words):
    """What a call writes that gives the length."""
    room = ctypes.create_string_buffer(64)
    length = call(*words, room, len(room))
    return room.raw[:length].decode()


class Refused(Exception):
    """A call was refused: `result` is the number, `name` its name, `place` where a text has its fault."""

    def __init__(self, result, name, place=''):
        super().__init__(f'{name}: {place}' if place else name)
        self.result, self.name, self.place = result, name, place


class Hub:
    """Conferences. It gives its memory back when it is closed, or left by `with`, or collected."""

    def __init__(self, library=None):
        self._library = library or load()
        self._memory = (c_uint64 * (self._library.floor_hub_size() // 8 + 2))()
        # Aligned to 16 bytes.
        self._hub = ctypes.addressof(self._memory) + 15 & ~15
        self._library.floor_hub_init(self._hub)
        self._bytes = (c_uint8 * MAX_MESSAGE)()
        self._numbers = (c_uint64 * MAX_CONNECTIONS)()

    def __enter__(self):
        return self

    def __exit__(self, *_):
        self.end()

    def __del__(self):
        self.end()

    def end(self):
        """Gives the memory back. No call may follow."""
        if getattr(self, '_hub', None):
            self._library.floor_hub_drop(self._hub)
            self._hub = None

    def _call(self, name, *words):
        if not self._hub:
            raise ValueError('the hub has ended')
        return getattr(self._library, name)(self._hub, *words)

    def name_of(self, result):
        """The name of a result, as `NoConference`."""
        return _text(self._library.floor_name, result)

    def version(self):
        """The version, and the logic that the library is proved with."""
        return _text(self._library.floor_version)

    def _check(self, result):
        if result != OK:
            raise Refused(result, self.name_of(result))

    def open(self, text):
        """Opens the conferences of a text in TOML. Where one is refused those before it are open."""
        text = text.encode() if isinstance(text, str) else text
        opened = self._call('floor_open', text, len(text))
        if opened.result == OK:
            return opened.count
        size = 1 + self._library.floor_diagnose(text, len(text), ctypes.create_string_buffer(1), 1).count
        line = ctypes.create_string_buffer(size)
        self._library.floor_diagnose(text, len(text), line, size)
        raise Refused(opened.result, self.name_of(opened.result), line.value.decode())

    def attach(self, conference, user):
        """A connection of a user, and its number, over all conferences."""
        attached = self._call('floor_attach', conference, user)
        self._check(attached.result)
        return attached.connection

    def piece(self, connection, data):
        """Bytes that came from a connection, cut anywhere. Nothing is served by it."""
        self._check(self._call('floor_piece', connection, data, len(data)))

    def serve(self, connection, most=0xFFFFFFFF):
        """Serves messages, and says how many, and whether more may wait: then look at those that are told first."""
        served = self._call('floor_serve', connection, most)
        if served.result != NOTHING:
            self._check(served.result)
        return served.served, served.result == OK

    def told(self):
        """Whom the last call concerned: who has something to take, is cut, or whose conference is closed or broken off."""
        named = self._call('floor_told', self._numbers, MAX_CONNECTIONS)
        self._check(named.result)
        return self._numbers[: named.count]

    def receive(self, connection, data):
        """Hands in bytes, serves all that is whole, and gives whom that concerned, ascending. Where a message is refused
        the connection is to leave, and the others are looked at first: they are in `told` of the Refused."""
        concerned = {connection}
        self.piece(connection, data)
        try:
            while True:
                _, more = self.serve(connection)
                concerned.update(self.told())
                if not more:
                    return sorted(concerned)
        except Refused as refused:
            refused.told = sorted(concerned.union(self.told()))
            raise

    def take(self, connection):
        """All bytes that wait for a connection, whole messages, taken and acknowledged; where they are to be acknowledged
        only once they are sent, `take_some` takes them."""
        parts = []
        while some := self.take_some(connection):
            parcels, data = some
            parts.append(data)
            # A conference that has ended or is broken off takes no acknowledgement.
            self._call('floor_took', connection, parcels)
        return b''.join(parts)

    def take_some(self, connection):
        """Some of the messages that wait for a connection: how many, and their bytes; None where nothing waits."""
        taken = self._call('floor_take', connection, self._bytes, MAX_MESSAGE)
        if taken.result == NOTHING:
            return None
        self._check(taken.result)
        return taken.parcels, bytes(memoryview(self._bytes)[: taken.len])

    def took(self, connection, count):
        """So many of the messages that were taken are sent."""
        self._check(self._call('floor_took', connection, count))

    def is_cut(self, connection):
        """Whether a connection came to be more than 1,024 messages behind, and is told nothing more."""
        return self._call('floor_is_cut', connection)

    def leave(self, connection):
        """A connection is gone."""
        self._check(self._call('floor_leave', connection))

    def close(self, conference):
        """Ends a conference."""
        self._check(self._call('floor_close', conference))

    def revoke(self, conference, request):
        """Takes the floors of a floor request away."""
        self._check(self._call('floor_revoke', conference, request))

    def add_user(self, conference, user, name='', uri='', proxy=False):
        """Adds a user."""
        name, uri = (it.encode() if isinstance(it, str) else it for it in (name, uri))
        self._check(self._call('floor_user', conference, user, proxy, name, len(name), uri, len(uri)))

    def add_floor(self, conference, floor, room=1, chair=None):
        """Adds a floor, for so many floor requests at a time, with a chair or without."""
        self._check(self._call('floor_floor', conference, floor, room, chair is not None, chair or 0))

    def set_chair(self, conference, floor, chair=None):
        """Gives a floor a chair, or none."""
        self._check(self._call('floor_chair', conference, floor, chair is not None, chair or 0))

    def say(self, conference, user, message):
        """Says a message for a user, who needs no connection: its place in the journal, and what answers it."""
        said = self._call('floor_say', conference, user, message, len(message), self._bytes, len(self._bytes))
        self._check(said.result)
        return said.place, bytes(memoryview(self._bytes)[: said.len])

    def forget(self, conference):
        """Gives the memory of a conference back that has ended and of which no connection is live."""
        self._check(self._call('floor_forget', conference))

    def status(self, conference):
        """How a conference stands, a State."""
        state = self._call('floor_status', conference)
        self._check(state.result)
        return state

    def journal(self, conference, done=0):
        """The lines of a conference's journal behind those of the first `done` events."""
        room = ctypes.create_string_buffer(1 << 20)
        parts = []
        while True:
            lines = self._call('floor_journal', conference, done, room, len(room))
            if lines.result == NOTHING:
                return b''.join(parts).decode()
            self._check(lines.result)
            parts.append(room.raw[: lines.len])
            done += lines.events
