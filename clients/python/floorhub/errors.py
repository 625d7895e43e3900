"""Why a request isn't carried out: a class for each error of the server's, with its number."""


class Gone(ConnectionError):
    """The connection has ended before the answer: whether the request was carried out isn't known."""


class Refused(Exception):
    """The server's refusal. `data` says what it is about: a parameter, a conference, a user, a place .."""
    code, data = 0, None

    def __init__(self, data=None):
        super().__init__(*[data] if data else [])
        self.data = data


class NotJson(Refused): code = -32700
class NotRequest(Refused): code = -32600
class NoMethod(Refused): code = -32601
class BadParams(Refused): code = -32602
class NoConference(Refused): code = 1
class Ended(Refused): code = 2
class Forgotten(Refused): code = 3
class Running(Refused): code = 4
class Broken(Refused): code = 5
class Draining(Refused): code = 6
class Forbidden(Refused): code = 7
class Full(Refused): code = 8
class TooLong(Refused): code = 9
class Memory(Refused): code = 10
class Used(Refused): code = 11
class JournalFull(Refused): code = 12
class NoUser(Refused): code = 13
class NoMember(Refused): code = 14
class NoFloor(Refused): code = 15
class NoRequest(Refused): code = 16
class Unauthorized(Refused): code = 17
class TooManyRequests(Refused): code = 18
class NotNow(Refused): code = 19
class Removed(Refused): code = 20
class Watching(Refused): code = 21
class BadPlace(Refused): code = 22
class OutOfRange(Refused): code = 23
class DoubleUser(Refused): code = 24
class DoubleFloor(Refused): code = 25
class DoubleConference(Refused): code = 26
class DoublePort(Refused): code = 27
class UnknownChair(Refused): code = 28
class Syntax(Refused): code = 29
class MissingKey(Refused): code = 30
class WrongType(Refused): code = 31
class CannotListen(Refused): code = 32
class CannotRead(Refused): code = 33
class CannotKeep(Refused): code = 34
class Cut(Refused): code = 35
class BadCount(Refused): code = 36


_CLASSES = {it.code: it for it in Refused.__subclasses__()}


def refusal_of(error):
    """The exception of an error as the server tells it. A number that isn't known here is a `Refused` of that code."""
    refused = _CLASSES.get(error["code"], Refused)(error["data"])
    refused.code = error["code"]
    return refused
