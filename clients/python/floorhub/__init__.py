"""Meetings of floorhub, a floor control server (BFCP, RFC 8855), by its control socket's JSON-RPC.

    async with floorhub.Control("/run/floorhub/control") as control:
        meeting = await control.open(title="Board", users=[{"name": "Ann"}, {"name": "Ben"}], floors=[{"title": "Mic"}])
        watching = await meeting.watch()
        await meeting.ask(1, [1])
        async for event in watching:
            for floor in event.floors:
                print(floor["floor"], [holder["user"] for holder in floor["holders"]])

What the server refuses is an exception of `floorhub.errors`. Where a connection ends, what was under way is `errors.Gone`,
the next call connects again, and what is watched goes on from the place where it was: nothing is lost, nothing doubled.
"""
import asyncio
import collections
import contextlib
import itertools
import json
from dataclasses import dataclass, field

from . import errors, shapes

__version__ = "0.2.0"
# How many bytes a line of the server's has at most, and how long a server that is gone is let be, in seconds.
MAX_LINE, PAUSE = 1 << 24, 0.2


@dataclass(frozen=True)
class Event:
    """What happened in a conference: `what["event"]` says what. What is no event of its journal has no place."""
    conference: int
    what: dict
    place: int | None = None
    time: str | None = None
    requests: list[shapes.Request] = field(default_factory=list)
    cut: list[dict] = field(default_factory=list)
    floors: list[shapes.Holders] = field(default_factory=list)


class Control:
    """A client of the control socket, or of the one that looks alone: one connection, any number of calls at once."""

    def __init__(self, path):
        self.path, self.watching = path, []
        self._writer, self._asked, self._ids, self._lock = None, {}, itertools.count(1), asyncio.Lock()

    async def __aenter__(self):
        await self.connect()
        return self

    async def __aexit__(self, *_):
        self.watching.clear()
        if self._writer:
            self._writer.close()
            await self._reading

    async def connect(self):
        async with self._lock:
            if not self._writer:
                reader, self._writer = await asyncio.open_unix_connection(self.path, limit=MAX_LINE)
                self._reading = asyncio.create_task(self._read(reader))

    async def call(self, method, **params):
        """What the server answers. A name that Python has for itself is written with `_` behind it: `for_`."""
        await self.connect()
        number, answer = next(self._ids), asyncio.get_running_loop().create_future()
        self._asked[number] = answer
        params = {name.rstrip("_"): value for name, value in params.items()}
        self._writer.write(json.dumps({"id": number, "method": method, "params": params}).encode() + b"\n")
        return await answer

    async def _read(self, reader):
        fault = errors.Gone(f"{self.path}: the connection has ended")
        with contextlib.suppress(OSError):
            async for line in reader:
                if not line.endswith(b"\n"):
                    break
                told = json.loads(line)
                if "method" in told:
                    event = Event(**told["params"])
                    for it in self.watching:
                        if it.conference in (None, event.conference):
                            it.put(event)
                elif told["id"] is None:  # The server is full, or a line was too long: it ends the connection.
                    fault = errors.refusal_of(told["error"])
                else:
                    settle(self._asked.pop(told["id"]), told)
                    await asyncio.sleep(0)  # Whoever awaits it goes on before what stands behind it is told.
        self._writer.close()
        self._writer, asked, self._asked = None, self._asked, {}
        for answer in asked.values():
            settle(answer, fault)
        for it in self.watching:
            it.put(None)

    async def open(self, *, toml: str | None = None, **parts) -> "Meeting":
        """Opens a conference: of the text of its configuration, or of `id`, `title`, `limit`, `connections`, `users` and
        `floors`, as a configuration has them. What isn't given is the server's to choose."""
        opened = await self.call("conference.open", **({"toml": toml} if toml else {"users": [], "floors": [], **parts}))
        return Meeting(self, opened["conference"], opened["users"], opened["floors"])

    async def list(self) -> list[shapes.Conference]:
        """All conferences that weren't forgotten, ascending."""
        part = await self.call("conference.list")
        found = part["conferences"]
        while part["more"]:
            part = await self.call("conference.list", after=found[-1]["conference"])
            found += part["conferences"]
        return found

    async def watch(self) -> "Watching":
        """Watches all conferences, also those that are opened later. Whoever begins so takes a picture of each that is there
        (`get`), and passes over what stands before its `next`."""
        return await Watching(self, None).begin(None)

    async def status(self) -> shapes.Server:
        return await self.call("server.status")

    async def drain(self):
        """No conference is opened any more."""
        await self.call("server.drain")

    async def stop(self) -> shapes.Stopped:
        return await self.call("server.stop")


class Meeting:
    """A conference. A call that acts gives the place of its event: what happened up to there was told before."""

    def __init__(self, control, conference, users=(), floors=()):
        self.control, self.conference, self.users, self.floors = control, conference, users, floors

    async def call(self, method, **params):
        return await self.control.call(method, conference=self.conference, **params)

    async def get(self) -> shapes.Picture:
        return await self.call("conference.get")

    async def close(self) -> int:
        return (await self.call("conference.close"))["place"]

    async def forget(self):
        """Gives back the memory of a conference that was closed, but for its number."""
        await self.call("conference.forget")

    async def add_user(self, name: str | None = None, *, id: int | None = None, uri: str | None = None,
                       proxy: bool = False, port: int | None = None) -> int:
        """The number of the user."""
        return (await self.call("user.add", **given(id=id, name=name, uri=uri, proxy=proxy, port=port)))["user"]

    async def add_floor(self, title: str | None = None, *, id: int | None = None, room: int | None = None,
                        chair: int | None = None) -> int:
        """The number of the floor."""
        return (await self.call("floor.add", **given(id=id, room=room, chair=chair, title=title)))["floor"]

    async def set_chair(self, floor: int, chair: int | None) -> int:
        return (await self.call("floor.chair", floor=floor, chair=chair))["place"]

    async def remove(self, *, user: int | None = None, member: int | None = None) -> int:
        """Shows a member out, or a user, who isn't let in again before `admit`."""
        return (await self.call("member.remove", **given(user=user, member=member)))["place"]

    async def admit(self, user: int):
        await self.call("user.admit", user=user)

    async def ask(self, user: int, floors: list[int], *, priority: int | None = None, info: str | None = None,
                  by: int | None = None) -> shapes.Created:
        """Asks for floors for a user. Who asks `by` another's number has to have its proxy mark."""
        return await self.call("request.create", for_=user, floors=floors, **given(priority=priority, info=info, by=by))

    async def release(self, request: int, *, by: int | None = None) -> int:
        return (await self.call("request.release", request=request, **given(by=by)))["place"]

    async def accept(self, request: int, **how) -> int:
        """Has it wait in its queues. `how` is, here and below, as far as it is to be said: the `floors` of which it is
        decided, a `reason`, and `by` which of several chairs."""
        return (await self.call("request.accept", request=request, **how))["place"]

    async def grant(self, request: int, **how) -> int:
        """Grants it, before whoever waits."""
        return (await self.call("request.grant", request=request, **how))["place"]

    async def deny(self, request: int, **how) -> int:
        return (await self.call("request.deny", request=request, **how))["place"]

    async def revoke(self, request: int) -> int:
        """Takes the floors away, as the administrator."""
        return (await self.call("request.revoke", request=request))["place"]

    async def words(self) -> dict[str, str]:
        return (await self.call("word.get"))["words"]

    async def set_word(self, key: str, text: str | None):
        """Keeps a word beside the conference, or takes it away."""
        await self.call("word.set", key=key, text=text)

    async def journal(self, from_: int = 1) -> list[shapes.Entry]:
        """What has happened from a place on, all of it."""
        part = await self.call("journal", from_=from_)
        entries = part["entries"]
        while part["entries"]:
            part = await self.call("journal", from_=part["next"])
            entries += part["entries"]
        return entries

    async def watch(self, from_: int | None = None) -> "Watching":
        """Watches the conference from a place on, or from the next one."""
        return await Watching(self.control, self.conference).begin(from_)


class Watching:
    """What happens, in order: `async for event in watching`. A client watches all conferences or some, not both."""

    def __init__(self, control, conference):
        self.control, self.conference = control, conference
        self._next, self._told, self._has_told = {}, collections.deque(), asyncio.Event()

    async def begin(self, from_):
        there = [it.conference for it in self.control.watching]
        if there and (self.conference is None or None in there or self.conference in there):
            raise errors.Watching(self.conference)
        self.control.watching.append(self)
        try:
            if self.conference is not None:
                await self._watch({"conference": self.conference, **({"from": from_} if from_ else {})})
            else:
                await self.control.call("watch", all=True)
                there = await self.control.list()
                begun = {it.conference for it in self._told if it}
                self._next = {it["conference"]: it["events"] + 1 for it in there if it["conference"] not in begun}
        except BaseException:
            self.control.watching.remove(self)
            raise
        return self

    async def _watch(self, *conferences):
        told = await self.control.call("watch", conferences=conferences)
        self._next.update({it["conference"]: it["next"] for it in told["next"]})

    def put(self, event):
        self._told.append(event)
        self._has_told.set()

    async def end(self):
        """Watches no more."""
        self.control.watching.remove(self)
        how = {"all": True} if self.conference is None else {"conferences": [{"conference": self.conference}]}
        await self.control.call("unwatch", **how)

    def __aiter__(self):
        return self

    async def __anext__(self):
        while True:
            while not self._told:
                self._has_told.clear()
                await self._has_told.wait()
            if event := self._told.popleft():
                break
            await self._go_on()
        if event.what["event"] == "forgotten":
            self._next.pop(event.conference, None)
        elif event.place or event.what["event"] == "opened":
            self._next[event.conference] = (event.place or 0) + 1
        return event

    async def _go_on(self):
        """Watches by another connection, once the server is there."""
        while True:
            with contextlib.suppress(OSError):
                if self.conference is not None:
                    return await self._watch({"conference": self.conference, "from": self._next[self.conference]})
                await self.control.call("watch", all=True)
                there = {it["conference"] for it in await self.control.list()}
                new, gone = there - set(self._next), set(self._next) - there
                await self._watch(*[{"conference": it, "from": self._next.get(it, 1)} for it in there])
                # What was told since of those that are there is told once more, behind this.
                told = [it for it in self._told if not it or it.conference not in there or not it.place]
                self._told = collections.deque(told)
                self._told.extendleft([Event(it, {"event": "opened"}) for it in new])
                self._told.extendleft([Event(it, {"event": "forgotten"}) for it in gone])
                return
            self._told.clear()
            await asyncio.sleep(PAUSE)


def given(**params):
    return {name: value for name, value in params.items() if value is not None}


def settle(answer, told):
    """An answer, or a fault, comes to whoever awaits it still."""
    if answer.done():
        return
    if isinstance(told, Exception):
        answer.set_exception(told)
    elif "error" in told:
        answer.set_exception(errors.refusal_of(told["error"]))
    else:
        answer.set_result(told["result"])
