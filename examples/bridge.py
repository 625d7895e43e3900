#!/usr/bin/env python3
"""A bridge for meetings beside a floorhub of its own: ./bridge.py SOCKET DOOR PORT

It calls people and switches their media (here it prints who is switched on or off); floorhub decides who holds which
floor. It is user 1 of each meeting, asks for those who have no BFCP, and decides for moderators on floor 1, the
microphone; floor 2, the screen, has no chair. Who has BFCP comes to floorhub by a door, as CONFERENCE.USER. SOCKET is
that of `floorhub --control`, DOOR the port of `--door-by-id`. At PORT it serves the signalling, which knows who is who:

    POST   /NAME/people     {"name": "Ann"}            comes; the first one opens the meeting NAME
    DELETE /NAME/people/2                              goes, or is shown out; the last one ends the meeting
    POST   /NAME/requests   {"user": 2, "floor": 1}    asks for a floor
    DELETE /NAME/requests/5                            gives it back
    POST   /NAME/decisions  {"request": 5, "verdict": "grant", "reason": "you are next"}
    GET    /NAME                                       who is here, and which requests there are
"""
import asyncio
import contextlib
import itertools
import json
import re
import struct
import sys
import time

FLOOR_REQUEST, FLOOR_RELEASE, CHAIR_ACTION, ERROR = 1, 2, 9, 13  # RFC 8855, section 5.1
VERDICTS = {"grant": 3, "deny": 4, "revoke": 7}  # section 5.2.5
STANDS = {"pending": "Pending", "waiting": "Accepted", "holders": "Granted"}
BRIDGE, MICROPHONE = 1, 1
OPEN = 'open .\nconference = [{id=%d, user=[{id=1, name="%s", proxy=true}], floor=[{id=1, chair=1}, {id=2}]}]\n.'


class Refused(Exception):
    """Why something isn't done: a name of floorhub's, or the code of an Error (RFC 8855, section 5.2.6)."""


class Meeting:
    """A conference as floorhub has told of it up to `place`, and the one BFCP connection to it."""
    def __init__(self, conference, name, door):
        self.conference, self.name, self.door, self.place = conference, name, door, 0
        self.people, self.requests, self.on = {}, {}, set()  # name; user, status, floors; floor, user
        self.streams, self.sending = None, asyncio.Lock()

    def switch(self, place):
        """Switches whoever has got or lost a floor by what was told up to the place."""
        self.requests = {number: it for number, it in self.requests.items() if it[1] in STANDS.values()}
        on = {(floor, it[0]) for it in self.requests.values() if it[1] == "Granted" for floor in it[2]}
        for floor, user in sorted(on ^ self.on):
            print("switch", self.conference, place, floor, user, "on" if (floor, user) in on else "off", flush=True)
        self.place, self.on = place, on

    async def connect(self):
        reader, writer = await asyncio.open_connection("127.0.0.1", self.door)
        name = b"%d.%d" % (self.conference, BRIDGE)  # the unique-id in a header of the PROXY protocol
        writer.write(b"\r\n\r\n\0\r\nQUIT\n\x21\0" + struct.pack(">HBH", 3 + len(name), 5, len(name)) + name)
        return reader, writer

    async def send(self, primitive, payload):
        """Sends a message, and gives its answer, behind the header. After a fault the connection is made anew."""
        async with self.sending:
            (reader, writer), self.streams = self.streams or await self.connect(), None
            writer.write(struct.pack(">BBHIHH", 32, primitive, len(payload) // 4, self.conference, 1, BRIDGE) + payload)
            transaction = 0
            while not transaction:  # 0 is a notice's: what it tells is told by live lines, too.
                _, primitive, words, _, transaction, _ = struct.unpack(">BBHIHH", await reader.readexactly(12))
                payload = await reader.readexactly(4 * words)
            self.streams = reader, writer
        if primitive == ERROR:
            raise Refused(payload[2])
        return payload


class Bridge:
    """All meetings, by their conferences and by their names, and the control socket."""
    async def run(self, path, door, port):
        self.door, self.meetings, self.named, self.coming = int(door), {}, {}, asyncio.Lock()
        reader, self.writer = await asyncio.open_unix_connection(path, limit=1 << 20)
        self.asked, self.tags, reading = {}, itertools.count(1), asyncio.create_task(self.read(reader))
        await self.look()
        await asyncio.start_server(self.serve_http, "127.0.0.1", int(port))
        print("ready", flush=True)
        sys.exit(await reading or "floorhub has gone")  # Whoever started the bridge starts it again.

    async def ask(self, *line):
        """The lines of the answer, each as its words."""
        tag, answered = f"@{next(self.tags)}", asyncio.get_running_loop().create_future()
        self.asked[tag] = answered, []
        self.writer.write(" ".join(map(str, (tag, *line))).encode() + b"\n")
        if (lines := await answered)[-1][0] == "error":
            raise Refused(lines[-1][1])
        return lines

    async def read(self, reader):
        """Takes answers by their tags, and live lines as they come."""
        async for line in reader:
            first, *words = line.decode().split()
            if first == "!":
                self.live(self.meetings[int(words[0])], int(words[1]), *words[2:])
            elif first in self.asked:
                self.asked[first][1].append(words)
                if words[0] in ("ok", "error", "end"):
                    self.asked[first][0].set_result(self.asked.pop(first)[1])

    def live(self, meeting, place, kind, *words):
        if kind == ".":
            meeting.switch(place)
        elif kind == "closed":
            meeting.requests.clear()
            del self.named[meeting.name]
        elif kind == "request":
            at = words.index("floors")
            floors = [int(word.split(":")[0]) for word in words[at + 1:-2]]
            meeting.requests[int(words[0])] = int(words[2]), words[at - 1].split(":")[0], floors
        if kind in ("joined", "request") and int(words[2]) not in (BRIDGE, *meeting.people):
            self.showing = asyncio.create_task(self.show_out(meeting))

    async def look(self):
        """Follows the conferences that are open, and forgets those that are closed."""
        for words in (await self.ask("list"))[:-1]:
            if words[8] == "open" and int(words[1]) not in self.meetings:
                await self.follow(int(words[1]))
            elif words[8] == "ended":
                with contextlib.suppress(Refused):  # Running: its connections are about to end.
                    await self.ask("forget", words[1])
                    self.meetings.pop(int(words[1]), None)

    async def follow(self, conference):
        """Reads how a conference stands, whose user 1 has the meeting's name, and watches it from there on."""
        name = bytes.fromhex((await self.ask("users", conference))[0][-1]).decode()
        meeting = self.meetings[conference] = self.named[name] = Meeting(conference, name, self.door)
        for _, user, person in (await self.ask("words", conference))[:-1]:
            meeting.people[int(user)] = bytes.fromhex(person).decode()
        *floors, (_, _, place) = await self.ask("floors", conference)
        for _, floor, _, _, _, _, *words in floors:
            for word in words:
                status = STANDS.get(word) or status
                if ":" in word:
                    number, user = map(int, word.split(":"))
                    meeting.requests.setdefault(number, (user, status, []))[2].append(int(floor))
        meeting.switch(int(place) - 1)
        await self.ask("watch", conference, "from", place)
        await self.show_out(meeting)

    async def show_out(self, meeting):
        """Takes floors and connections from whoever isn't here: also what was left to do when the bridge was killed."""
        here, members = (BRIDGE, *meeting.people), (await self.ask("members", meeting.conference))[:-1]
        gone = [("revoke", number) for number, (user, *_) in meeting.requests.items() if user not in here]
        for line, number in gone + [("leave", it[1]) for it in members if int(it[3]) not in here]:
            with contextlib.suppress(Refused):  # It has ended by itself.
                await self.ask(line, meeting.conference, number)

    async def answer(self, given, method, name, what, number):
        meeting = self.named.get(name)
        match method, what:
            case "POST", "people":
                async with self.coming:
                    if name not in self.named:
                        await self.ask(OPEN % (time.time_ns() // 1_000_000 % (1 << 32), name))
                        await self.look()
                    meeting, person = self.named[name], " ".join(given["name"].split())
                    user = len(await self.ask("users", meeting.conference))
                    await self.ask("user", meeting.conference, user, "name", person)
                    await self.ask("word", meeting.conference, user, person.encode().hex())
                    meeting.people[user] = person
                    return {"conference": meeting.conference, "user": user}
            case _ if not meeting:
                raise Refused("NoMeeting")
            case "DELETE", "people":
                await self.ask("word", meeting.conference, number, "-")
                del meeting.people[int(number)]
                await (self.show_out(meeting) if meeting.people else self.ask("close", meeting.conference))
            case "POST", "requests":
                asked = struct.pack(">BBHBBH", 4, 4, given["floor"], 2, 4, given["user"])
                return {"request": int.from_bytes((await meeting.send(FLOOR_REQUEST, asked))[2:4])}
            case "DELETE", "requests":
                await meeting.send(FLOOR_RELEASE, struct.pack(">BBH", 6, 4, int(number)))
            case "POST", "decisions":
                text = given.get("reason", "")[:50].encode()
                size = len(text) + 1 & ~3 | 2
                await meeting.send(CHAIR_ACTION, struct.pack(
                    f">BBHBBHBBBBBB{size}s", 30, 14 + size, given["request"], 34, 10 + size, MICROPHONE,
                    10, 4, VERDICTS[given["verdict"]], 0, 18, 2 + len(text), text))
            case "GET", None:
                return {key: vars(meeting)[key] for key in ("conference", "place", "people", "requests")}

    async def serve_http(self, reader, writer):
        with contextlib.suppress(OSError, asyncio.IncompleteReadError):
            while head := (await reader.readuntil(b"\r\n\r\n")).decode():
                length = re.search(r"(?i)\ncontent-length: *(\d+)", head)
                given = await reader.readexactly(int(length[1])) if length else b"{}"
                try:
                    asked = re.match(r"(\w+) /([\w-]{1,30})(?:/(\w+))?(?:/(\d+))? ", head, re.ASCII)
                    status, answer = 200, await self.answer(json.loads(given), *asked.groups())
                except Exception as fault:  # What is asked wrongly ends nothing.
                    status, answer = 409, {"error": str(fault)}
                text = json.dumps(answer).encode()
                writer.write(b"HTTP/1.1 %d .\r\nContent-Length: %d\r\n\r\n%s" % (status, len(text), text))
        writer.close()


asyncio.run(Bridge().run(*sys.argv[1:]))
