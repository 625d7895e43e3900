#!/usr/bin/env python3
"""A bridge for meetings beside a floorhub of its own: ./bridge.py SOCKET PORT

It calls people and switches their media (here it prints who is switched on or off); floorhub, at whose --control it asks,
decides who holds floor 1, the microphone, by the word of moderators, who are user 1, and who floor 2, the screen. At PORT it
serves the signalling, which knows who is who:

    POST   /NAME/people     {"name": "Ann"}            comes; the first one opens the meeting NAME
    DELETE /NAME/people/2                              goes, or is shown out; the last one ends the meeting
    POST   /NAME/requests   {"user": 2, "floor": 1}    asks for a floor
    DELETE /NAME/requests/5                            gives it back
    POST   /NAME/decisions  {"request": 5, "verdict": "grant", "reason": "you are next"}
    GET    /NAME                                       who is here, who holds what, and which requests there are
"""
import asyncio
import contextlib
import json
import re
import sys
import floorhub


class Meeting(floorhub.Meeting):
    """A conference, and who was switched on by what floorhub has told of it up to `place`."""
    async def look(self):
        picture = await self.get()
        self.name, self.place, self.on = picture["title"], picture["next"] - 1, {}
        for it in picture["floors"]:
            self.switch(it["floor"], {other["user"] for other in picture["requests"] if other["request"] in it["holders"]})

    def hear(self, event):
        if event.place and event.place > self.place:
            self.place = event.place
            for it in event.floors:
                self.switch(it["floor"], {holder["user"] for holder in it["holders"]})

    def switch(self, floor, users):
        """Switches whoever has got or lost a floor."""
        before, self.on[floor] = self.on.get(floor, set()), users
        for user in sorted(before ^ users):
            print("switch", self.conference, self.place, floor, user, "on" if user in users else "off", flush=True)

    async def clear(self):
        """Ends the requests of whoever was shown out, and the meeting once everybody was."""
        picture = await self.get()
        out = [it["user"] for it in picture["users"] if it["removed"]]
        for request in [it["request"] for it in picture["requests"] if it["user"] in out]:
            with contextlib.suppress(floorhub.errors.Refused):  # It has ended by itself.
                await self.revoke(request)
        if len(out) == len(picture["users"]) - 1 > 0 and picture["phase"] == "open":
            await self.close()


class Bridge:
    async def run(self, path, port):
        self.meetings, self.lock = {}, asyncio.Lock()
        async with floorhub.Control(path) as self.control:
            watching = await self.control.watch()
            for conference in [it["conference"] for it in await self.control.list() if it["phase"] == "open"]:
                await self.follow(conference)
            await asyncio.start_server(self.serve_http, "127.0.0.1", int(port))
            print("ready", flush=True)
            async for event in watching:
                if event.what["event"] == "opened":
                    await self.follow(event.conference)
                elif meeting := self.meetings.get(event.conference):
                    meeting.hear(event)
                if event.what["event"] in ("closed", "forgotten"):
                    self.meetings.pop(event.conference, None)

    async def follow(self, conference):
        await (meeting := Meeting(self.control, conference)).look()
        self.meetings[conference] = meeting
        await meeting.clear()  # What a bridge that was killed had begun.

    async def open(self, name):
        """Opens a meeting, and gives back the memory of those that have ended."""
        for ended in [it["conference"] for it in await self.control.list() if it["phase"] == "ended"]:
            with contextlib.suppress(floorhub.errors.Refused):  # Its connections are about to end.
                await Meeting(self.control, ended).forget()
        floors = [{"title": "Microphone", "chair": 1}, {"title": "Screen"}]
        opened = await self.control.open(title=name, users=[{"name": "Moderators"}], floors=floors)
        while opened.conference not in self.meetings:
            await asyncio.sleep(0.001)  # It is followed as soon as that is told.
        return self.meetings[opened.conference]

    async def answer(self, given, method, name, what, number):
        meeting = next((it for it in self.meetings.values() if it.name == name), None)
        match method, what:
            case "POST", "people":
                meeting = meeting or await self.open(name)
                return {"conference": meeting.conference, "user": await meeting.add_user(given["name"])}
            case "DELETE", "people":
                await meeting.remove(user=int(number))
                await meeting.clear()
            case "POST", "requests":
                return await meeting.ask(given["user"], [given["floor"]])
            case "DELETE", "requests":
                await meeting.release(int(number))
            case "POST", "decisions":
                await meeting.call(f"request.{given['verdict']}", request=given["request"], reason=given.get("reason", ""))
            case "GET", None:
                return {"conference": meeting.conference, **await meeting.get()}

    async def serve_http(self, reader, writer):
        with contextlib.suppress(OSError, asyncio.IncompleteReadError):
            while head := (await reader.readuntil(b"\r\n\r\n")).decode():
                given = await reader.readexactly(int((re.search(r"(?i)\ncontent-length: *(\d+)", head) or "00")[1]))
                try:
                    asked = re.match(r"(\w+) /([\w-]{1,30})(?:/(\w+))?(?:/(\d+))? ", head, re.ASCII)
                    async with self.lock:
                        status, answer = 200, await self.answer(json.loads(given or "{}"), *asked.groups())
                except Exception as fault:  # What is asked wrongly ends nothing.
                    status, answer = 409, {"error": f"{type(fault).__name__} {fault}"}
                told = json.dumps(answer)  # It is ASCII.
                writer.write(f"HTTP/1.1 {status} .\r\nContent-Length: {len(told)}\r\n\r\n{told}".encode())
        writer.close()


asyncio.run(Bridge().run(*sys.argv[1:]))
