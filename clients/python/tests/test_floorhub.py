"""The client over a server: python3 -m unittest, with the path of floorhub in the environment's FLOORHUB."""
import asyncio
import contextlib
import os
import pathlib
import random
import subprocess
import sys
import tempfile
import typing
import unittest

HERE = pathlib.Path(__file__).resolve().parent
sys.path.insert(0, str(HERE.parent))
import floorhub
from floorhub import errors, shapes

SERVER = os.environ.get("FLOORHUB", HERE.parents[2] / "out/quick/floorhub_next")
PORT = int(os.environ.get("FLOORHUB_PORT", 27080))


class Relay:
    """A socket before the server's, whose connections can be cut."""

    async def begin(self, path, to):
        self.to, self.open = to, set()
        self.server = await asyncio.start_unix_server(self.serve, path)
        return self

    def end(self):
        self.server.close()
        self.cut()

    async def serve(self, reader, writer):
        self.open.add(writer)
        with contextlib.suppress(OSError):
            other_reader, other = await asyncio.open_unix_connection(self.to)
            await asyncio.gather(self.pass_on(reader, other), self.pass_on(other_reader, writer))
        self.open.discard(writer)

    async def pass_on(self, reader, writer):
        with contextlib.suppress(OSError):
            while piece := await reader.read(1 << 16):
                writer.write(piece)
        writer.close()

    def cut(self):
        for writer in list(self.open):
            writer.transport.abort()


class ClientTest(unittest.IsolatedAsyncioTestCase):
    async def asyncSetUp(self):
        made = tempfile.TemporaryDirectory(prefix="floorhub-test-")
        self.addCleanup(made.cleanup)
        self.folder = pathlib.Path(made.name)
        (self.folder / "none.toml").write_text("conference = []\n")
        self.path, observe = str(self.folder / "control"), str(self.folder / "observe")
        words = [SERVER, "--control", self.path, "--observe", observe, self.folder / "none.toml"]
        self.server = subprocess.Popen(words, stdin=subprocess.DEVNULL, stdout=subprocess.PIPE)
        self.addCleanup(self.server.stdout.close)
        self.addCleanup(self.server.wait)
        self.addCleanup(self.server.kill)
        self.assertEqual(self.server.stdout.readline(), b"ready\n")
        self.control = await self.enterAsyncContext(floorhub.Control(self.path))
        self.observer = await self.enterAsyncContext(floorhub.Control(observe))

    def has_shape(self, value, shape):
        """That a value of JSON is what its type says, and its keys no others."""
        origin, inner = typing.get_origin(shape), typing.get_args(shape)
        if typing.is_typeddict(shape):
            hints = typing.get_type_hints(shape)
            self.assertEqual(list(value), list(hints), shape)
            for name, of in hints.items():
                self.has_shape(value[name], of)
        elif origin is list:
            for it in value:
                self.has_shape(it, inner[0])
        elif origin is dict:
            for it in value.values():
                self.has_shape(it, inner[1])
        else:
            self.assertIsInstance(value, inner or shape)

    async def test_a_meeting_from_its_opening_to_its_end(self):
        meeting = await self.control.open(title="Board", users=[{"name": "Ann"}, {"name": "Ben", "proxy": True}],
                                          floors=[{"title": "Mic", "chair": 2}, {}], limit=2)
        self.assertEqual((list(meeting.users), list(meeting.floors)), ([1, 2], [1, 2]))
        self.assertEqual((await meeting.add_user("Cid", uri="sip:cid"), await meeting.add_floor("Slides", room=2)), (3, 3))
        self.assertEqual(await meeting.set_chair(3, 2), 3)
        asked = await meeting.ask(1, [1, 3], priority=4, info="Budget")
        self.assertEqual(asked, {"request": 1, "status": "Pending", "position": 0, "place": 4})
        self.assertEqual(await meeting.accept(1, floors=[3]), 5)
        self.assertEqual(await meeting.grant(1, reason="your turn"), 6)
        self.has_shape(asked, shapes.Created)
        await meeting.set_word("note", "a word\nof two lines")
        picture = await meeting.get()
        self.has_shape(picture, shapes.Picture)
        self.assertEqual((picture["next"], picture["title"], picture["floors"][0]["holders"]), (7, "Board", [1]))
        self.assertEqual(picture["requests"][0]["reason"], "your turn")
        self.assertEqual(await meeting.words(), {"note": "a word\nof two lines", "title": "Board", "title.1": "Mic",
                                                 "title.3": "Slides"})
        await meeting.set_word("note", None)
        self.assertNotIn("note", await meeting.words())
        self.assertEqual(await meeting.release(1), 7)
        second = await meeting.ask(3, [2], by=2)
        self.assertEqual(second["status"], "Granted")
        self.assertEqual(await meeting.revoke(second["request"]), 9)
        third = await meeting.ask(3, [1], by=2)
        self.assertEqual(await meeting.deny(third["request"]), 11)
        entries = await meeting.journal(4)
        self.has_shape(entries, list[shapes.Entry])
        self.assertEqual([it["place"] for it in entries], list(range(4, 12)))
        listed = await self.control.list()
        self.has_shape(listed, list[shapes.Conference])
        self.assertEqual([(it["conference"], it["events"]) for it in listed], [(meeting.conference, 11)])
        self.assertEqual(await meeting.close(), 12)
        await meeting.forget()
        self.assertEqual(await self.control.list(), [])
        status = await self.control.status()
        self.has_shape(status, shapes.Server)
        self.assertEqual((status["version"], status["conferences"]), (floorhub.__version__, 0))

    async def test_a_refusal_is_an_exception_by_its_name(self):
        meeting = await self.control.open(id=7, users=[{}, {}], floors=[{"chair": 2}, {}])
        await meeting.ask(1, [1])
        cases = [
            (errors.NoMethod, self.control.call("none"), None),
            (errors.BadParams, meeting.call("user.admit"), {"param": "user", "why": "Missing"}),
            (errors.NoConference, floorhub.Meeting(self.control, 8).get(), {"conference": 8}),
            (errors.Used, self.control.open(id=7), {"conference": 7}),
            (errors.NoUser, meeting.ask(9, [1]), {"user": 9}),
            (errors.Unauthorized, meeting.grant(1, floors=[1], by=1), {"place": 2}),
            (errors.NoFloor, meeting.set_chair(9, None), {"floor": 9}),
            (errors.NoRequest, meeting.revoke(9), {"request": 9}),
            (errors.NoMember, meeting.remove(member=9), {"member": 9}),
            (errors.Running, meeting.forget(), {"conference": 7}),
            (errors.BadPlace, meeting.watch(99), {"place": 99}),
            (errors.Syntax, self.control.open(toml="[["), {"line": 1}),
            (errors.UnknownChair, meeting.add_floor(chair=9), {"floor": 3}),
            (errors.Forbidden, self.observer.drain(), None),
        ]
        for refused, call, data in cases:
            with self.subTest(refused), self.assertRaises(refused) as raised:
                await call
            self.assertEqual(raised.exception.data, data, refused)

    async def test_many_calls_are_answered_each_its_own(self):
        meetings = await asyncio.gather(*[self.control.open(id=it, users=[{}], floors=[{}]) for it in range(1, 101)])
        self.assertEqual([it.conference for it in meetings], list(range(1, 101)))
        places = await asyncio.gather(*[it.add_user(f"N{it.conference}") for it in meetings for _ in range(5)])
        self.assertEqual(places, [2, 3, 4, 5, 6] * 100)

    async def test_what_happens_is_told_before_its_act_is_answered(self):
        meeting = await self.control.open(users=[{}, {}], floors=[{}])
        watching = await meeting.watch()
        created = await meeting.ask(1, [1])
        self.assertEqual(len(watching._told), 1)
        await meeting.ask(2, [1])
        await meeting.release(created["request"])
        first, second, third = [await anext(watching) for _ in range(3)]
        self.assertEqual(first.what, {"event": "message", "member": None, "user": 1, "primitive": "FloorRequest",
                                      "request": 1})
        self.has_shape(first.requests, list[shapes.Request])
        self.has_shape(first.floors, list[shapes.Holders])
        self.assertEqual((second.place, second.floors), (2, []))
        self.assertEqual(third.floors, [{"floor": 1, "holders": [{"request": 2, "user": 2}]}])
        await watching.end()
        await meeting.set_word("note", "unheard")
        self.assertFalse(watching._told)

    async def test_an_observer_is_told_no_word(self):
        meeting = await self.control.open(title="Board", users=[{}], floors=[{}])
        watching = await floorhub.Meeting(self.observer, meeting.conference).watch()
        await meeting.set_word("token.1", "secret")
        await meeting.add_user()
        self.assertEqual((await anext(watching)).what["event"], "user")
        picture = await floorhub.Meeting(self.observer, meeting.conference).get()
        self.assertEqual((picture["title"], picture["words"]), ("Board", {}))

    async def test_the_65th_client_is_refused(self):
        async with contextlib.AsyncExitStack() as stack:
            for _ in range(63):
                await (await stack.enter_async_context(floorhub.Control(self.path))).call("help")
            reader, writer = await asyncio.open_unix_connection(self.path)
            self.assertIn(b'"message":"Full"', await reader.read())
            writer.close()
            # Its error may be lost where it writes into a connection that the server has ended by then.
            with self.assertRaises((errors.Full, errors.Gone)):
                await (await stack.enter_async_context(floorhub.Control(self.path))).call("help")

    async def test_who_is_cut_off_200_times_misses_nothing(self):
        relay, chance = await Relay().begin(str(self.folder / "relay"), self.path), random.Random(8855)
        self.addCleanup(relay.end)
        meeting = await self.control.open(users=[{}], floors=[{}])
        behind = await self.enterAsyncContext(floorhub.Control(str(self.folder / "relay")))
        watching, heard, over = await floorhub.Meeting(behind, meeting.conference).watch(), [], asyncio.Event()

        async def act():
            while not over.is_set():
                await meeting.release((await meeting.ask(1, [1]))["request"])
                await asyncio.sleep(0)

        async def listen():
            async for event in watching:
                heard.append(event.place)

        acting, listening = asyncio.create_task(act()), asyncio.create_task(listen())
        for _ in range(200):
            await asyncio.sleep(0.02 * chance.random())
            relay.cut()
        over.set()
        await acting
        last = (await meeting.get())["next"] - 1
        async with asyncio.timeout(20):
            while not heard or heard[-1] < last:
                await asyncio.sleep(0.01)
        listening.cancel()
        self.assertEqual(heard, list(range(1, last + 1)))

    async def test_who_watches_all_goes_on_with_what_was_opened_and_forgotten_meanwhile(self):
        relay = await Relay().begin(str(self.folder / "relay"), self.path)
        quiet, gone = [await self.control.open(id=it, users=[{}], floors=[{}]) for it in (1, 2)]
        await quiet.add_user()
        behind = await self.enterAsyncContext(floorhub.Control(str(self.folder / "relay")))
        watching = await behind.watch()
        await gone.close()
        event = await anext(watching)
        self.assertEqual((event.conference, event.what), (2, {"event": "closed"}))
        relay.end()
        listening = asyncio.create_task(anext(watching))
        await asyncio.sleep(0.1)
        await gone.forget()
        new = await self.control.open(id=3, users=[{}], floors=[{}])
        await new.add_user()
        await quiet.add_user()
        (self.folder / "relay").unlink(missing_ok=True)
        self.addCleanup((await Relay().begin(str(self.folder / "relay"), self.path)).end)
        async with asyncio.timeout(20):
            told = [await listening] + [await anext(watching) for _ in range(3)]
        shown = sorted((it.conference, it.place or 0, it.what["event"]) for it in told)
        self.assertEqual(shown, [(1, 2, "user"), (2, 0, "forgotten"), (3, 0, "opened"), (3, 1, "user")])
        with self.assertRaises(errors.Watching):
            await floorhub.Meeting(behind, 1).watch()

    async def test_what_is_under_way_where_the_connection_ends_is_gone(self):
        relay = await Relay().begin(str(self.folder / "relay"), self.path)
        self.addCleanup(relay.end)
        control = await self.enterAsyncContext(floorhub.Control(str(self.folder / "relay")))
        await control.status()
        asked = asyncio.create_task(control.open(toml="#" * 900_000))
        await asyncio.sleep(0)
        relay.cut()
        with self.assertRaises(errors.Gone):
            await asked
        self.assertEqual((await control.status())["conferences"], 0)

    async def test_a_server_that_is_stopped_ends(self):
        await (await self.control.open(users=[{}], floors=[{}])).add_user()
        self.assertEqual(await self.control.stop(), {"seats": 0, "events": 1})
        self.assertEqual(await asyncio.to_thread(self.server.wait, 20), 0)
        with self.assertRaises(OSError):
            await self.control.status()


if __name__ == "__main__":
    unittest.main()
