// The client over a server: node --test, with the path of floorhub in the environment's FLOORHUB.
import assert from 'node:assert/strict'
import { spawn } from 'node:child_process'
import { once } from 'node:events'
import { mkdtemp, rm, writeFile } from 'node:fs/promises'
import net from 'node:net'
import { tmpdir } from 'node:os'
import { join } from 'node:path'
import { after, before, test } from 'node:test'
import { setTimeout as pause } from 'node:timers/promises'
import { fileURLToPath } from 'node:url'
import { Control, Gone, Meeting, Refused } from './floorhub.js'

const SERVER = process.env.FLOORHUB ?? fileURLToPath(new URL('../../out/quick/floorhub_next', import.meta.url))
let folder, path, server, control

/** A socket before the server's, whose connections can be cut. */
class Relay {
  #open = new Set()
  async begin(path, to) {
    this.server = net.createServer((socket) => {
      const other = net.createConnection(to)
      for (const it of [socket, other]) {
        this.#open.add(it)
        it.on('error', () => {}).on('close', () => this.cut([socket, other]))
      }
      socket.pipe(other).pipe(socket)
    })
    this.server.listen(path)
    await once(this.server, 'listening')
    return this
  }
  cut(sockets = [...this.#open]) {
    for (const it of sockets) {
      this.#open.delete(it)
      it.destroy()
    }
  }
}

before(async () => {
  folder = await mkdtemp(join(tmpdir(), 'floorhub-test-'))
  await writeFile(join(folder, 'none.toml'), 'conference = []\n')
  path = join(folder, 'control')
  const words = ['--control', path, '--observe', join(folder, 'observe'), join(folder, 'none.toml')]
  server = spawn(SERVER, words, { stdio: ['ignore', 'pipe', 'inherit'] })
  await once(server.stdout, 'data')
  control = await new Control(path).connect()
})

after(async () => {
  await control.close()
  server.kill('SIGKILL')
  await rm(folder, { recursive: true })
})

test('a meeting from its opening to its end', async () => {
  const meeting = await control.open({
    title: 'Board', users: [{ name: 'Ann' }, { name: 'Ben', proxy: true }], floors: [{ title: 'Mic', chair: 2 }, {}]
  })
  assert.deepEqual([meeting.users, meeting.floors], [[1, 2], [1, 2]])
  assert.deepEqual([await meeting.addUser({ name: 'Cid' }), await meeting.addFloor({ title: 'Slides' })], [3, 3])
  assert.equal(await meeting.setChair(3, 2), 3)
  const asked = await meeting.ask(1, [1, 3], { priority: 4, info: 'Budget' })
  assert.deepEqual(asked, { request: 1, status: 'Pending', position: 0, place: 4 })
  assert.equal(await meeting.accept(1, { floors: [3] }), 5)
  assert.equal(await meeting.grant(1, { reason: 'your turn' }), 6)
  await meeting.setWord('note', 'a line\u2028and more')
  const picture = await meeting.get()
  assert.deepEqual([picture.next, picture.title, picture.floors[0].holders], [7, 'Board', [1]])
  assert.equal((await meeting.words()).note, 'a line\u2028and more')
  assert.equal(await meeting.release(1), 7)
  const second = await meeting.ask(3, [2], { by: 2 })
  assert.equal(await meeting.revoke(second.request), 9)
  assert.equal(await meeting.deny((await meeting.ask(3, [1], { by: 2 })).request), 11)
  assert.deepEqual((await meeting.journal(10)).map((it) => it.place), [10, 11])
  assert.equal(await meeting.close(), 12)
  await meeting.forget()
  assert.deepEqual(await control.list(), [])
  assert.equal((await control.status()).conferences, 0)
})

test('what is refused has its name, its number and what it is about', async () => {
  const meeting = await control.open({ id: 7, users: [{}, {}], floors: [{ chair: 2 }] })
  const cases = [
    [control.call('none'), 'Method not found', -32601, null],
    [meeting.call('user.admit'), 'Invalid params', -32602, { param: 'user', why: 'Missing' }],
    [new Meeting(control, 8).get(), 'NoConference', 1, { conference: 8 }],
    [control.open({ id: 7 }), 'Used', 11, { conference: 7 }],
    [meeting.ask(9, [1]), 'NoUser', 13, { user: 9 }],
    [control.open({ toml: '[[' }), 'Syntax', 29, { line: 1 }]
  ]
  for (const [call, name, code, data] of cases) {
    await assert.rejects(call, (fault) => {
      assert.ok(fault instanceof Refused)
      assert.deepEqual([fault.name, fault.code, fault.data], [name, code, data])
      return true
    })
  }
  await meeting.close()
  await meeting.forget()
})

test('who is cut off 200 times misses nothing', async () => {
  const relay = await new Relay().begin(join(folder, 'relay'), path)
  const meeting = await control.open({ users: [{}], floors: [{}] })
  const behind = await new Control(join(folder, 'relay')).connect()
  const watching = await new Meeting(behind, meeting.conference).watch()
  const heard = []
  let over = false, last = Infinity
  const acting = (async () => {
    while (!over) await meeting.release((await meeting.ask(1, [1])).request)
  })()
  const listening = (async () => {
    for await (const event of watching) if (heard.push(event.place) && event.place >= last) return
  })()
  for (let k = 0; k < 200; k++) {
    await pause(20 * Math.random())
    relay.cut()
  }
  over = true
  await acting
  last = (await meeting.get()).next
  await meeting.addUser()
  await listening
  assert.deepEqual(heard, heard.map((_, k) => k + 1))
  assert.equal(heard.length, last)
  await behind.close()
  relay.server.close()
  await meeting.close()
  await meeting.forget()
})

test('who watches all goes on with what was opened and forgotten meanwhile', async () => {
  let relay = await new Relay().begin(join(folder, 'relay'), path)
  const [quiet, gone] = [await control.open({ id: 11 }), await control.open({ id: 12 })]
  const behind = await new Control(join(folder, 'relay')).connect()
  const watching = (await behind.watch())[Symbol.asyncIterator]()
  await gone.close()
  assert.deepEqual((await watching.next()).value.what, { event: 'closed' })
  relay.server.close()
  relay.cut()
  const listening = watching.next()
  await pause(100)
  await gone.forget()
  await (await control.open({ id: 13 })).addUser()
  await quiet.addUser()
  relay = await new Relay().begin(join(folder, 'relay'), path)
  const told = [await listening, await watching.next(), await watching.next(), await watching.next()]
  const shown = told.map(({ value: it }) => [it.conference, it.place, it.what.event].join(' '))
  assert.deepEqual(shown.sort(), ['11 1 user', '12  forgotten', '13  opened', '13 1 user'])
  const under = behind.open({ toml: '#'.repeat(900_000) })
  relay.cut()
  await assert.rejects(under, Gone)
  relay.server.close()
})

test('a server that is stopped ends', async () => {
  const { events } = await control.stop()
  assert.ok(events > 0)
  assert.deepEqual(await once(server, 'exit'), [0, null])
  await assert.rejects(control.status())
})
