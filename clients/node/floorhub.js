// Meetings of floorhub, a floor control server (BFCP, RFC 8855), by its control socket's JSON-RPC.
//
//     const control = await new Control('/run/floorhub/control').connect()
//     const meeting = await control.open({ title: 'Board', users: [{ name: 'Ann' }], floors: [{ title: 'Mic' }] })
//     const watching = await meeting.watch()
//     await meeting.ask(1, [1])
//     for await (const event of watching) console.log(event.what.event, event.floors)
//
// What the server refuses rejects with a Refused, by its name and its number. Where a connection ends, what was under way
// rejects with Gone, the next call connects again, and what is watched goes on from the place where it was.
import { once } from 'node:events'
import net from 'node:net'
import { setImmediate as others, setTimeout as pause } from 'node:timers/promises'

// How long a server that is gone is let be, in milliseconds.
const PAUSE = 200

/** The server's refusal: its name, its number, and what it is about. */
export class Refused extends Error {
  constructor({ code, message, data }) {
    super(data === null ? message : `${message} ${JSON.stringify(data)}`)
    Object.assign(this, { name: message, code, data })
  }
}

/** The connection has ended before the answer: whether the request was carried out isn't known. */
export class Gone extends Error {
  name = 'Gone'
}

/** A client of the control socket, or of the one that looks alone: one connection, any number of calls at once. */
export class Control {
  #path
  #socket
  #reading
  #asked = new Map()
  #last = 0
  watching = []

  constructor(path) {
    this.#path = path
  }

  async connect() {
    this.#socket ??= this.#open()
    await this.#socket
    return this
  }

  async #open() {
    const socket = net.createConnection(this.#path)
    try {
      await once(socket, 'connect')
    } catch (fault) {
      this.#socket = undefined
      throw fault
    }
    this.#reading = this.#read(socket)
    return socket
  }

  async #read(socket) {
    let fault = new Gone(`${this.#path}: the connection has ended`)
    try {
      for await (const line of linesOf(socket)) {
        const { id, method, params, result, error } = JSON.parse(line)
        if (method) {
          for (const it of this.watching) if ([undefined, params.conference].includes(it.conference)) it.put(params)
        } else if (id === null) {
          fault = new Refused(error) // The server is full, or a line was too long: it ends the connection.
        } else {
          const { resolve, reject } = this.#asked.get(id)
          this.#asked.delete(id)
          error ? reject(new Refused(error)) : resolve(result)
          await others() // Whoever awaits it goes on before what stands behind it is told.
        }
      }
    } catch {}
    socket.destroy()
    this.#socket = undefined
    for (const { reject } of this.#asked.values()) reject(fault)
    this.#asked.clear()
    for (const it of this.watching) it.put(null)
  }

  /** What the server answers. What is `undefined` isn't given. */
  async call(method, params = {}) {
    await this.connect()
    const socket = await this.#socket
    const id = ++this.#last
    return new Promise((resolve, reject) => {
      this.#asked.set(id, { resolve, reject })
      socket.write(JSON.stringify({ id, method, params }) + '\n')
    })
  }

  /** Ends the connection, and what is watched by it. */
  async close() {
    this.watching = []
    const socket = await this.#socket
    socket?.end()
    await this.#reading
  }

  /** Opens a conference: of `{ toml }`, the text of its configuration, or of its parts, as a configuration has them. */
  async open(parts = {}) {
    const given = parts.toml === undefined ? { users: [], floors: [], ...parts } : parts
    const { conference, users, floors } = await this.call('conference.open', given)
    return new Meeting(this, conference, users, floors)
  }

  /** All conferences that weren't forgotten, ascending. */
  async list() {
    let part = await this.call('conference.list')
    const found = part.conferences
    while (part.more) {
      part = await this.call('conference.list', { after: found.at(-1).conference })
      found.push(...part.conferences)
    }
    return found
  }

  /** Watches all conferences, also those that are opened later. Whoever begins so takes a picture of each that is there,
   * and passes over what stands before its `next`. */
  watch = () => new Watching(this).begin()
  status = () => this.call('server.status')
  /** No conference is opened any more. */
  drain = async () => void (await this.call('server.drain'))
  stop = () => this.call('server.stop')
}

async function* linesOf(socket) {
  let held = ''
  for await (const piece of socket.setEncoding('utf8')) {
    const lines = (held + piece).split('\n')
    held = lines.pop()
    yield* lines
  }
}

/** A conference. A call that acts gives the place of its event: what happened up to there was told before. */
export class Meeting {
  constructor(control, conference, users = [], floors = []) {
    Object.assign(this, { control, conference, users, floors })
  }

  call = (method, params = {}) => this.control.call(method, { conference: this.conference, ...params })
  get = () => this.call('conference.get')
  close = async () => (await this.call('conference.close')).place
  /** Gives back the memory of a conference that was closed, but for its number. */
  forget = async () => void (await this.call('conference.forget'))
  /** The number of the user: of a `name`, `id`, `uri`, `proxy`, `port`, as far as they are to be said. */
  addUser = async (user = {}) => (await this.call('user.add', user)).user
  /** The number of the floor: of a `title`, `id`, `room`, `chair`. */
  addFloor = async (floor = {}) => (await this.call('floor.add', floor)).floor
  setChair = async (floor, chair) => (await this.call('floor.chair', { floor, chair })).place
  /** Shows `{ member }` out, or `{ user }`, who isn't let in again before `admit`. */
  remove = async (whom) => (await this.call('member.remove', whom)).place
  admit = async (user) => void (await this.call('user.admit', { user }))
  /** Asks for floors for a user. `how` has a `priority`, an `info`, or who asks, `by`, as far as they are to be said. */
  ask = (user, floors, how = {}) => this.call('request.create', { for: user, floors, ...how })
  release = async (request, how = {}) => (await this.call('request.release', { request, ...how })).place
  /** Has it wait in its queues. `how` has, here and below, the `floors` of which it is decided, a `reason`, or the chair,
   * `by`, as far as they are to be said. */
  accept = async (request, how = {}) => (await this.call('request.accept', { request, ...how })).place
  /** Grants it, before whoever waits. */
  grant = async (request, how = {}) => (await this.call('request.grant', { request, ...how })).place
  deny = async (request, how = {}) => (await this.call('request.deny', { request, ...how })).place
  /** Takes the floors away, as the administrator. */
  revoke = async (request) => (await this.call('request.revoke', { request })).place
  words = async () => (await this.call('word.get')).words
  /** Keeps a word beside the conference; `null` takes it away. */
  setWord = async (key, text) => void (await this.call('word.set', { key, text }))

  /** What has happened from a place on, all of it. */
  async journal(from = 1) {
    let part = await this.call('journal', { from })
    const entries = part.entries
    while (part.entries.length) {
      part = await this.call('journal', { from: part.next })
      entries.push(...part.entries)
    }
    return entries
  }

  /** Watches the conference from a place on, or from the next one. */
  watch = (from) => new Watching(this.control, this.conference).begin(from)
}

/** What happens, in order: `for await (const event of watching)`. A client watches all conferences or some, not both. */
export class Watching {
  #next = new Map()
  #told = []
  #wake = () => {}

  constructor(control, conference) {
    Object.assign(this, { control, conference })
  }

  async begin(from) {
    const { control, conference } = this
    const there = control.watching.map((it) => it.conference)
    if (there.length && [undefined, ...there].includes(conference) || there.includes(undefined)) {
      throw new Refused({ code: 21, message: 'Watching', data: { conference: conference ?? null } })
    }
    control.watching.push(this)
    try {
      if (conference !== undefined) await this.#watch([{ conference, from }])
      else {
        await control.call('watch', { all: true })
        for (const { conference, events } of await control.list()) {
          if (!this.#told.some((it) => it?.conference === conference)) this.#next.set(conference, events + 1)
        }
      }
    } catch (fault) {
      control.watching = control.watching.filter((it) => it !== this)
      throw fault
    }
    return this
  }

  async #watch(conferences) {
    for (const { conference, next } of (await this.control.call('watch', { conferences })).next) {
      this.#next.set(conference, next)
    }
  }

  put(event) {
    this.#told.push(event)
    this.#wake()
  }

  /** Watches no more. */
  async end() {
    const { control, conference } = this
    control.watching = control.watching.filter((it) => it !== this)
    await control.call('unwatch', conference === undefined ? { all: true } : { conferences: [{ conference }] })
  }

  async *[Symbol.asyncIterator]() {
    for (;;) {
      while (!this.#told.length) await new Promise((resolve) => (this.#wake = resolve))
      const event = this.#told.shift()
      if (event === null) {
        await this.#goOn()
        continue
      }
      if (event.what.event === 'forgotten') this.#next.delete(event.conference)
      else if (event.place || event.what.event === 'opened') this.#next.set(event.conference, (event.place ?? 0) + 1)
      yield { place: null, time: null, requests: [], cut: [], floors: [], ...event }
    }
  }

  /** Watches by another connection, once the server is there. */
  async #goOn() {
    for (;; await pause(PAUSE)) {
      this.#told = []
      try {
        if (this.conference === undefined) return await this.#goOnWithAll()
        return await this.#watch([{ conference: this.conference, from: this.#next.get(this.conference) }])
      } catch (fault) {
        if (fault instanceof Refused) throw fault
      }
    }
  }

  async #goOnWithAll() {
    await this.control.call('watch', { all: true })
    const there = new Set((await this.control.list()).map((it) => it.conference))
    const opened = [...there].filter((it) => !this.#next.has(it))
    const forgotten = [...this.#next.keys()].filter((it) => !there.has(it))
    await this.#watch([...there].map((conference) => ({ conference, from: this.#next.get(conference) ?? 1 })))
    // What was told since of those that are there is told once more, behind this.
    this.#told = [
      ...forgotten.map((conference) => ({ conference, what: { event: 'forgotten' } })),
      ...opened.map((conference) => ({ conference, what: { event: 'opened' } })),
      ...this.#told.filter((it) => !it?.place || !there.has(it.conference))
    ]
  }
}
