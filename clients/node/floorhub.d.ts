// What the server answers stands in JSON. Times are RFC 3339; what isn't there is null.

export interface Conference {
  conference: number
  title: string | null
  phase: 'open' | 'ended' | 'broken'
  members: number
  ongoing: number
  events: number
  kept: boolean
}

export interface Member {
  member: number
  behind: number
  cut: boolean
  away: number | null
}

export interface User {
  user: number
  name: string | null
  uri: string | null
  proxy: boolean
  port: number | null
  removed: boolean
  members: Member[]
}

export interface Floor {
  floor: number
  title: string | null
  room: number
  chair: number | null
  holders: number[]
  waiting: number[]
  pending: number[]
}

export type Status = 'Pending' | 'Accepted' | 'Granted' | 'Denied' | 'Cancelled' | 'Released' | 'Revoked'

export interface Request {
  request: number
  user: number
  by: number | null
  floors: { floor: number; status: Status }[]
  status: Status
  position: number
  priority: number | null
  info: string | null
  reason: string | null
  since: string | null
  granted: string | null
}

export interface Picture {
  next: number
  phase: 'open' | 'ended' | 'broken'
  members: number
  ongoing: number
  title: string | null
  limit: number
  connections: number
  kept: boolean
  users: User[]
  floors: Floor[]
  requests: Request[]
  words: Record<string, string>
}

export interface Event {
  conference: number
  place: number | null
  time: string | null
  what: { event: string; [name: string]: unknown }
  requests: Request[]
  cut: { member: number; user: number }[]
  floors: { floor: number; holders: { request: number; user: number }[] }[]
}

export interface NewUser {
  id?: number
  name?: string
  uri?: string
  proxy?: boolean
  port?: number
}

export interface NewFloor {
  id?: number
  room?: number
  chair?: number
  title?: string
}

export interface Parts {
  id?: number
  title?: string
  limit?: number
  connections?: number
  users?: NewUser[]
  floors?: NewFloor[]
}

export interface Decision {
  floors?: number[]
  reason?: string
  by?: number
}

export class Refused extends Error {
  code: number
  data: Record<string, unknown> | null
}

export class Gone extends Error {}

export class Control {
  constructor(path: string)
  connect(): Promise<this>
  close(): Promise<void>
  call(method: string, params?: object): Promise<any>
  open(parts?: Parts | { toml: string }): Promise<Meeting>
  list(): Promise<Conference[]>
  watch(): Promise<Watching>
  status(): Promise<{
    version: string; since: string; conferences: number; connections: number; memory: number; draining: boolean
  }>
  drain(): Promise<void>
  stop(): Promise<{ seats: number; events: number }>
}

export class Meeting {
  constructor(control: Control, conference: number)
  conference: number
  users: number[]
  floors: number[]
  call(method: string, params?: object): Promise<any>
  get(): Promise<Picture>
  close(): Promise<number>
  forget(): Promise<void>
  addUser(user?: NewUser): Promise<number>
  addFloor(floor?: NewFloor): Promise<number>
  setChair(floor: number, chair: number | null): Promise<number>
  remove(whom: { member: number } | { user: number }): Promise<number>
  admit(user: number): Promise<void>
  ask(user: number, floors: number[], how?: { priority?: number; info?: string; by?: number }): Promise<{
    request: number; status: Status; position: number; place: number
  }>
  release(request: number, how?: { by?: number }): Promise<number>
  accept(request: number, how?: Decision): Promise<number>
  grant(request: number, how?: Decision): Promise<number>
  deny(request: number, how?: Decision): Promise<number>
  revoke(request: number): Promise<number>
  words(): Promise<Record<string, string>>
  setWord(key: string, text: string | null): Promise<void>
  journal(from?: number): Promise<{ place: number; time: string | null; line: string }[]>
  watch(from?: number): Promise<Watching>
}

export class Watching implements AsyncIterable<Event> {
  [Symbol.asyncIterator](): AsyncIterator<Event>
  end(): Promise<void>
}
