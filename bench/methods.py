#!/usr/bin/env python3
"""Requests that are made from docs/openrpc.json: ./methods.py FLOORHUB [COUNT [SEED]]

Starts a floorhub with a control socket and one that looks alone, and sends so many requests (100,000), each with one thing
wrong: no JSON, no request, another method, a parameter too few or too many, of another type or out of its range, or one that
what is there refuses. Each has to be answered, in its turn, under its own id, by the error that the page calls for, and
about what is wrong. Beside them stand a tenth as many with nothing wrong: their answers, and what is told to a client that
watches all, have to have the shapes of the page, with their members in its order, and a refusal has to be one that
the page has for the method. Between them another client's requests are answered. Status 1 where anything is otherwise.
"""
import collections
import json
import os
import pathlib
import random
import socket
import sys
import tempfile
import time

from server import Server

PAGE = json.loads((pathlib.Path(__file__).resolve().parent.parent / 'docs/openrpc.json').read_text())
METHODS = {method['name']: method for method in PAGE['methods']}
CODES = {error['message']: error['code'] for error in PAGE['components']['errors'].values()}
DEADLINE, AT_ONCE = 60, 50
OPEN, CLOSED, FORGOTTEN, NONE = 1, 2, 3, 99
# What those that can't be sent beside others are left out of: they end what the others are about.
ENDING = {'server.stop', 'server.drain'}
CHANGING = {name for name, method in METHODS.items() if 'tags' not in method}


class Failed(Exception):
    """What was otherwise."""


class Client:
    """A client of a socket: lines out, answers in, and what is told between them."""

    def __init__(self, path):
        self.socket = socket.socket(socket.AF_UNIX)
        self.socket.settimeout(DEADLINE)
        self.socket.connect(path)
        self.heard, self.told = self.socket.makefile('rb'), []

    def answer(self):
        while True:
            line = self.heard.readline()
            if not line.endswith(b'\n'):
                raise Failed('the connection has ended')
            value = json.loads(line)
            if 'method' not in value:
                return value
            self.told.append(value)

    def close(self):
        self.heard.close()
        self.socket.close()

    def ask(self, method, params=None):
        self.socket.sendall(json.dumps({'id': 'asked', 'method': method, 'params': params or {}}).encode() + b'\n')
        return self.answer()

    def done(self, method, params=None):
        answer = self.ask(method, params)
        if 'error' in answer:
            raise Failed('%s %s is answered by %s' % (method, params, answer['error']))
        return answer['result']


def schema_of(schema):
    while '$ref' in schema:
        schema = PAGE['components']['schemas'][schema['$ref'].rpartition('/')[2]]
    return schema


def fits(value, schema):
    """Whether a value is what a schema says, its members in the schema's order."""
    schema = schema_of(schema)
    if 'oneOf' in schema:
        return any(fits(value, one) for one in schema['oneOf'])
    if 'const' in schema:
        return value == schema['const']
    kinds = schema['type'] if isinstance(schema['type'], list) else [schema['type']]
    if value is None:
        return 'null' in kinds
    if isinstance(value, bool):
        return 'boolean' in kinds
    if isinstance(value, int):
        return 'integer' in kinds and schema.get('minimum', value) <= value <= schema.get('maximum', value)
    if isinstance(value, str):
        return 'string' in kinds
    if isinstance(value, list):
        return 'array' in kinds and all(fits(it, schema['items']) for it in value)
    if 'object' not in kinds:
        return False
    if 'properties' not in schema:
        return all(fits(it, schema['additionalProperties']) for it in value.values())
    return list(value) == list(schema['properties']) and all(
        fits(it, schema['properties'][name]) for name, it in value.items())


class Maker:
    """Makes requests: what stands in the open conference is known, and no request that is refused changes it."""

    def __init__(self, seed):
        self.chance = random.Random(seed)

    def text(self):
        return ''.join(self.chance.choice('ab\u00fc\u2028"\\\n\0 ') for _ in range(self.chance.randrange(12)))

    def value(self, name, schema):
        """A value of a parameter that can be had."""
        schema = schema_of(schema)
        if 'oneOf' in schema:
            return self.value(name, self.chance.choice(schema['oneOf']))
        known = {'conference': OPEN, 'user': 10, 'for': 10, 'by': 11, 'floor': 2, 'chair': 12, 'request': 1, 'from': 1}
        if name in known and schema['type'] == 'integer':
            return known[name]
        return {
            'integer': lambda: self.chance.choice([0, 1, schema['maximum'], self.chance.randrange(schema['maximum'] + 1)]),
            'boolean': lambda: self.chance.random() < 0.5, 'string': self.text, 'null': lambda: None,
            'array': lambda: [2] if name == 'floors' and 'type' in schema['items'] else [
                self.value('', schema['items']) for _ in range(self.chance.randrange(1, 3))],
            'object': lambda: {it: self.value(it, of) for it, of in schema['properties'].items()
                               if it in schema['required'] or it != 'port' and self.chance.random() < 0.5},
        }[schema['type']]()

    def params(self, name):
        """Parameters of a method that can be had: of those that exclude each other one set. No port of the machine's is."""
        params = {it['name']: self.value(it['name'], it['schema']) for it in METHODS[name]['params']
                  if it['required'] or it['name'] != 'port' and self.chance.random() < 0.5}
        if name == 'conference.open':
            params.pop('toml', None)
            params = {'toml': self.text()} if self.chance.random() < 0.1 else {**params, 'users': [], 'floors': [], **{
                it: self.value(it, next(of['schema'] for of in METHODS[name]['params'] if of['name'] == it))
                for it in ('users', 'floors')}}
        if name == 'conference.list' and 'conference' in params:
            params.pop('after', None)
        if name == 'member.remove':
            params.pop('member', None)
            params['user'] = 10
        return params

    def wrong_value(self, name, schema):
        """A value that can't be had, of which parameter that is, and why."""
        schema, chance = schema_of(schema), self.chance
        if 'oneOf' in schema:
            while (made := self.wrong_value(name, schema['oneOf'][0]))[0] is None:
                pass
            return made
        kind = schema['type']
        if kind == 'array' and chance.random() < 0.7:
            value, of, why = self.wrong_value(name, schema['items'])
            return [self.value('', schema['items']) for _ in range(chance.randrange(3))] + [value], of, why
        if kind == 'object' and chance.random() < 0.9:
            value = {it: self.value(it, of) for it, of in schema['properties'].items()}
            one = chance.choice(list(value))
            if one in schema['required'] and chance.random() < 0.3:
                del value[one]
                return value, one, 'Missing'
            if chance.random() < 0.2:
                return {**value, 'nothing': 1}, 'nothing', 'Unknown'
            value[one], of, why = self.wrong_value(one, schema['properties'][one])
            return value, of, why
        if kind == 'integer' and chance.random() < 0.5:
            most = schema['maximum']
            return chance.choice([most + 1, most * 10 + 9, -1, -most, 0.5, 1e300, 10 ** 30]), name, 'OutOfRange'
        others = {'integer': '1', 'boolean': True, 'string': 'x', 'null': None, 'array': [], 'object': {}}
        if kind == 'integer':
            others['string'] = '1'
        others['integer'] = 1
        others.pop(kind)
        return chance.choice(list(others.values())), name, 'WrongType'

    def wrong(self):
        """A line with one thing wrong, and what has to answer it: the id, the code and the data; none where nothing may."""
        number = self.chance.choice([0, 7, -1, 'a', '\u00fc"', None, 10 ** 40, 'x' * 60])
        make = self.chance.choice([self.no_json, self.no_request, self.no_method, *[self.bad_params] * 6, *[self.refused] * 4])
        return make(number)

    def line(self, number, method, params, **more):
        request = {'jsonrpc': '2.0', 'id': number, 'method': method, 'params': params, **more}
        names = list(request)
        self.chance.shuffle(names)
        return json.dumps({name: request[name] for name in names}, ensure_ascii=self.chance.random() < 0.5).encode()

    def whole(self, number):
        name = self.chance.choice(list(METHODS))
        return name, self.line(number, name, self.params(name))

    def no_json(self, number):
        line = self.whole(number)[1]
        at = self.chance.randrange(len(line))
        cut = self.chance.choice([
            lambda: line[:at], lambda: line[:-1] + b',}', lambda: line + b'}', lambda: b'\xff' + line,
            lambda: line.replace(b'"', b"'"), lambda: b'{' + line, lambda: line[:-1] + b'\x01}', lambda: b'nothing'])()
        return cut or b'x', None, CODES['Parse error'], None

    def no_request(self, number):
        name, params = 'help', {}
        code, line = CODES['Invalid Request'], self.line
        made = [
            (None, b'[%s]' % line(number, name, params)), (None, b'1'), (None, b'"x"'), (None, b'null'), (None, b'[]'),
            (None, line(number, name, params)[:-1] + b',"id":1}'), (None, line({}, name, params)), (None, line(True, name, params)),
            (None, line('x' * 65, name, params)), (None, line(10 ** 64, name, params)), (number, line(number, 1, params)),
            (number, line(number, None, params)), (number, line(number, name, params, jsonrpc='1.0')),
            (number, line(number, name, params, jsonrpc=2)), (number, line(number, name, params, more=1)),
            (number, json.dumps({'id': number, 'params': {}}).encode())]
        id_, text = self.chance.choice(made)
        return text, id_, code, None

    def no_method(self, number):
        name = self.chance.choice(['', 'Help', 'help ', 'conference', 'conference.open.', 'user.remove', self.text() + '.'])
        return self.line(number, name, self.chance.choice([{}, [], {'a': 1}])), number, CODES['Method not found'], None

    def bad_params(self, number):
        name, code = self.chance.choice(list(METHODS)), CODES['Invalid params']
        params, of = self.params(name), METHODS[name]['params']
        kind = self.chance.randrange(4)
        if kind == 0:
            given = self.chance.choice([[1], [{}], 'x', 1, None, True])
            return self.line(number, name, given), number, code, {'param': None, 'why': 'Unnamed'}
        if kind == 1:
            return self.line(number, name, {**params, 'nothing': 1}), number, code, {'param': 'nothing', 'why': 'Unknown'}
        if kind == 2:
            needed = [it['name'] for it in of if it['required']]
            if not needed:
                return self.wrong()
            missing = self.chance.choice(needed)
            params.pop(missing, None)
            return self.line(number, name, params), number, code, {'param': missing, 'why': 'Missing'}
        there = [it for it in of if it['name'] in params]
        if not there:
            return self.wrong()
        it = self.chance.choice(there)
        params[it['name']], param, why = self.wrong_value(it['name'], it['schema'])
        return self.line(number, name, params), number, code, {'param': param, 'why': why}

    def refused(self, number):
        """What the state refuses: a conference that isn't there, or has ended, and what it lacks."""
        name = self.chance.choice([it for it in METHODS if any(
            of['name'] == 'conference' for of in METHODS[it]['params'])])
        if self.chance.random() < 0.4:
            params = {**self.params(name), 'conference': NONE}
            params.pop('after', None)
            return self.line(number, name, params), number, CODES['NoConference'], {'conference': NONE}
        if name in CHANGING - {'word.set', 'conference.forget', 'word.get'} and self.chance.random() < 0.4:
            params = {**self.params(name), 'conference': CLOSED}
            return self.line(number, name, params), number, CODES['Ended'], {'conference': CLOSED}
        if self.chance.random() < 0.3:
            params = {**self.params(name), 'conference': FORGOTTEN}
            params.pop('after', None)
            is_act = name in CHANGING - {'word.set', 'word.get', 'conference.forget'}
            wanted = CODES['Ended' if is_act else 'Forgotten']
            return self.line(number, name, params), number, wanted, {'conference': FORGOTTEN}
        method, params, error, data = self.chance.choice([
            ('conference.open', {'id': OPEN, 'users': [], 'floors': []}, 'Used', {'conference': OPEN}),
            ('conference.open', {'id': CLOSED, 'users': [], 'floors': []}, 'Used', {'conference': CLOSED}),
            ('conference.open', {'id': FORGOTTEN, 'users': [], 'floors': []}, 'Used', {'conference': FORGOTTEN}),
            ('conference.open', {'id': 50, 'users': [{'id': 1}, {'id': 1}], 'floors': []}, 'DoubleUser', {'conference': 50}),
            ('conference.open', {'id': 50, 'users': [], 'floors': [{'id': 1}, {'id': 1}]}, 'DoubleFloor', {'conference': 50}),
            ('conference.open', {'id': 50, 'users': [], 'floors': [{'chair': 1}]}, 'UnknownChair', {'conference': 50}),
            ('conference.open', {'users': [{'port': 7}, {'port': 7}], 'floors': []}, 'DoublePort', None),
            ('conference.open', {'id': 50, 'users': [{}] * 257, 'floors': []}, 'OutOfRange', {'conference': 50}),
            ('conference.open', {'id': 50, 'users': [{'name': 'x' * 254}], 'floors': []}, 'OutOfRange', {'conference': 50}),
            ('conference.open', {'toml': '[['}, 'Syntax', {'line': 1}),
            ('conference.open', {'toml': '\n[[conference]]\n\nid = "x"'}, 'WrongType', {'line': 4}),
            ('conference.forget', {'conference': OPEN}, 'Running', {'conference': OPEN}),
            ('user.add', {'conference': OPEN, 'id': 10}, 'DoubleUser', {'user': 10}),
            ('user.add', {'conference': OPEN, 'id': 70, 'name': 'x' * 254}, 'OutOfRange', {'user': 70}),
            ('floor.add', {'conference': OPEN, 'id': 1}, 'DoubleFloor', {'floor': 1}),
            ('floor.add', {'conference': OPEN, 'id': 9, 'chair': 99}, 'UnknownChair', {'floor': 9}),
            ('floor.add', {'conference': OPEN, 'id': 9, 'room': 256}, 'OutOfRange', {'floor': 9}),
            ('floor.chair', {'conference': OPEN, 'floor': 9, 'chair': None}, 'NoFloor', {'floor': 9}),
            ('floor.chair', {'conference': OPEN, 'floor': 1, 'chair': 99}, 'UnknownChair', {'floor': 1}),
            ('member.remove', {'conference': OPEN, 'member': 9}, 'NoMember', {'member': 9}),
            ('member.remove', {'conference': OPEN, 'user': 99}, 'NoUser', {'user': 99}),
            ('user.admit', {'conference': OPEN, 'user': 99}, 'NoUser', {'user': 99}),
            ('request.create', {'conference': OPEN, 'for': 99, 'floors': [2], 'by': 11}, 'NoUser', 'place'),
            ('request.create', {'conference': OPEN, 'for': 10, 'floors': [9]}, 'NoFloor', 'place'),
            ('request.create', {'conference': OPEN, 'for': 10, 'floors': [2], 'by': 99}, 'NoUser', {'user': 99}),
            ('request.create', {'conference': OPEN, 'for': 10, 'floors': [2], 'by': 12}, 'Unauthorized', 'place'),
            ('request.create', {'conference': OPEN, 'for': 12, 'floors': [1]}, 'TooManyRequests', 'place'),
            ('request.release', {'conference': OPEN, 'request': 999}, 'NoRequest', {'request': 999}),
            ('request.release', {'conference': OPEN, 'request': 1, 'by': 11}, 'Unauthorized', 'place'),
            ('request.grant', {'conference': OPEN, 'request': 999, 'floors': [1], 'by': 12}, 'NoRequest', 'place'),
            ('request.grant', {'conference': OPEN, 'request': 1, 'floors': [1], 'by': 11}, 'Unauthorized', 'place'),
            ('request.deny', {'conference': OPEN, 'request': 1, 'floors': [2], 'by': 12}, 'NoFloor', 'place'),
            ('request.revoke', {'conference': OPEN, 'request': 999}, 'NoRequest', {'request': 999}),
            ('word.set', {'conference': OPEN, 'key': 'k', 'text': 'x' * 65536}, 'Full', {'conference': OPEN}),
            ('watch', {'conferences': [{'conference': OPEN, 'from': 0}]}, 'BadPlace', {'place': 0}),
            ('watch', {'conferences': [{'conference': NONE}]}, 'NoConference', {'conference': NONE}),
            ('journal', {'conference': OPEN, 'from': 0}, 'BadPlace', {'place': 0}),
            ('journal', {'conference': OPEN, 'from': 9999999999}, 'BadPlace', {'place': 9999999999}),
        ])
        return self.line(number, method, params), number, CODES[error], data


def prepare(client):
    """Conference 1 with user 11, who may ask for others, a floor with a chair, user 12, who has asked for it as often as may
    be, and requests that pend; 2 has ended, and 3 is forgotten."""
    users = [{'id': 10}, {'id': 11, 'proxy': True}, {'id': 12}]
    for conference in (OPEN, CLOSED, FORGOTTEN):
        client.done('conference.open', {'id': conference, 'limit': 2, 'users': users, 'floors': [{'chair': 12}, {}]})
    for conference in (CLOSED, FORGOTTEN):
        client.done('conference.close', {'conference': conference})
    client.done('conference.forget', {'conference': FORGOTTEN})
    for user, floor in ((10, 1), (12, 1), (12, 1)):
        client.done('request.create', {'conference': OPEN, 'for': user, 'floors': [floor]})


def is_wanted(answer, wanted):
    """Whether an answer is what it has to be."""
    id_, code, data = wanted
    if list(answer) != ['jsonrpc', 'id', 'error'] or answer['id'] != id_:
        return False
    error = answer['error']
    if list(error) != ['code', 'message', 'data'] or error['code'] != code or CODES[error['message']] != code:
        return False
    return list(error['data'] or ()) == ['place'] if data == 'place' else error['data'] == data


class Wrongs:
    """What was answered otherwise: how often, and one of each kind."""

    def __init__(self):
        self.counts, self.shown, self.others = collections.Counter(), {}, []

    def compare(self, line, answer, wanted):
        if not is_wanted(answer, wanted):
            try:
                name = json.loads(line).get('method')
            except (ValueError, AttributeError):
                name = None
            kind = name, str(answer.get('error', {}).get('message')), next(it for it in (*CODES, None) if CODES.get(it) == wanted[1])
            self.counts[kind] += 1
            self.shown.setdefault(kind, (line, answer, wanted))

    def tell(self):
        for (name, found, code), count in sorted(self.counts.items(), key=str):
            print('%d times %s is answered by %s, and not by %s:\n  %s\n  %s\n  %s' % (
                count, name, found, code, *self.shown[name, found, code]), flush=True)
        print(*self.others, sep='\n')
        if self.counts or self.others:
            raise Failed('%d requests are answered otherwise' % self.counts.total())


def faulty(client, observer, maker, count, wrongs):
    """Sends what has one thing wrong, many at once, and compares the answers. How many there were of each error."""
    seen = collections.Counter()
    while count > 0:
        made = [maker.wrong() for _ in range(min(AT_ONCE, count))]
        client.socket.sendall(b''.join(line + b'\n' for line, *_ in made))
        for line, *wanted in made:
            answer = client.answer()
            wrongs.compare(line, answer, wanted)
            seen[answer.get('error', {}).get('message')] += 1
        count -= len(made)
        name = maker.chance.choice(sorted(CHANGING))
        observer.socket.sendall(maker.line(1, name, maker.params(name)) + b'\n')
        wrongs.compare(name, observer.answer(), (1, CODES['Forbidden'], None))
        seen['Forbidden'] += 1
    return seen


def faultless(client, maker, count):
    """Sends what has nothing wrong. How many answers there were of each kind."""
    seen = collections.Counter()
    for number in range(count):
        name = maker.chance.choice(sorted(set(METHODS) - ENDING - {'watch', 'conference.close', 'conference.forget'}))
        params, method = maker.params(name), METHODS[name]
        client.socket.sendall(maker.line(number, name, params) + b'\n')
        answer = client.answer()
        if answer['id'] != number:
            raise Failed('%d is answered by %s' % (number, answer))
        if 'result' in answer:
            if not fits(answer['result'], method['result']['schema']):
                raise Failed('%s %s is answered by %s' % (name, params, answer['result']))
            seen['done'] += 1
        else:
            code = answer['error']['code']
            if not any(it['$ref'].endswith('/%d' % code) for it in method['errors']):
                raise Failed('%s %s is refused by %s, which the page has not' % (name, params, answer['error']))
            seen[answer['error']['message']] += 1
    return seen


def shapes_told(client):
    """Compares what was told to who watches with its shapes. How many lines that were."""
    client.done('help')
    schemas = {it['name']: it['schema'] for it in PAGE['x-notifications']}
    for told in client.told:
        if list(told) != ['jsonrpc', 'method', 'params'] or not fits(told['params'], schemas[told['method']]):
            raise Failed('%s is told' % told)
    return len(client.told)


def told(seen):
    return ', '.join('%s %d' % it for it in sorted(seen.items(), key=str))


def run(floorhub, count, seed, folder):
    control, observe = os.path.join(folder, 'control'), os.path.join(folder, 'observe')
    server = Server(floorhub, 'conference = []\n', words=('--control', control, '--observe', observe))
    try:
        client, watching, maker, wrongs = Client(control), Client(control), Maker(seed), Wrongs()
        prepare(client)
        watching.done('watch', {'all': True})
        before = {name: value for name, value in client.done('conference.get', {'conference': OPEN}).items() if name != 'next'}
        began = time.monotonic()
        print('one thing wrong: %s' % told(faulty(client, Client(observe), maker, count, wrongs)), flush=True)
        after = {name: value for name, value in client.done('conference.get', {'conference': OPEN}).items() if name != 'next'}
        if before != after:
            wrongs.others.append('what was refused has changed %s to %s' % (before, after))
        if watching.done('help') and watching.told:
            wrongs.others.append('of what was refused %s is told' % watching.told[:3])
        print('nothing wrong: %s' % told(faultless(client, maker, count // 10)))
        print('%d notifications have their shapes; %.0f s' % (shapes_told(watching), time.monotonic() - began))
        client.done('server.stop')
        if server.process.wait(DEADLINE):
            raise Failed('it ends with status %d' % server.process.poll())
        wrongs.tell()
    except BaseException:
        server.process.kill()
        raise


def main():
    if len(sys.argv) < 2:
        raise SystemExit(__doc__)
    count = int(sys.argv[2]) if len(sys.argv) > 2 else 100_000
    seed = int(sys.argv[3]) if len(sys.argv) > 3 else 1
    with tempfile.TemporaryDirectory(prefix='methods-') as folder:
        try:
            run(sys.argv[1], count, seed, folder)
        except (Failed, OSError) as fault:
            raise SystemExit('FAILED: %s' % fault)


if __name__ == '__main__':
    main()
