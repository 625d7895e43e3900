"""A floor control server for a few conferences, by asyncio and floor.py: python3 server.py FILE, a TOML text as floord's.

Each user with a port listens there, on 127.0.0.1. Who is connected is whoever came to the port: let nobody but a proxy
that knows its users come there.
"""
import asyncio
import sys
import tomllib

from floor import Hub, Refused

# Who lets more bytes than this wait in its socket is shut down.
MOST_UNSENT = 1 << 20


class Server:
    def __init__(self, text):
        self.hub, self.writers = Hub(), {}
        self.hub.open(text)

    def send(self, connections):
        """Sends what waits for connections. One that is cut or slow ends, which concerns others."""
        for connection in connections:
            writer = self.writers.get(connection)
            if not writer:
                continue
            data = self.hub.take(connection)
            if data:
                writer.write(data)
            if self.hub.is_cut(connection) or writer.transport.get_write_buffer_size() > MOST_UNSENT:
                writer.transport.abort()

    def leave(self, connection):
        del self.writers[connection]
        try:
            self.hub.leave(connection)
        except Refused as refused:
            print(f'connection {connection} left: {refused}', file=sys.stderr)
        self.send(self.hub.told())

    async def serve(self, conference, user, reader, writer):
        try:
            connection = self.hub.attach(conference, user)
        except Refused as refused:
            print(f'user {user} of conference {conference} is refused: {refused}', file=sys.stderr)
            writer.close()
            return
        self.writers[connection] = writer
        try:
            while data := await reader.read(65536):
                self.send(self.hub.receive(connection, data))
        except Refused as refused:
            self.send(getattr(refused, 'told', []))
        except ConnectionError:
            pass
        finally:
            self.leave(connection)
            writer.close()


async def main(path):
    with open(path, 'rb') as file:
        text = file.read()
    server, listening = Server(text), []
    for conference in tomllib.loads(text.decode())['conference']:
        for user in conference.get('user', []):
            if 'port' in user:
                def came(reader, writer, conference=conference['id'], user=user['id']):
                    return server.serve(conference, user, reader, writer)
                listening.append(await asyncio.start_server(came, '127.0.0.1', user['port']))
    print('ready', flush=True)
    await asyncio.get_running_loop().run_in_executor(None, sys.stdin.readline)


if __name__ == '__main__':
    asyncio.run(main(sys.argv[1]))
