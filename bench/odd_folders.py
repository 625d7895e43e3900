#!/usr/bin/env python3
"""Starts a floorhub on folders of kept conferences that no test can make, and looks at what it says.

    python3 bench/odd_folders.py <floorhub>

- Without a descriptor left a conference goes on and nothing ends: who is served is served, events are kept.
- Where a start has too few of them for all kept conferences it is CannotKeep, and a line says descriptors.
- A pipe in place of a journal, of the epoch, of the lock or of a file to be written holds nothing up, and leaves one
  conference out or is named.
- A journal without the right to read it, and a link to nothing, leave their conference alone out (not as root).
- A file of the epoch that another replaces by the same number ends nothing; by another one it is Lost.

Each line that it prints is a check; the status is 1 where one failed.
"""
import os
import pathlib
import resource
import socket
import subprocess
import sys
import tempfile
import time

sys.dont_write_bytecode = True
sys.path.insert(0, os.path.dirname(os.path.abspath(__file__)))
from server import header_by_id, hello

FAILED = []


def check(what, holds, told=''):
    print(f"{'ok' if holds else 'FAILED':6} {what}{'' if holds else ': ' + str(told)}", flush=True)
    FAILED.extend([] if holds else [what])


def free_port():
    with socket.socket() as one:
        one.bind(('127.0.0.1', 0))
        return one.getsockname()[1]


class Floorhub:
    """One that keeps a folder, with a door by id; `said` is its standard error until it ends or is ready."""

    def __init__(self, folder, count, limit=None, words=()):
        self.door, self.folder = free_port(), folder
        text = ''.join(f'[[conference]]\nid = {it}\n[[conference.user]]\nid = 10\n[[conference.user]]\nid = 11\n'
                       '[[conference.floor]]\nid = 1\n' for it in range(1, count + 1))
        (folder.parent / 'c.toml').write_text(text)

        def bound():
            if limit:
                resource.setrlimit(resource.RLIMIT_NOFILE, (limit, limit))
        self.log = open(folder.parent / 'log', 'w+')
        self.process = subprocess.Popen(
            [os.path.abspath(sys.argv[1]), '--loops', '1', '--log', '--keep', str(folder), '--door-by-id', str(self.door),
             *words, str(folder.parent / 'c.toml')],
            stdin=subprocess.PIPE, stdout=subprocess.PIPE, stderr=self.log, preexec_fn=bound)

    def is_ready(self, seconds=20):
        """Whether it says ready, and doesn't hang or end."""
        os.set_blocking(self.process.stdout.fileno(), False)
        until, heard = time.monotonic() + seconds, b''
        while time.monotonic() < until:
            heard += self.process.stdout.read() or b''
            if b'ready\n' in heard:
                return True
            if self.process.poll() is not None:
                return False
            time.sleep(0.01)
        return False

    def said(self):
        return (self.folder.parent / 'log').read_text()

    def come(self, name):
        one = socket.create_connection(('127.0.0.1', self.door))
        conference, user = map(int, name.split('.'))
        one.sendall(header_by_id(name) + hello(conference, 1, user))
        one.settimeout(5)
        return one, one.recv(4096)

    def end(self):
        """Stops it in order; gives its status, None where it had to be killed."""
        try:
            self.process.stdin.write(b'stop\n')
            self.process.stdin.close()
            return self.process.wait(20)
        except (OSError, subprocess.TimeoutExpired):
            if self.process.poll() is None:
                self.process.kill()
                self.process.wait()
                return None
            return self.process.returncode


def folder_in(room):
    folder = pathlib.Path(tempfile.mkdtemp(dir=room)) / 'k'
    folder.mkdir()
    return folder


def with_an_epoch(room):
    without_descriptors(room, '5\n')


def without_descriptors(room, epoch=None):
    folder = folder_in(room)
    if epoch is not None:
        (folder / 'epoch').write_text(epoch)
    hub = Floorhub(folder, 1, limit=64)
    check(f'epoch {epoch}: it is ready below 64 descriptors', hub.is_ready(), hub.said())
    first, heard = hub.come('1.10')
    silent = [socket.create_connection(('127.0.0.1', hub.door)) for _ in range(100)]
    time.sleep(0.5)
    for number in range(2, 12):
        first.sendall(hello(1, number, 10))
        heard = first.recv(4096)
    check(f'epoch {epoch}: who is served is served without a descriptor left', len(heard) >= 48, heard)
    check(f'epoch {epoch}: it runs on', hub.process.poll() is None, hub.said())
    check(f'epoch {epoch}: it says that it cannot accept', 'cannot accept' in hub.said(), hub.said())
    for one in silent:
        one.close()
    check(f'epoch {epoch}: it stops in order', hub.end() == 0, hub.said())
    text = (folder / '1.journal').read_text()
    check(f'epoch {epoch}: its file has what was served', len(text.split('---\n')[1].splitlines()) >= 12, text)


def too_few_at_start(room):
    folder = folder_in(room)
    hub = Floorhub(folder, 100)
    check('100 conferences are kept', hub.is_ready() and hub.end() == 0, hub.said())
    for limit in (40, 60, 100):
        hub = Floorhub(folder, 100, limit=limit)
        check(f'ulimit -n {limit}: it is not ready', not hub.is_ready(), hub.said())
        said = hub.said()
        check(f'ulimit -n {limit}: it ends with status 1 by CannotKeep', hub.end() == 1 and
              said.rstrip().endswith('floorhub: CannotKeep'), said[-300:])
        check(f'ulimit -n {limit}: a line says descriptors', 'descriptor' in said, said[-300:])


def pipes(room):
    for name in ('1.journal', 'epoch', 'lock', 'trial.new', '1.new'):
        folder = folder_in(room)
        os.mkfifo(folder / name)
        hub = Floorhub(folder, 2)
        is_ready = hub.is_ready()
        said = hub.said()
        wanted = name in ('1.journal', '1.new')
        check(f'a pipe {name}: {"ready" if wanted else "refused"}', is_ready == wanted, said)
        status = hub.end()
        check(f'a pipe {name}: it does not hang', status is not None, said)
        if name == '1.journal':
            check('a pipe 1.journal: the log says that it is not opened', 'conference 1 is not opened' in said, said)
        if not wanted:
            check(f'a pipe {name}: CannotKeep', 'floorhub: CannotKeep' in said, said)


def files_without_rights(room):
    folder = folder_in(room)
    (folder / '1.journal').symlink_to('nothing')
    hub = Floorhub(folder, 2)
    check('a link to nothing leaves one out', hub.is_ready() and 'conference 1 is not opened' in hub.said()
          and 'conference 2 opened' in hub.said(), hub.said())
    hub.end()
    if os.geteuid() == 0:
        return
    for rights in (0, 0o444):
        folder = folder_in(room)
        hub = Floorhub(folder, 2)
        check('two are kept', hub.is_ready() and hub.end() == 0, hub.said())
        (folder / '1.journal').chmod(rights)
        hub = Floorhub(folder, 2)
        check(f'a journal of mode {rights:o} leaves one out', hub.is_ready() and
              'conference 1 is not opened' in hub.said() and 'conference 2 goes on' in hub.said(), hub.said())
        hub.end()


def epochs(room):
    folder = folder_in(room)
    (folder / 'epoch').write_text('5\n')
    hub = Floorhub(folder, 1, words=('--epoch', '5'))
    check('it begins with the epoch 5', hub.is_ready(), hub.said())
    client, heard = hub.come('1.10')
    (folder / 'epoch.new').write_text('5\n')
    (folder / 'epoch.new').rename(folder / 'epoch')
    client.sendall(hello(1, 2, 10))
    check('the same number in another file ends nothing', len(client.recv(4096)) >= 48, hub.said())
    (folder / 'epoch.new').write_text('6\n')
    (folder / 'epoch.new').rename(folder / 'epoch')
    client.sendall(hello(1, 3, 10))
    check('another number: nothing more is sent', client.recv(4096) == b'', hub.said())
    hub.process.wait(20)
    check('another number: Lost', hub.said().rstrip().endswith('floorhub: Lost'), hub.said())
    hub = Floorhub(folder, 1, words=('--epoch', '5'))
    check('another number than --epoch says: Lost', not hub.is_ready() and 'floorhub: Lost' in hub.said(), hub.said())
    (folder / 'epoch').write_text('+6\n')
    hub = Floorhub(folder, 1)
    check('an epoch with a plus is none', not hub.is_ready() and 'floorhub: CannotKeep' in hub.said(), hub.said())


def main():
    if len(sys.argv) != 2:
        sys.exit(__doc__)
    with tempfile.TemporaryDirectory() as room:
        for part in (without_descriptors, with_an_epoch, too_few_at_start, pipes, files_without_rights, epochs):
            try:
                part(room)
            except OSError as error:
                check(f'{part.__name__}: it is there', False, error)
    print(f'{len(FAILED)} failed')
    sys.exit(1 if FAILED else 0)


main()
