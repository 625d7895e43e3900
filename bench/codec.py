#!/usr/bin/env python3
"""The codec beside the C library re, message by message: ./codec.py [ROUNDS]

Builds codec.c, which wants Debian's libre-dev, and codec.rattle, a program over floor_message, which is proved as
all programs are: that takes some minutes the first time. Runs them in turn, ROUNDS times (9 by default), and
prints for each message its bytes, and for reading and writing the nanoseconds of both, the least of all rounds,
with their ratio. Both have to write as many bytes; status 1 where they don't.
"""
import pathlib
import shutil
import subprocess
import sys
import tempfile

ROOT = pathlib.Path(__file__).resolve().parent.parent
CRATES = ('floor_wire', 'floor_message')
FLAGS = ['-DHAVE_INET6', '-DHAVE_INTTYPES_H', '-DHAVE_STDBOOL_H', '-DRELEASE']


def flags(what):
    """What the compiler has to be told of the library."""
    return subprocess.run(['pkg-config', what, 'libre'], stdout=subprocess.PIPE, text=True, check=True).stdout.split()


def build(folder):
    """Both programs, as commands."""
    theirs = folder / 'theirs'
    subprocess.run(['cc', '-O2', *flags('--cflags'), *FLAGS, ROOT / 'bench/codec.c', *flags('--libs'), '-o', theirs],
                   check=True)
    lines = (ROOT / 'crates.txt').read_text().splitlines()
    chosen = [line for line in lines if line.split(':')[0].split()[0] in CRATES]
    (folder / 'crates.txt').write_text('\n'.join([*chosen, 'codec: ' + ' '.join(CRATES)]) + '\n')
    shutil.copy(ROOT / 'HANDLES', folder)
    for crate in CRATES:
        shutil.copytree(ROOT / 'crates' / crate, folder / 'crates' / crate, ignore=shutil.ignore_patterns('out'))
    ours = folder / 'crates/codec'
    (ours / 'src').mkdir(parents=True)
    shutil.copy(ROOT / 'bench/codec.rattle', ours / 'src/main.rt')
    subprocess.run(['rt', 'run'], cwd=ours, check=True, stdout=subprocess.DEVNULL, stderr=subprocess.DEVNULL)
    return {'ours': [ours / 'out/codec'], 'theirs': [theirs, '100000']}


def figures(command):
    """What a program prints: a figure for each message and each thing done with it."""
    printed = subprocess.run(command, stdout=subprocess.PIPE, text=True, check=True).stdout
    return {tuple(line.split()[:2]): int(line.split()[2]) for line in printed.splitlines()}


def main():
    rounds = int(sys.argv[1]) if sys.argv[1:] else 9
    with tempfile.TemporaryDirectory() as folder:
        commands = build(pathlib.Path(folder))
        found = {name: [] for name in commands}
        for _ in range(rounds):
            for name, command in commands.items():
                found[name].append(figures(command))
    least = {name: {key: min(each[key] for each in all) for key in all[0]} for name, all in found.items()}
    good = True
    for (message, what), ours in least['ours'].items():
        theirs = least['theirs'][message, what]
        if what == 'bytes':
            good = good and ours == theirs
            print('%s: %d bytes, %d of re' % (message, ours, theirs))
        else:
            print('%s %s: %d ns, re %d ns: %.2f times its rate' % (message, what, ours, theirs, theirs / ours))
    return 0 if good else 1


sys.exit(main())
