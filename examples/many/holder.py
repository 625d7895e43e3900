#!/usr/bin/env python3
"""Serves a shard for as long as this machine has its lock: ./holder.py SHARD FOLDER FLOORHUB WORD ..

Waits for the lock SHARD in etcd (ETCDCTL_ENDPOINTS says where that is), writes the lock's revision into FOLDER/epoch,
and starts FLOORHUB on the folder, at that epoch and with the words. A later lock has a higher revision: so a floorhub
that is thought to be gone, and isn't, finds another epoch before it writes or sends anything further, and ends.

As soon as etcdctl ends, since its session has expired, floorhub is ended by SIGKILL, and the holder ends; so it does
where floorhub ends. Whoever started it starts it again, and it waits for the lock anew. SIGTERM ends floorhub, and then
gives the lock back: the next machine has it at once. A floorhub that doesn't come to be ready, as while another one
still has the folder, is started again each second.
"""
import ctypes
import json
import os
import select
import signal
import subprocess
import sys
import time

SECONDS = 10  # The lock of a holder that can't be heard is another's after so long.
PR_SET_PDEATHSIG = 1


def begin(*words):
    """Starts a command that the system ends by SIGKILL where the holder ends in any way."""
    tie = ctypes.CDLL(None).prctl
    return subprocess.Popen(words, stdin=subprocess.DEVNULL, stdout=subprocess.PIPE,
                            preexec_fn=lambda: tie(PR_SET_PDEATHSIG, signal.SIGKILL))


def tell(shard, *words):
    print("%.3f" % time.time(), shard, *words, file=sys.stderr, flush=True)


def write_epoch(folder, revision):
    """Puts the number in place whole, and never a lower one over a higher one."""
    path = os.path.join(folder, "epoch")
    if os.path.exists(path):
        with open(path) as file:
            if int(file.read()) >= revision:
                sys.exit("the lock is an old one")
    with open(f"{path}.{revision}", "w") as file:
        file.write(f"{revision}\n")
        file.flush()
        os.fsync(file.fileno())
    os.rename(file.name, path)


def serve(lock, shard, folder, floorhub, *words):
    """Serves until the lock or the server ends. The server that doesn't come to be ready is begun again."""
    revision = json.loads(lock.stdout.readline() or sys.exit("no lock"))["kvs"][0]["create_revision"]
    write_epoch(folder, revision)
    tell(shard, "epoch", revision)
    while True:
        server, printed = begin(floorhub, "--keep", folder, "--epoch", str(revision), *words), b""
        try:
            while (piece := first_of(lock, server)):
                tell(shard, "printed", piece.decode().strip())
                printed += piece
        finally:
            server.kill()
            tell(shard, "ended", server.wait())
        if printed or select.select([lock.stdout], [], [], 1)[0]:
            sys.exit("floorhub has ended")


def first_of(lock, server):
    """What the server prints next; nothing where it has ended. The holder ends where etcdctl has."""
    if lock.stdout in select.select([lock.stdout, server.stdout], [], [])[0]:
        sys.exit("the lock is lost")
    return os.read(server.stdout.fileno(), 1 << 16)


def main(shard, *words):
    signal.signal(signal.SIGTERM, lambda *_: sys.exit(0))
    lock = begin("etcdctl", "-w", "json", "lock", "--ttl", str(SECONDS), shard)
    try:
        serve(lock, shard, *words)
    finally:
        signal.signal(signal.SIGTERM, signal.SIG_IGN)
        lock.terminate()  # Gives the lock back: floorhub has ended.
        try:
            tell(shard, "let go", lock.wait(SECONDS))
        except subprocess.TimeoutExpired:  # etcd can't be asked, and takes the lock back by itself.
            lock.kill()


main(*sys.argv[1:])
