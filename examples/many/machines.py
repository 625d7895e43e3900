#!/usr/bin/env python3
"""Three machines that serve four shards, on one computer: ./machines.py FLOORHUB [FOLDER]

A machine is a network namespace with processes of its own: etcd, HAProxy by machine.cfg, and a holder for each shard.
In front of them stand HAProxy by haproxy.cfg, with an authority for certificates, and the bridge that places
conferences.
All of that lives in namespaces of this program, and ends with it, however it ends. What it writes (the shards' folders,
etcd's, logs) is in FOLDER, or in one that is removed at the end. It wants root, and Debian's haproxy, etcd-server,
etcd-client, iproute2 and openssl.

A line of standard input does something; the end of the input ends all:

    who             which machine has which shard, and since which epoch
    kill a          machine a's processes are killed        off a      so they are, and nobody is told: its power is cut
    begin a         machine a starts                        end a      it stops in order, as for an upgrade
    cut a           the other machines and a don't hear each other; those in front hear all        join a
    name 7.10       makes a certificate for user 10 of conference 7, and prints its file
    run WORDS ..    runs a command in front, as `run curl -d floor=[{id=1}] http://127.0.0.1:7080/meetings`
"""
import ctypes
import os
import pathlib
import re
import select
import shutil
import signal
import subprocess
import sys
import tempfile

HERE = pathlib.Path(__file__).resolve().parent
MACHINES = {"a": "10.77.0.1", "b": "10.77.0.2", "c": "10.77.0.3"}
FRONT = "10.77.0.254"
SHARDS = [f"shard-{number}" for number in range(1, 5)]
DOOR, BRIDGE = 17000, 7080
WORDS = "--keep-or-stop --sync turn --longest 8192 --grace 60 --grace-for all --log"
PR_SET_PDEATHSIG = 1


def run(*words):
    subprocess.run([str(word) for word in words], check=True, stdin=subprocess.DEVNULL)


def tied():
    """Of a process that is about to begin: the system ends it where this one ends."""
    ctypes.CDLL(None).prctl(PR_SET_PDEATHSIG, signal.SIGKILL)


def apart():
    """Goes on in namespaces of its own: of networks, mounts and processes, whose first process this is."""
    if os.environ.get("APART"):
        run("mount", "-t", "tmpfs", "tmpfs", "/run")
        run("ip", "link", "set", "lo", "up")
        return
    child = subprocess.Popen(["unshare", "--net", "--mount", "--pid", "--fork", "--kill-child", "--mount-proc",
                              sys.executable, *sys.argv], env={**os.environ, "APART": "1"}, preexec_fn=tied)
    signal.signal(signal.SIGTERM, lambda *_: sys.exit(1))
    try:
        sys.exit(child.wait())
    finally:
        child.kill()


class Machine:
    """One machine: its namespace, and its processes where it runs."""

    def __init__(self, folder, name):
        self.folder, self.name, self.process = folder / name, name, None
        self.folder.mkdir()
        run("ip", "netns", "add", name)
        run("ip", "link", "add", "name", name, "type", "veth", "peer", "name", "eth0", "netns", name)
        run("ip", "link", "set", "dev", name, "master", "machines", "up")
        run("ip", "-n", name, "addr", "add", MACHINES[name] + "/24", "dev", "eth0")
        run("ip", "-n", name, "link", "set", "lo", "up")
        run("ip", "-n", name, "link", "set", "eth0", "up")

    def begin(self, floorhub):
        run("ip", "link", "set", "dev", self.name, "up")
        with open(self.folder / "log", "ab") as log:
            self.process = subprocess.Popen(
                ["nsenter", f"--net=/run/netns/{self.name}", "unshare", "--pid", "--fork", "--kill-child",
                 "--mount-proc", sys.executable, __file__, "--machine", self.name, self.folder.parent, floorhub],
                stdin=subprocess.PIPE, stdout=log, stderr=log, preexec_fn=tied)

    def kill(self):
        self.process.kill()
        self.process.wait()
        self.process = None

    def off(self):
        run("ip", "link", "set", "dev", self.name, "down")
        self.kill()

    def end(self):
        """Stops in order: each shard is given back once its floorhub has ended."""
        self.process.stdin.close()
        self.process.wait()
        self.process = None

    def cut(self, change="add"):
        """Between this machine and the others nothing goes either way."""
        for other, address in MACHINES.items():
            if other != self.name:
                run("ip", "-n", self.name, "route", change, "blackhole", address)
                run("ip", "-n", other, "route", change, "blackhole", MACHINES[self.name])

    def join(self):
        self.cut("del")


class Many:
    """The machines and what stands in front of them."""

    def __init__(self, folder, floorhub):
        self.folder, self.floorhub = pathlib.Path(folder), floorhub
        self.settings, self.run = self.folder / "settings", self.folder / "run"
        for path in (self.settings, self.run, *(self.folder / "shards" / shard for shard in SHARDS)):
            path.mkdir(parents=True)
        (self.folder / "none.toml").write_text("conference = []\n")
        (self.settings / "shards.map").touch()
        self.authority()
        run("ip", "link", "add", "machines", "type", "bridge")
        run("ip", "addr", "add", FRONT + "/24", "dev", "machines")
        run("ip", "link", "set", "machines", "up")
        self.machines = {name: Machine(self.folder, name) for name in MACHINES}
        for machine in self.machines.values():
            machine.begin(floorhub)
        self.front = self.start("haproxy", "haproxy", "-db", "-f", HERE / "haproxy.cfg")
        self.bridge = self.start(
            "bridge", sys.executable, HERE / "bridge.py", self.run, self.settings / "shards.map", BRIDGE)

    def start(self, name, *words):
        with open(self.folder / f"{name}.log", "ab") as log:
            return subprocess.Popen(
                [str(word) for word in words], stdin=subprocess.DEVNULL, stdout=log, stderr=log, preexec_fn=tied,
                env={**os.environ, "RUN": str(self.run), "SETTINGS": str(self.settings)})

    def openssl(self, *words):
        subprocess.run(["openssl", *words], check=True, cwd=self.settings, stderr=subprocess.DEVNULL)

    def authority(self):
        """Keys of the authority, of the server, and one for all users of this trial."""
        for name in ("users", "server", "user"):
            self.openssl("ecparam", "-name", "prime256v1", "-genkey", "-noout", "-out", f"{name}.key")
        self.openssl("req", "-x509", "-key", "users.key", "-subj", "/CN=users", "-days", "2", "-out", "users.pem")
        self.name("server", "server.key")

    def name(self, name, key="user.key"):
        """A file with the certificate of a name, and the key."""
        path = self.settings / f"{name}.pem"
        self.openssl("req", "-x509", "-CA", "users.pem", "-CAkey", "users.key", "-key", key, "-subj", f"/CN={name}",
                     "-days", "2", "-out", path)
        path.write_text(path.read_text() + (self.settings / key).read_text())
        return path

    def who(self):
        """The epoch and the machine of each shard, by what the holders have written."""
        def held(shard):
            return [(epoch, name) for name in MACHINES for _, epoch in self.epochs(name, shard)]

        return {shard: max(held(shard), default=(0, None)) for shard in SHARDS}

    def epochs(self, name, shard):
        """When a machine had the lock of the shard, and at which epoch."""
        found = (re.fullmatch(rf"(\d+\.\d+) {shard} epoch (\d+)", line) for line in self.told(name, shard))
        return [(float(at[1]), int(at[2])) for at in found if at]

    def told(self, name, shard):
        """What the shard's holders, and the floorhubs below them, have told on a machine."""
        path = self.folder / name / f"{shard}.log"
        return path.read_text(errors="replace").splitlines() if path.exists() else []

    def do(self, what, name=None, *words):
        """What a line of standard input asks for."""
        if what == "run":
            subprocess.run([name, *words], stdin=subprocess.DEVNULL)
            print(flush=True)
        elif what == "who":
            for shard, (epoch, machine) in self.who().items():
                print(shard, machine, "since epoch", epoch, flush=True)
        elif what == "name":
            print(self.name(name), flush=True)
        elif what == "begin":
            self.machines[name].begin(self.floorhub)
        elif what in ("kill", "off", "end", "cut", "join"):
            getattr(self.machines[name], what)()


def serve(name, folder, floorhub):
    """What a machine's first process does: it starts etcd, HAProxy and a holder for each shard, and whichever ends it
    starts again, until its standard input ends. It stands for systemd."""
    own, address = folder / name, MACHINES[name]
    commands = {
        "etcd": ["etcd", "--name", name, "--data-dir", own / "etcd", "--logger", "zap", "--log-level", "error",
                 "--listen-client-urls", "http://127.0.0.1:2379", "--advertise-client-urls", "http://127.0.0.1:2379",
                 "--listen-peer-urls", f"http://{address}:2380",
                 "--initial-advertise-peer-urls", f"http://{address}:2380",
                 "--initial-cluster", ",".join(f"{other}=http://{at}:2380" for other, at in MACHINES.items())],
        "haproxy": ["haproxy", "-db", "-f", HERE / "machine.cfg"]}
    for number, shard in enumerate(SHARDS, 1):
        (own / shard).mkdir(exist_ok=True)
        commands[shard] = [
            sys.executable, HERE / "holder.py", shard, folder / "shards" / shard, floorhub, *WORDS.split(),
            "--door", f"79{number}1", "--door-by-id", f"79{number}2", "--health", f"79{number}3",
            "--control", own / shard / "control", folder / "none.toml"]

    def begin(kind):
        with open(own / f"{kind}.log", "ab") as log:
            return subprocess.Popen(
                [str(word) for word in commands[kind]], stdin=subprocess.DEVNULL, stdout=log, stderr=log,
                env={**os.environ, "ADDRESS": address, "RUN": str(own)})

    running = {kind: begin(kind) for kind in commands}
    while not select.select([sys.stdin], [], [], 0.2)[0]:
        for kind, process in running.items():
            if process.poll() is not None:
                running[kind] = begin(kind)
    for kinds in (SHARDS, ["haproxy", "etcd"]):
        for kind in kinds:
            running[kind].terminate()
        for kind in kinds:
            running[kind].wait()


def main():
    if sys.argv[1:2] == ["--machine"]:
        return serve(sys.argv[2], pathlib.Path(sys.argv[3]), sys.argv[4])
    if len(sys.argv) not in (2, 3):
        raise SystemExit(__doc__)
    apart()
    folder = sys.argv[2] if len(sys.argv) > 2 else tempfile.mkdtemp(prefix="many-")
    try:
        many = Many(folder, os.path.abspath(sys.argv[1]))
        print("ready", folder, flush=True)
        for line in sys.stdin:
            try:
                many.do(*line.split())
            except (TypeError, LookupError, AttributeError, OSError, ValueError, subprocess.SubprocessError) as fault:
                print("not done:", fault, flush=True)
    finally:
        if len(sys.argv) == 2:
            shutil.rmtree(folder, ignore_errors=True)


if __name__ == "__main__":
    main()
