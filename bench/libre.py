"""libre's own client before a floorudp: straight, behind a network that loses, and under DTLS that socat ends."""
import pathlib
import queue
import struct
import subprocess
import tempfile
import threading
import time

from rooms import (
    FLOOR_QUERY, FLOOR_RELEASE, FLOOR_REQUEST, FLOOR_STATUS, GOODBYE, GRANTED, HELLO, HOST, PORT, REQUEST_STATUS, Gate,
    Member, Network, check, configuration, floor)

SOURCE = pathlib.Path(__file__).resolve().parent / "libre.c"
LIBRARIES = ["-lre", "-lssl", "-lcrypto", "-lz", "-lpthread", "-lm", "-ldl"]
USER_QUERY, USER_STATUS, HELLO_ACK, ERROR, GOODBYE_ACK = 5, 6, 12, 13, 17


def built(folder):
    """The client, made of its source."""
    program = folder + "/libre"
    subprocess.run(["cc", "-O2", "-I/usr/include/re", "-o", program, str(SOURCE), *LIBRARIES], check=True)
    return program


class Client:
    """A client of libre's."""

    def __init__(self, program, user, port=PORT, conference=1, pem=None):
        words = ["--dtls", pem] if pem else []
        self.process = subprocess.Popen([program, *words, str(port), str(conference), str(user)], stdin=subprocess.PIPE,
                                        stdout=subprocess.PIPE, stderr=subprocess.DEVNULL, text=True, bufsize=1)
        self.count, self.told, self.lines = 0, [], queue.Queue()
        threading.Thread(target=self.read, daemon=True).start()

    def read(self):
        for line in self.process.stdout:
            self.lines.put(line.split())

    def next(self, seconds):
        try:
            return self.lines.get(timeout=seconds)
        except queue.Empty:
            return None

    def ask(self, line, seconds=12):
        """The primitive of the answer and what it says of a floor request; None where there is none."""
        self.count += 1
        self.process.stdin.write(line + "\n")
        end = time.monotonic() + seconds
        while (left := end - time.monotonic()) > 0:
            words = self.next(left)
            if words is None or words[0] == "failed":
                return None
            if words[0] == "answer" and int(words[1]) == self.count:
                return int(words[2]), words[3]
            self.take(words)
        return None

    def take(self, words):
        if words[0] == "told":
            self.told.append((int(words[1]), words[2]))

    def listen(self, seconds):
        end = time.monotonic() + seconds
        while (left := end - time.monotonic()) > 0:
            words = self.next(left)
            if words:
                self.take(words)

    def end(self):
        self.process.stdin.close()
        self.process.wait(10)


def talk(name, client):
    """A participant's whole way."""
    check(name + ": Hello", client.ask("ask %d" % HELLO), (HELLO_ACK, "-"))
    check(name + ": FloorQuery", client.ask("query 1"), (FLOOR_STATUS, "-"))
    answer = client.ask("request 1")
    check(name + ": FloorRequest", [answer[0], answer[1].split(":")[1]], [REQUEST_STATUS, str(GRANTED)])
    number = answer[1].split(":")[0]
    client.listen(0.5)
    check(name + ": a notice of the floor", (FLOOR_STATUS, answer[1]) in client.told)
    check(name + ": UserQuery", client.ask("ask %d" % USER_QUERY)[0], USER_STATUS)
    check(name + ": an unknown primitive", client.ask("ask 99")[0], ERROR)
    check(name + ": FloorRelease", client.ask("release " + number)[0], REQUEST_STATUS)
    client.listen(0.5)
    check(name + ": the floor is free", client.told[-1], (FLOOR_STATUS, "-"))
    check(name + ": Goodbye", client.ask("ask %d" % GOODBYE), (GOODBYE_ACK, "-"))


WAY = [HELLO, FLOOR_QUERY, FLOOR_REQUEST, USER_QUERY, 99, FLOOR_RELEASE]


def straight(programs):
    with tempfile.TemporaryDirectory() as folder:
        program = built(folder)
        gate = Gate(*programs, configuration({10: HOST}))
        client = Client(program, 10)
        talk("libre", client)
        client.end()
        check("libre: each is served once", [primitive for primitive, _ in gate.messages()[10]], WAY)
        gate.end()


def go(gate, program, user, network, results):
    """A client that asks for floors and gives them back, behind a network: what it asked, and itself where the link
    held."""
    client, asked, mine = Client(program, user, network.address[1]), [], []
    def ask(line, primitive):
        asked.append(primitive)
        return client.ask(line)
    answer = ask("ask %d" % HELLO, HELLO) and ask("query 1", FLOOR_QUERY)
    for step in range(10):
        if answer is None:
            break
        if len(mine) > 1:
            answer = ask("release " + mine.pop(0), FLOOR_RELEASE)
        else:
            answer = ask("request %d" % (1 + step % 3), FLOOR_REQUEST)
            if answer and answer[0] == REQUEST_STATUS:
                mine.append(answer[1].split(":")[0])
    if answer:
        client.listen(9)
    results[user] = asked, client.told if answer else None
    client.end()
    network.end()


def lossy(programs):
    """Three clients, each behind a network that loses a tenth each way, repeats 15 in 100 and delays up to 120 ms."""
    with tempfile.TemporaryDirectory() as folder:
        program = built(folder)
        gate = Gate(*programs, configuration({10: HOST, 11: HOST, 12: HOST, 20: None}), grace=20)
        results = {}
        threads = [threading.Thread(target=go, args=(gate, program, user, Network(0.1, 0.15, 0.12, user), results))
                   for user in (10, 11, 12)]
        for thread in threads:
            thread.start()
        for thread in threads:
            thread.join()
        journal, lost = gate.messages(), 0
        status = Member(20).ask(FLOOR_QUERY, floor(1))
        stands = "%d:%d" % (struct.unpack(">H", status[18:20])[0], status[26]) if len(status) > 26 else "-"
        for user, (asked, told) in results.items():
            served = [primitive for primitive, _ in journal.get(user, [])]
            if told is None or any("user %d: Lost" % user in line for line in gate.log()):
                lost += 1
                check("libre over a lossy network, user %d: served once, as far as it came" % user, served, asked[: len(served)])
                continue
            check("libre over a lossy network, user %d: each is served once, in order" % user, served, asked)
            floors = [what for primitive, what in told if primitive == FLOOR_STATUS]
            check("libre over a lossy network, user %d: it ends with the floor as it is" % user, floors[-1:] or ["-"], [stands])
        check("libre over a lossy network: one link at most was given up", lost <= 1)
        gate.end()


def certificate(folder, name):
    """A certificate that its owner signed, and its key, in one file."""
    path = "%s/%s" % (folder, name)
    subprocess.run(["openssl", "req", "-x509", "-newkey", "ec", "-pkeyopt", "ec_paramgen_curve:P-256", "-nodes", "-days", "2",
                    "-subj", "/CN=" + name, "-keyout", path + ".key", "-out", path + ".crt"], check=True, capture_output=True)
    pathlib.Path(path + ".pem").write_text(pathlib.Path(path + ".key").read_text() + pathlib.Path(path + ".crt").read_text())
    return path


def dtls(programs):
    """Under DTLS, which socat ends: a listener for each user, which its certificate alone opens."""
    with tempfile.TemporaryDirectory() as folder:
        program = built(folder)
        paths = {name: certificate(folder, name) for name in ("server", "user10", "user11")}
        users = {10: "127.0.0.10", 11: "127.0.0.11"}
        gate = Gate(*programs, configuration(users))
        fronts = []
        for user in users:
            listener = "OPENSSL-DTLS-SERVER:%d,fork,reuseaddr,cert=%s.pem,cafile=%s.crt,verify=1" % (
                5100 + user, paths["server"], paths["user%d" % user])
            fronts.append(subprocess.Popen(["socat", "-T", "300", listener, "UDP4:%s:%d,bind=127.0.0.%d" % (HOST, PORT, user)],
                                           stderr=subprocess.DEVNULL))
        time.sleep(0.5)
        for user in users:
            client = Client(program, user, 5100 + user, pem=paths["user%d" % user] + ".pem")
            talk("libre under DTLS, user %d" % user, client)
            client.end()
        wrong = Client(program, 10, 5110, pem=paths["user11"] + ".pem")
        check("libre under DTLS: another's certificate", wrong.ask("ask %d" % HELLO), None)
        wrong.end()
        other = Client(program, 11, 5110, pem=paths["user10"] + ".pem")
        check("libre under DTLS: another User ID behind one's certificate", other.ask("ask %d" % HELLO), (ERROR, "-"))
        other.end()
        first = Client(program, 10, 5110, pem=paths["user10"] + ".pem")
        check("libre under DTLS: a client", first.ask("ask %d" % HELLO), (HELLO_ACK, "-"))
        first.process.kill()
        first.process.wait()
        second = Client(program, 10, 5110, pem=paths["user10"] + ".pem")
        check("libre under DTLS: killed and begun anew", second.ask("ask %d" % HELLO), (HELLO_ACK, "-"))
        second.end()
        check("libre under DTLS: the session has moved", gate.log()[-2].split(": ")[-1], "Moved")
        for front in fronts:
            front.terminate()
            front.wait()
        gate.end()
