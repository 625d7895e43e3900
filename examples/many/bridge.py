#!/usr/bin/env python3
"""Places conferences on shards: ./bridge.py RUN MAP PORT

RUN is HAProxy's folder of sockets: haproxy.sock, and SHARD.control for each shard. MAP is HAProxy's map from
conferences to shards. At PORT of 127.0.0.1 whoever calls people asks:

    POST   /meetings      the table of a conference without its number, as TOML: {"conference": 7, "shard": "shard-3"}
    POST   /meetings/7    a line of the control socket behind the conference's number, as `user 12 name Ann`: its answer
    DELETE /meetings/7    closes it
    GET    /meetings      the shard of each, and how many there are on each shard that answers

A new conference comes to the shard that answers and has the fewest. What the shards keep is all there is to know: at
the start, and before each placing, the map is made of what `list` answers. examples/bridge.py is what a bridge does
besides, on RUN/SHARD.control and the door by id of each shard.
"""
import contextlib
import http.server
import json
import os
import re
import socket
import sys
import threading
import time

SECONDS = 5


class Gone(Exception):
    """The shard doesn't answer: nobody has its lock now."""


class Shard:
    """A shard's control socket, connected to anew where it was lost, since another machine has the shard then."""

    def __init__(self, path):
        self.path, self.socket, self.lines, self.conferences = path, None, None, set()

    def ask(self, line):
        """The lines of the answer."""
        try:
            if not self.socket:
                self.socket = socket.socket(socket.AF_UNIX)
                self.socket.settimeout(SECONDS)
                self.socket.connect(self.path)
                self.lines = self.socket.makefile("r", encoding="utf-8")
            self.socket.sendall(f"@b {line}\n".encode())
            answer = []
            while not answer or answer[-1].split()[0] not in ("ok", "error", "end"):
                told = self.lines.readline()
                if not told.endswith("\n"):
                    raise OSError("the shard has gone")
                answer.append(told.removeprefix("@b ").strip())
            return answer
        except OSError as fault:
            self.close()
            raise Gone(str(fault))

    def look(self):
        """Which conferences are open there."""
        self.conferences = {int(it.split()[1]) for it in self.ask("list")[:-1] if it.split()[8] == "open"}

    def close(self):
        if self.socket:
            self.socket.close()
            self.socket = None


class Bridge:
    def __init__(self, run, path):
        self.run, self.path, self.lock, self.last = run, path, threading.Lock(), 0
        names = sorted(it.removesuffix(".control") for it in os.listdir(run) if it.endswith(".control"))
        self.shards = {name: Shard(f"{run}/{name}.control") for name in names}
        self.given_up = set()  # Numbers of which nobody knows whether they were opened, and that nobody was told.
        with open(path) as file:
            self.map = {int(number): shard for number, shard in map(str.split, file)}

    def look(self):
        """Has the map say what each shard has. One that doesn't answer keeps its lines."""
        for name, shard in self.shards.items():
            with contextlib.suppress(Gone):
                shard.look()
                for number in shard.conferences & self.given_up:
                    shard.ask(f"close {number}")
                    shard.conferences.discard(number)
                for number in [it for it in self.map if self.map[it] == name and it not in shard.conferences]:
                    self.place(number, None)
                for number in shard.conferences - set(self.map):
                    self.place(number, name)

    def place(self, number, shard):
        """A line of the map: in the file, for HAProxy's next start, and in the HAProxy that runs."""
        self.map = {**self.map, number: shard} if shard else {it: self.map[it] for it in self.map if it != number}
        with open(self.path + ".new", "w") as file:
            file.writelines(f"{it} {name}\n" for it, name in self.map.items())
        os.rename(file.name, self.path)
        with socket.socket(socket.AF_UNIX) as haproxy:
            haproxy.connect(f"{self.run}/haproxy.sock")
            change = f"add map {self.path} {number} {shard}" if shard else f"del map {self.path} {number}"
            haproxy.sendall(change.encode() + b"\n")
            haproxy.recv(4096)

    def open(self, table):
        """Opens a conference on the shard with the fewest, and gives its number and the shard."""
        self.look()
        for name in sorted(self.shards, key=lambda it: len(self.shards[it].conferences)):
            self.last = number = max(self.last + 1, time.time_ns() // 1_000_000 % (1 << 32))
            try:
                answer = self.shards[name].ask(f"open .\n[[conference]]\nid = {number}\n{table}\n.")[-1]
            except Gone:
                self.given_up.add(number)
                continue
            if not answer.startswith("ok"):
                raise ValueError(answer)
            self.place(number, name)
            return {"conference": number, "shard": name}
        raise Gone("no shard answers")

    def answer(self, method, number, text):
        if method == "GET":
            self.look()
            answering = {name: len(it.conferences) for name, it in self.shards.items() if it.socket}
            return {"meetings": self.map, "shards": answering}
        if number is None:
            return self.open(text)
        if number not in self.map:
            return {"answer": ["error NoConference"]}
        shard = self.shards[self.map[number]]
        word, _, rest = ("close" if method == "DELETE" else text.strip()).partition(" ")
        answer = shard.ask(f"{word} {number} {rest}".strip())
        if method == "DELETE" and answer[-1].split()[1] in ("closed", "Ended", "NoConference"):
            self.place(number, None)
        return {"answer": answer}


class Asked(http.server.BaseHTTPRequestHandler):
    protocol_version = "HTTP/1.1"

    def do_POST(self):
        asked = re.fullmatch(r"/meetings(?:/(\d+))?", self.path)
        text = self.rfile.read(int(self.headers.get("Content-Length", 0))).decode()
        try:
            with bridge.lock:
                status, answer = 200, bridge.answer(self.command, asked[1] and int(asked[1]), text)
        except Gone as fault:
            status, answer = 503, {"error": str(fault)}
        except Exception as fault:  # What is asked wrongly ends nothing.
            status, answer = 409, {"error": str(fault)}
        told = json.dumps(answer).encode()
        self.send_response(status)
        self.send_header("Content-Length", str(len(told)))
        self.end_headers()
        self.wfile.write(told)

    do_DELETE = do_GET = do_POST

    def log_message(self, *words):
        pass


if __name__ == "__main__":
    while not os.path.exists(f"{sys.argv[1]}/haproxy.sock"):
        time.sleep(0.1)
    bridge = Bridge(*sys.argv[1:3])
    bridge.look()
    http.server.ThreadingHTTPServer(("127.0.0.1", int(sys.argv[3])), Asked).serve_forever()
