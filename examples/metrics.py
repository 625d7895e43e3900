#!/usr/bin/env python3
"""Serves a floorhub's figures to Prometheus: ./metrics.py SOCKET PORT

SOCKET is that of `floorhub --control`. At `http://127.0.0.1:PORT/metrics` stands what floorhub answers to `metrics`,
asked anew each time: Prometheus' text. Where floorhub can't be asked the status is 503, which a scraper takes as down.
"""
import http.server
import socket
import sys

SECONDS = 5


def metrics(path):
    """What floorhub answers, without its last line, which says how many stand before it."""
    with socket.socket(socket.AF_UNIX) as control:
        control.settimeout(SECONDS)
        control.connect(path)
        control.sendall(b"metrics\n")
        with control.makefile("rb") as answer:
            lines = []
            for line in answer:
                if line == b"end %d\n" % len(lines):
                    return b"".join(lines)
                lines.append(line)
    raise OSError("the answer has no end")


class Scraped(http.server.BaseHTTPRequestHandler):
    def do_GET(self):
        if self.path != "/metrics":
            self.send_error(404)
            return
        try:
            text = metrics(sys.argv[1])
        except OSError as fault:
            self.send_error(503, explain=str(fault))
            return
        self.send_response(200)
        self.send_header("Content-Type", "text/plain; version=0.0.4; charset=utf-8")
        self.send_header("Content-Length", str(len(text)))
        self.end_headers()
        self.wfile.write(text)


http.server.ThreadingHTTPServer(("127.0.0.1", int(sys.argv[2])), Scraped).serve_forever()
