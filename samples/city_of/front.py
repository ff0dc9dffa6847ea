#!/usr/bin/env python3
"""The pages over a hub, for trying: the display, the operators' page, and what both ask of the hub.

usage: front.py ADDRESS HUB

Listens at ADDRESS (HOST:PORT, 0 for a port that is free), and says so on standard error; HUB is the address of the hub.
It needs no package and no certificate, and has no limits: what faces the world is nginx (samples/nginx).
"""
import http.client
import sys
from functools import partial
from http.server import SimpleHTTPRequestHandler, ThreadingHTTPServer
from pathlib import Path
from urllib.parse import parse_qs, urlsplit

SAMPLES = Path(__file__).resolve().parent.parent
ASKED = ("/board/", "/alerts/", "/operating/status", "/operating/unmatched/", "/operating/alerts/")
PATIENCE_SECONDS = 10


class Front(SimpleHTTPRequestHandler):
    protocol_version = "HTTP/1.1"

    def __init__(self, *args, hub, **more):
        self.hub = hub
        super().__init__(*args, **more)

    def translate_path(self, path):
        """The files of the display, and under /operating/ those of the operators' page."""
        name = urlsplit(path).path.removeprefix("/operating")
        folder = SAMPLES / ("display" if name == urlsplit(path).path else "operating")
        return str(folder / (Path(name).name or "index.html"))

    def do_GET(self):
        if not self.path.startswith(ASKED):
            return super().do_GET()
        if parse_qs(urlsplit(self.path).query).get("hub", ["1"]) != ["1"]:
            self.send_response(204)  # there is one hub
            return self.end_headers()
        try:
            link = http.client.HTTPConnection(self.hub, timeout=PATIENCE_SECONDS)
            link.request("GET", self.path.removeprefix("/operating"), headers={"Connection": "close"})
            answer = link.getresponse()
            body = answer.read()
            link.close()
        except (OSError, http.client.HTTPException) as error:
            return self.send_error(502, str(error))
        self.send_response(answer.status)
        for name in ("Content-Type", "X-Hub-Sequence", "X-Hub-Moment"):
            self.send_header(name, answer.headers[name])
        self.send_header("X-Hub-Address", self.hub)
        self.send_header("Content-Length", str(len(body)))
        self.send_header("Cache-Control", "no-store")
        self.end_headers()
        self.wfile.write(body)

    def log_message(self, *_):
        pass


def main():
    address, hub = sys.argv[1:]
    host, port = address.rsplit(":", 1)
    server = ThreadingHTTPServer((host, int(port)), partial(Front, hub=hub))
    print("front.py: listening on %s:%d" % server.server_address[:2], file=sys.stderr, flush=True)
    server.serve_forever()


if len(sys.argv) != 3:
    sys.exit(__doc__)
main()
