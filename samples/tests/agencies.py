#!/usr/bin/env python3
"""What agencies.sh needs next to nginx: the parts of an agency that a file can't play, a name server, and a client.

usage: agencies.py agency MESSAGE              serves what an agency's nginx asks, and names; says on standard error where
       agencies.py ask ADDRESS PATH BODY       asks once, as a hub would; leaves the body in the file BODY, and prints
                                               what became of it: `good` or why not, the body's bytes, and the seconds

At the agency, /chunked is MESSAGE without its length, /slow comes after two seconds, /silent never, and /cut ends in its
midst. The name server knows agency.example, which is this machine, and no other name.
"""
import socket
import struct
import sys
import threading
import time
from http.server import BaseHTTPRequestHandler, ThreadingHTTPServer

LONGEST_HEAD = 8192
NAME = b"\6agency\7example\0"
ADDRESS, NO_SUCH_NAME, RESPONSE = 1, 3, 0x8180  # of DNS (RFC 1035, section 4.1)


class Acts(BaseHTTPRequestHandler):
    """An agency's program, behind its nginx."""

    message = b""

    def do_GET(self):
        act = self.path.rsplit("/", 1)[1]
        time.sleep({"slow": 2, "silent": 60}.get(act, 0))
        self.send_response(200)
        if act != "chunked":
            self.send_header("Content-Length", str(len(self.message)))
        self.end_headers()
        self.wfile.write(self.message[:len(self.message) // 2] if act == "cut" else self.message)

    def log_message(self, *_):
        pass


def answer_names(link):
    while True:
        question, asker = link.recvfrom(512)
        end = question.index(b"\0", 12) + 5
        name, kind = question[12:end - 4], struct.unpack(">H", question[end - 4:end - 2])[0]
        known = name == NAME
        given = struct.pack(">HHHIH4s", 0xC00C, ADDRESS, 1, 1, 4, b"\x7f\0\0\1") if known and kind == ADDRESS else b""
        head = struct.pack(">HHHHHH", struct.unpack(">H", question[:2])[0], RESPONSE | (0 if known else NO_SUCH_NAME),
                           1, 1 if given else 0, 0, 0)
        link.sendto(head + question[12:end] + given, asker)


def serve(message):
    with open(message, "rb") as file:
        Acts.message = file.read()
    names = socket.socket(socket.AF_INET, socket.SOCK_DGRAM)
    names.bind(("127.0.0.1", 0))
    threading.Thread(target=answer_names, args=(names,), daemon=True).start()
    server = ThreadingHTTPServer(("127.0.0.1", 0), Acts)
    print("names at 127.0.0.1:%d" % names.getsockname()[1], file=sys.stderr)
    print("acts at 127.0.0.1:%d" % server.server_port, file=sys.stderr, flush=True)
    server.serve_forever()


def fault_of(head, body):
    """Why a hub would not take this reply; nothing where it would."""
    status, *lines = head.decode("latin-1").split("\r\n")
    fields = [line.partition(":")[::2] for line in lines]
    lengths = [value.strip() for name, value in fields if name.lower() == "content-length"]
    if status.split(" ")[1:2] != ["200"]:
        return "status " + " ".join(status.split(" ")[1:2])
    if len(head) + 4 > LONGEST_HEAD:
        return "long head"
    if any(name.lower() in ("transfer-encoding", "content-encoding") for name, _ in fields) or len(lengths) > 1:
        return "encoded"
    if lengths and int(lengths[0]) != len(body):
        return "cut"
    return ""


def ask(address, path, keep):
    host, port = address.rsplit(":", 1)
    began, got = time.monotonic(), b""
    with socket.create_connection((host, int(port)), timeout=30) as link:
        link.sendall(f"GET {path} HTTP/1.0\r\nHost: {host}\r\nConnection: close\r\n\r\n".encode())
        while piece := link.recv(1 << 16):
            got += piece
    head, _, body = got.partition(b"\r\n\r\n")
    with open(keep, "wb") as file:
        file.write(body)
    print(fault_of(head, body) or "good", len(body), round(time.monotonic() - began))


if len(sys.argv) == 3 and sys.argv[1] == "agency":
    serve(sys.argv[2])
elif len(sys.argv) == 5 and sys.argv[1] == "ask":
    ask(*sys.argv[2:])
else:
    sys.exit(__doc__)
