#!/usr/bin/env python3
"""What the display shows of a departure that moves to another platform. Run by moved.sh, at the repository's top.

usage: moved.py HUB FOLDER
"""
import subprocess
import sys
import threading
from functools import partial
from http.server import SimpleHTTPRequestHandler, ThreadingHTTPServer
from pathlib import Path

sys.path.insert(0, str(Path(__file__).resolve().parent))
from browser import Browser
from display import Display

SCRIPT = Path("samples/moved.script")
MOMENT = 1743314000  # that of the script's boards
SHOWN = """[...document.querySelectorAll('.rows tr')].map(row => [
    row.querySelector('time').textContent, row.querySelector('.platform').lastChild.textContent,
    row.querySelector('.at').textContent, row.querySelector('.remark').textContent])"""


class Page(SimpleHTTPRequestHandler):
    """The files of the display, and the program's answers to what the display asks."""

    protocol_version = "HTTP/1.1"

    def __init__(self, *args, hub, **more):
        self.hub = hub
        super().__init__(*args, directory="samples/display", **more)

    def do_GET(self):
        if self.path.startswith(("/board/", "/alerts/")):
            self.wfile.write(answer(self.hub, self.path))
        else:
            super().do_GET()

    def log_message(self, *_):
        pass


def answer(hub, target):
    """The program's response to a request, once the script's message was offered, at the script's moment."""
    offered, _, _ = SCRIPT.read_bytes().partition(b"\nB ")
    asked = f"GET {target} HTTP/1.1\r\n\r\n".encode()
    script = b"%s\nQ %d %d\n%s\nE\n" % (offered, MOMENT, len(asked), asked)
    said = subprocess.run([hub, "replay", "samples/city.toml"], input=script, stdout=subprocess.PIPE, check=True).stdout
    accepted, line, response = said.split(b"\n", 2)
    if accepted != b"accepted 1" or not line.startswith(b"connection "):
        raise RuntimeError(f"the program printed {said!r}")
    return response[:-1]


def see(display, stop, wanted):
    """Opens the display of a stop, and compares time, platform, expected time and remark of each departure."""
    display.open(stop, height=320)
    display.browser.wait("document.querySelector('.rows tr') || !document.querySelector('.stop .empty').hidden")
    rows = display.browser.value(SHOWN)
    display.check(f"{stop}: {rows}", rows == wanted)


def main():
    hub, folder = sys.argv[1:]
    Path(folder).mkdir(parents=True, exist_ok=True)
    server = ThreadingHTTPServer(("127.0.0.1", 0), partial(Page, hub=hub))
    threading.Thread(target=server.serve_forever, daemon=True).start()
    moved = ["08:00", "B", "08:05", "5 min late"]
    others = [["08:21", "B", "08:21", ""], ["08:21", "B", "08:26", "5 min late"]]
    with Browser() as browser:
        display = Display(browser, f"http://127.0.0.1:{server.server_port}", folder)
        see(display, "S1", [])
        see(display, "S2", [moved, *others])
        see(display, "ST", [moved, *others])
        display.keep("moved")
    print(f"{display.failed} failed")
    return 1 if display.failed else 0


if __name__ == "__main__":
    sys.exit(main())
