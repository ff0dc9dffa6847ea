"""Chromium without a window, led over its pipe by the DevTools protocol: no library, no port."""
import base64
import json
import os
import subprocess
import tempfile
import time

FLAGS = ["--headless=new", "--no-sandbox", "--disable-gpu", "--hide-scrollbars", "--no-first-run",
         "--disable-background-networking", "--disable-component-update", "--remote-debugging-pipe",
         # The certificate of these trials is self-signed.
         "--ignore-certificate-errors"]


class Browser:
    """One page in a browser of its own. All numbers of places and sizes are CSS pixels."""

    def __init__(self):
        self.folder = tempfile.TemporaryDirectory()
        given_end, self.give = os.pipe()
        self.take, taken_end = os.pipe()
        flags = FLAGS + [f"--user-data-dir={self.folder.name}", "about:blank"]
        # The browser reads commands from descriptor 3 and writes answers to 4.
        words = ["bash", "-c", f'exec chromium "$@" 3<&{given_end} 4>&{taken_end}', "bash", *flags]
        self.process = subprocess.Popen(words, pass_fds=(given_end, taken_end), stdout=subprocess.DEVNULL,
                                        stderr=subprocess.DEVNULL)
        os.close(given_end)
        os.close(taken_end)
        self.count, self.held, self.session, self.said = 0, b"", None, []
        target = next(t for t in self.call("Target.getTargets")["targetInfos"] if t["type"] == "page")
        self.session = self.call("Target.attachToTarget", targetId=target["targetId"], flatten=True)["sessionId"]
        for domain in ("Page", "Runtime", "Log", "Accessibility"):
            self.call(f"{domain}.enable")

    def __enter__(self):
        return self

    def __exit__(self, *_):
        try:
            self.session = None
            self.call("Browser.close")
        except (EOFError, OSError):
            pass
        try:
            self.process.wait(10)
        except subprocess.TimeoutExpired:
            self.process.kill()
            self.process.wait()
        self.folder.cleanup()

    def read(self):
        while b"\0" not in self.held:
            piece = os.read(self.take, 1 << 16)
            if not piece:
                raise EOFError("the browser has ended")
            self.held += piece
        whole, _, self.held = self.held.partition(b"\0")
        return json.loads(whole)

    def call(self, method, **params):
        self.count += 1
        asked = {"id": self.count, "method": method, "params": params}
        if self.session:
            asked["sessionId"] = self.session
        os.write(self.give, json.dumps(asked).encode() + b"\0")
        while True:
            got = self.read()
            if got.get("id") == self.count:
                if "error" in got:
                    raise RuntimeError(f"{method}: {got['error']['message']}")
                return got["result"]
            self.note(got)

    def note(self, event):
        """Keeps what the page complains of: exceptions, and what the browser logs, as of a content security policy."""
        params = event.get("params", {})
        if event.get("method") == "Runtime.exceptionThrown":
            self.said.append(params["exceptionDetails"]["exception"].get("description", "exception"))
        elif event.get("method") == "Log.entryAdded" and params["entry"]["level"] == "error":
            self.said.append(params["entry"]["text"])

    def complaints(self):
        """What was complained of since the last call."""
        self.value("0")
        said, self.said = self.said, []
        return said

    def shape(self, width, height, scheme="light", still=False, phone=False):
        self.call("Emulation.setDeviceMetricsOverride", width=width, height=height, deviceScaleFactor=1, mobile=phone)
        self.call("Emulation.setEmulatedMedia", features=[
            {"name": "prefers-color-scheme", "value": scheme},
            {"name": "prefers-reduced-motion", "value": "reduce" if still else "no-preference"}])

    def before(self, source):
        """Runs a script in each page before its own. Returns what `forget` takes."""
        return self.call("Page.addScriptToEvaluateOnNewDocument", source=source)["identifier"]

    def forget(self, identifier):
        self.call("Page.removeScriptToEvaluateOnNewDocument", identifier=identifier)

    def go(self, url):
        self.call("Page.navigate", url=url)

    def value(self, expression):
        got = self.call("Runtime.evaluate", expression=expression, returnByValue=True, awaitPromise=True)
        if "exceptionDetails" in got:
            raise RuntimeError(got["exceptionDetails"]["exception"].get("description", expression))
        return got["result"].get("value")

    def wait(self, expression, seconds=20):
        """Until an expression of the page is true."""
        end = time.monotonic() + seconds
        while time.monotonic() < end:
            if self.value(f"document.readyState === 'complete' && Boolean({expression})"):
                return
            time.sleep(0.1)
        raise TimeoutError(f"waited in vain for: {expression}; the page shows: {self.value('document.body.innerText')}")

    def press(self, key, code):
        for kind in ("keyDown", "keyUp"):
            self.call("Input.dispatchKeyEvent", type=kind, key=key, code=key, windowsVirtualKeyCode=code,
                      **({"text": "\r"} if key == "Enter" and kind == "keyDown" else {}))

    def tree(self):
        """The page as screen readers see it: role and name of each node."""
        return [(node["role"]["value"], node.get("name", {}).get("value", ""))
                for node in self.call("Accessibility.getFullAXTree")["nodes"] if not node.get("ignored")]

    def picture(self, path, whole=True):
        """The page as PNG, as high as it is where `whole`."""
        if whole:
            height = self.value("Math.ceil(document.documentElement.getBoundingClientRect().height)")
            width = self.value("innerWidth")
            clip = {"clip": {"x": 0, "y": 0, "width": width, "height": height, "scale": 1},
                    "captureBeyondViewport": True}
        else:
            clip = {}
        data = base64.b64decode(self.call("Page.captureScreenshot", format="png", **clip)["data"])
        with open(path, "wb") as file:
            file.write(data)
        return len(data)
