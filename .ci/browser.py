"""A headless Chromium for .ci/page, which tells it what to do by two pipes."""
import base64
import itertools
import json
import os
import select
import subprocess
import tempfile
import time

SECONDS = 120


class Browser:
    """A browser with one page. It keeps the address of each request that the page or its workers make."""

    def __init__(self, program):
        self.profile = tempfile.TemporaryDirectory()
        read_end, self.to = os.pipe()
        self.given, write_end = os.pipe()
        words = ["--headless", "--no-sandbox", "--disable-gpu", "--remote-debugging-pipe", f"--user-data-dir={self.profile.name}"]
        words += ["--no-first-run", "--disable-background-networking", "--disable-component-update", "about:blank"]
        # the browser reads commands from 3, and writes to 4
        shell = f'exec "$@" 3<&{read_end} 4>&{write_end}'
        out = {"stdout": subprocess.DEVNULL, "stderr": subprocess.DEVNULL}
        self.process = subprocess.Popen(["bash", "-c", shell, "-", program, *words], pass_fds=(read_end, write_end), **out)
        os.close(read_end)
        os.close(write_end)
        self.numbers, self.pending, self.events, self.requests = itertools.count(1), b"", [], []
        page = next(it for it in self.ask("Target.getTargets")["targetInfos"] if it["type"] == "page")
        self.session = self.ask("Target.attachToTarget", targetId=page["targetId"], flatten=True)["sessionId"]
        for domain in ("Page", "Runtime", "Network"):
            self.tell(f"{domain}.enable")

    def message(self, until):
        """The next message of the browser."""
        while b"\0" not in self.pending:
            if not select.select([self.given], [], [], max(0, until - time.monotonic()))[0]:
                raise TimeoutError("the browser does not answer")
            got = os.read(self.given, 1 << 20)
            if not got:
                raise EOFError("the browser has ended")
            self.pending += got
        text, _, self.pending = self.pending.partition(b"\0")
        return json.loads(text)

    def ask(self, method, session=None, **params):
        """Gives the browser a command, and returns its answer."""
        number, until = next(self.numbers), time.monotonic() + SECONDS
        command = {"id": number, "method": method, "params": params, **({"sessionId": session} if session else {})}
        os.write(self.to, json.dumps(command).encode() + b"\0")
        while True:
            it = self.message(until)
            if it.get("id") == number:
                if "error" in it:
                    raise RuntimeError(f"{method}: {it['error']['message']}")
                return it["result"]
            if it.get("method") == "Network.requestWillBeSent":
                self.requests.append(it["params"]["request"]["url"])

    def tell(self, method, **params):
        """The same, of the page."""
        return self.ask(method, self.session, **params)

    def value(self, script):
        """The value of a script in the page. A promise is awaited."""
        found = self.tell("Runtime.evaluate", expression=script, awaitPromise=True, returnByValue=True)
        if "exceptionDetails" in found:
            raise RuntimeError(found["exceptionDetails"].get("exception", {}).get("description", "a script failed"))
        return found["result"].get("value")

    def wait_for(self, script, seconds=SECONDS):
        """Waits until a script in the page has a value that counts as true, and returns that."""
        until = time.monotonic() + seconds
        while not (found := self.value(script)):
            if time.monotonic() > until:
                raise TimeoutError(f"never true in the page: {script}")
            time.sleep(0.05)
        return found

    def go(self, address):
        """Loads a page anew."""
        self.tell("Page.navigate", url="about:blank")
        self.tell("Page.navigate", url=address)
        self.wait_for("document.readyState == 'complete' && location.protocol != 'about:'")

    def workers(self):
        """How many workers there are."""
        return sum(it["type"] == "worker" for it in self.ask("Target.getTargets", filter=[{}])["targetInfos"])

    def size(self, width, height, is_phone=False):
        self.tell("Emulation.setDeviceMetricsOverride", width=width, height=height, deviceScaleFactor=1, mobile=is_phone)

    def dark(self, is_dark):
        feature = {"name": "prefers-color-scheme", "value": "dark" if is_dark else "light"}
        self.tell("Emulation.setEmulatedMedia", features=[feature])

    def key(self, key, code=0, text="", modifiers=0):
        """Presses a key and lets it go."""
        how = {"key": key, "windowsVirtualKeyCode": code, "modifiers": modifiers}
        self.tell("Input.dispatchKeyEvent", type="keyDown", **how, **({"text": text} if text else {}))
        self.tell("Input.dispatchKeyEvent", type="keyUp", **how)

    def picture(self):
        """A picture of the whole page, in PNG."""
        return base64.b64decode(self.tell("Page.captureScreenshot", captureBeyondViewport=True)["data"])

    def end(self):
        self.process.terminate()
        self.process.wait(SECONDS)
        os.close(self.to)
        os.close(self.given)
        self.profile.cleanup()
