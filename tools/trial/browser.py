"""A browser without a screen, spoken to over a pipe by the DevTools protocol: messages of JSON, each ended by a byte 0."""
import base64
import fcntl
import json
import os
import select
import shutil
import subprocess
import tempfile
import time

NAMES = ("chromium-headless-shell", "chromium", "chromium-browser", "google-chrome-stable", "google-chrome")
PACKAGES = ("chromium-headless-shell", "fonts-dejavu-core")
SECONDS = 60
# Keys that are no characters: their codes.
CODES = {"Enter": 13, "Escape": 27, "Tab": 9, "Backspace": 8, "ArrowLeft": 37, "ArrowUp": 38, "ArrowRight": 39, "ArrowDown": 40, "PageUp": 33, "PageDown": 34, "End": 35, "Home": 36}


class Gone(Exception):
    pass


def found():
    """The path of a browser; where there is none, Debian's is installed."""
    paths = [it for it in map(shutil.which, NAMES) if it]
    if not paths and shutil.which("apt-get") and os.geteuid() == 0:
        quiet = {"stdout": subprocess.DEVNULL, "stderr": subprocess.DEVNULL}
        subprocess.run(["apt-get", "update"], **quiet)
        subprocess.run(["apt-get", "install", "-y", "--no-install-recommends", *PACKAGES], **quiet)
        paths = [it for it in map(shutil.which, NAMES) if it]
    return paths[0] if paths else None


class Browser:
    """One tab, in a folder of its own; `complaints` are what its console and its network had to say since a page was opened."""

    def __init__(self, path, width=1440, height=900):
        self.folder = tempfile.mkdtemp(prefix="try-page-browser")
        there, back = ([fcntl.fcntl(end, fcntl.F_DUPFD_CLOEXEC, 20) for end in os.pipe()] for _ in range(2))
        words = [path, "--headless=new", "--disable-gpu", "--remote-debugging-pipe", "--no-first-run", "--hide-scrollbars", f"--user-data-dir={self.folder}"]
        words += ["--disable-background-networking", "--disable-component-update", "--disable-sync", *(["--no-sandbox"] if os.geteuid() == 0 else []), "about:blank"]
        piped = f"exec 3<&{there[0]} 4>&{back[1]} {there[0]}<&- {back[1]}>&-; exec \"$@\""
        self.child = subprocess.Popen(["bash", "-c", piped, "bash", *words], pass_fds=(there[0], back[1]), stdin=subprocess.DEVNULL, stdout=subprocess.DEVNULL, stderr=subprocess.DEVNULL)
        os.close(there[0])
        os.close(back[1])
        self.down, self.up, self.read, self.number, self.events, self.tab = there[1], back[0], b"", 0, [], None
        target = self.call("Target.createTarget", url="about:blank")["targetId"]
        self.tab = self.call("Target.attachToTarget", targetId=target, flatten=True)["sessionId"]
        for domain in ("Page", "Runtime", "Log", "Network"):
            self.call(f"{domain}.enable")
        self.call("Performance.enable", timeDomain="threadTicks")
        self.size(width, height)

    def message(self, end):
        """The next message, or nothing where none comes by then."""
        while b"\0" not in self.read:
            ready, _, _ = select.select([self.up], [], [], max(0, end - time.monotonic()))
            if not ready:
                return None
            piece = os.read(self.up, 1 << 20)
            if not piece:
                raise Gone("the browser has ended")
            self.read += piece
        text, self.read = self.read.split(b"\0", 1)
        return json.loads(text)

    def call(self, method, seconds=SECONDS, **params):
        self.number += 1
        number, end = self.number, time.monotonic() + seconds
        said = {"id": number, "method": method, "params": params} | ({"sessionId": self.tab} if self.tab else {})
        os.write(self.down, json.dumps(said).encode() + b"\0")
        while (came := self.message(end)) is not None:
            if came.get("id") == number:
                if "error" in came:
                    raise Gone(f"{method}: {came['error'].get('message')}")
                return came["result"]
            self.events.append(came)
        raise Gone(f"{method}: no answer in {seconds} seconds")

    def size(self, width, height):
        self.call("Emulation.setDeviceMetricsOverride", width=width, height=height, deviceScaleFactor=1, mobile=False)

    def media(self, **features):
        self.call("Emulation.setEmulatedMedia", features=[{"name": name.replace("_", "-"), "value": value} for name, value in features.items()])

    def open(self, url, ready):
        """Opens a page, and waits until an expression holds there."""
        self.events.clear()
        self.call("Page.navigate", url=url)
        end = time.monotonic() + SECONDS
        while time.monotonic() < end:
            if self.ask(f"location.href !== 'about:blank' && document.readyState === 'complete' && !!({ready})") is True:
                return True
            time.sleep(0.02)
        return False

    def ask(self, expression):
        """What an expression, or the promise that it is, comes to; a text that begins with `thrown` where it throws."""
        came = self.call("Runtime.evaluate", seconds=3 * SECONDS, expression=expression, returnByValue=True, awaitPromise=True)
        if "exceptionDetails" in came:
            told = came["exceptionDetails"]
            return "thrown " + str(told.get("exception", {}).get("description") or told.get("text"))
        return came["result"].get("value")

    def worked(self):
        """How many milliseconds the processor was at work for the page."""
        return 1000 * next(it["value"] for it in self.call("Performance.getMetrics")["metrics"] if it["name"] == "TaskDuration")

    def key(self, key, shift=False):
        letter = len(key) == 1
        told = {"key": key, "windowsVirtualKeyCode": CODES.get(key, ord(key[0].upper())), "modifiers": 8 if shift else 0} | ({"text": key} if letter else {"text": "\r"} if key == "Enter" else {})
        self.call("Input.dispatchKeyEvent", type="keyDown", **told)
        self.call("Input.dispatchKeyEvent", type="keyUp", **{name: value for name, value in told.items() if name != "text"})
        self.settle()

    def type(self, text):
        self.call("Input.insertText", text=text)
        self.settle()

    def mouse(self, kind, x, y, **more):
        self.call("Input.dispatchMouseEvent", type=kind, x=x, y=y, **more)

    def click(self, x, y):
        self.mouse("mouseMoved", x, y)
        self.mouse("mousePressed", x, y, button="left", buttons=1, clickCount=1)
        self.mouse("mouseReleased", x, y, button="left", clickCount=1)
        self.settle()

    def drag(self, x, y, to_x, to_y):
        self.mouse("mouseMoved", x, y)
        self.mouse("mousePressed", x, y, button="left", buttons=1, clickCount=1)
        for part in (0.3, 0.7, 1):
            self.mouse("mouseMoved", x + (to_x - x) * part, y + (to_y - y) * part, button="left", buttons=1)
        self.mouse("mouseReleased", to_x, to_y, button="left", clickCount=1)
        self.settle()

    def settle(self):
        """Until what was asked for is drawn."""
        self.ask("new Promise(done => requestAnimationFrame(() => requestAnimationFrame(() => done(1))))")

    def picture(self, path):
        with open(path, "wb") as file:
            file.write(base64.b64decode(self.call("Page.captureScreenshot", format="png")["data"]))

    def paper(self):
        return base64.b64decode(self.call("Page.printToPDF", printBackground=True)["data"])

    def complaints(self, url):
        """Each message of the console, each thrown error, each dialog, and each request but that for the page."""
        self.call("Runtime.evaluate", expression="0")
        told = []
        for event in self.events:
            method, params = event.get("method"), event.get("params", {})
            if method == "Runtime.consoleAPICalled":
                told.append(f"console: {[it.get('value', it.get('description')) for it in params['args']]}")
            elif method == "Runtime.exceptionThrown":
                details = params["exceptionDetails"]
                told.append(f"thrown: {details.get('exception', {}).get('description') or details.get('text')}")
            elif method == "Log.entryAdded":
                told.append(f"log: {params['entry'].get('text')}")
            elif method == "Page.javascriptDialogOpening":
                told.append(f"dialog: {params.get('message')}")
            elif method == "Network.requestWillBeSent" and params["request"]["url"].split("#")[0] != url:
                told.append(f"request: {params['request']['url'][:200]}")
        return told

    def close(self):
        try:
            self.call("Browser.close", seconds=5)
        except (Gone, OSError):
            pass
        try:
            self.child.wait(timeout=10)
        except subprocess.TimeoutExpired:
            self.child.kill()
        for end in (self.down, self.up):
            os.close(end)
        shutil.rmtree(self.folder, ignore_errors=True)
