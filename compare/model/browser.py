"""A headless chromium, told what to do over its DevTools pipe: opens a page at a width, light or dark, as a telephone
or not, and gives what a script finds in it and pictures of it."""
import base64
import json
import os
import shutil
import subprocess
import tempfile

TELEPHONE, DESK = 375, 1280  # CSS pixels
ARGUMENTS = ["--headless", "--remote-debugging-pipe", "--no-sandbox", "--disable-gpu", "--no-first-run",
             "--hide-scrollbars", "--disable-background-networking", "--disable-extensions"]


class Broken(Exception):
    """What chromium said instead."""


class Browser:
    """One page at a time. To be closed."""

    def __init__(self):
        self.folder = tempfile.mkdtemp(prefix="chromium")
        there, here = os.pipe(), os.pipe()  # what it reads, and what it writes
        self.ends = there[1], here[0]

        def ready():
            low, high = os.dup(there[0]), os.dup(here[1])
            os.dup2(low, 3)
            os.dup2(high, 4)

        self.process = subprocess.Popen(["chromium", *ARGUMENTS, "--user-data-dir=" + self.folder], preexec_fn=ready,
                                        close_fds=False, stdout=subprocess.DEVNULL, stderr=subprocess.DEVNULL)
        os.close(there[0])
        os.close(here[1])
        self.count, self.rest, self.session, self.events = 0, b"", None, []
        target = self.call("Target.createTarget", url="about:blank")["targetId"]
        self.session = self.call("Target.attachToTarget", targetId=target, flatten=True)["sessionId"]
        self.call("Page.enable")
        self.call("Network.enable")

    def call(self, method, **parameters):
        """Calls a method of DevTools."""
        self.count += 1
        message = {"id": self.count, "method": method, "params": parameters}
        if self.session:
            message["sessionId"] = self.session
        os.write(self.ends[0], json.dumps(message).encode() + b"\0")
        while True:
            said = self.message()
            if said.get("id") == self.count:
                break
            self.events.append(said)
        if "error" in said:
            raise Broken(f"{method}: {said['error']}")
        return said["result"]

    def message(self):
        while b"\0" not in self.rest:
            octets = os.read(self.ends[1], 65536)
            if not octets:
                raise Broken("chromium ended")
            self.rest += octets
        first, _, self.rest = self.rest.partition(b"\0")
        return json.loads(first)

    def open(self, path, width, is_dark, medium=""):
        """Opens a file. A telephone has touch, and a viewport as its page says. The medium may be `print`."""
        is_telephone = width == TELEPHONE
        self.call("Emulation.setDeviceMetricsOverride", width=width, height=812 if is_telephone else 900,
                  deviceScaleFactor=1, mobile=is_telephone)
        scheme = {"name": "prefers-color-scheme", "value": "dark" if is_dark else "light"}
        self.call("Emulation.setEmulatedMedia", media=medium, features=[scheme])
        self.events.clear()
        self.call("Page.navigate", url=f"file://{path}")
        while not any(event.get("method") == "Page.loadEventFired" for event in self.events):
            self.events.append(self.message())

    def requests(self):
        """What the page loaded, itself included."""
        return [event["params"]["request"]["url"] for event in self.events
                if event.get("method") == "Network.requestWillBeSent"]

    def run(self, script):
        """The value of an expression, in the page."""
        said = self.call("Runtime.evaluate", expression=script, returnByValue=True)
        if "exceptionDetails" in said:
            raise Broken(said["exceptionDetails"])
        return said["result"].get("value")

    def picture(self, path, top=0, height=None):
        """Writes a picture of the page, all of it or a part, as PNG. Its width and height."""
        size = self.call("Page.getLayoutMetrics")["cssContentSize"]
        clip = {"x": 0, "y": top, "width": size["width"], "height": min(height or size["height"], size["height"] - top),
                "scale": 1}
        said = self.call("Page.captureScreenshot", format="png", captureBeyondViewport=True, clip=clip)
        with open(path, "wb") as file:
            file.write(base64.b64decode(said["data"]))
        return clip["width"], clip["height"]

    def close(self):
        try:
            self.session = None
            self.call("Browser.close")
        except (Broken, OSError):
            self.process.kill()
        self.process.wait()
        for end in self.ends:
            os.close(end)
        shutil.rmtree(self.folder, ignore_errors=True)
