"""A browser without a window: Chromium, driven by messages over two pipes. It tells what a page asks for, how it looks, and what of it a
screen reader is told."""
import base64
import fcntl
import json
import os
import subprocess


class Browser:
    """Chromium with one tab."""

    def __init__(self, profile):
        hear, there = os.pipe()
        here, say = os.pipe()
        # the browser reads from 3 and writes to 4, which its own ends must not be before
        ends = [fcntl.fcntl(end, fcntl.F_DUPFD, 10) for end in (here, there)]

        def pipes():
            os.dup2(ends[0], 3)
            os.dup2(ends[1], 4)

        self.process = subprocess.Popen(
            ["chromium", "--headless=new", "--no-sandbox", "--disable-gpu", "--hide-scrollbars", "--disable-background-networking",
             f"--user-data-dir={profile}", "--remote-debugging-pipe"],
            preexec_fn=pipes, close_fds=False, stdout=subprocess.DEVNULL, stderr=subprocess.DEVNULL)
        for end in (here, there, *ends):
            os.close(end)
        self.hear, self.say = os.fdopen(hear, "rb"), os.fdopen(say, "wb")
        self.number, self.session, self.events = 0, None, []
        target = self.ask("Target.createTarget", url="about:blank")["targetId"]
        self.session = self.ask("Target.attachToTarget", targetId=target, flatten=True)["sessionId"]
        for name in ("Page", "Network", "Log", "Accessibility"):
            self.ask(f"{name}.enable")

    def heard(self):
        """The next message of the browser."""
        text = bytearray()
        while not text.endswith(b"\0"):
            byte = self.hear.read(1)
            if not byte:
                raise EOFError("the browser ended")
            text += byte
        return json.loads(text[:-1])

    def ask(self, method, **words):
        """Asks the browser, and gives its answer. What it tells meanwhile is kept."""
        self.number += 1
        message = {"id": self.number, "method": method, "params": words}
        if self.session:
            message["sessionId"] = self.session
        self.say.write(json.dumps(message).encode() + b"\0")
        self.say.flush()
        while True:
            told = self.heard()
            if told.get("id") == self.number:
                if "error" in told:
                    raise RuntimeError(f"{method}: {told['error']}")
                return told["result"]
            self.events.append(told)

    def open(self, address, width, is_dark):
        """Opens a page in a window of that width."""
        self.ask("Emulation.setDeviceMetricsOverride", width=width, height=900, deviceScaleFactor=1, mobile=width < 600)
        scheme = "dark" if is_dark else "light"
        self.ask("Emulation.setEmulatedMedia", features=[{"name": "prefers-color-scheme", "value": scheme}])
        self.events.clear()
        self.ask("Page.navigate", url=address)
        while not any(it.get("method") == "Page.loadEventFired" for it in self.events):
            self.events.append(self.heard())

    def requests(self):
        """What the page that is open asked for, itself left out, and what its policy refused."""
        asked = [it["params"]["request"]["url"] for it in self.events if it.get("method") == "Network.requestWillBeSent"]
        logged = [it["params"]["entry"]["text"] for it in self.events if it.get("method") == "Log.entryAdded"]
        return asked[1:] + logged

    def value(self, words):
        """What an expression of JavaScript is in the page."""
        return self.ask("Runtime.evaluate", expression=words, returnByValue=True)["result"].get("value")

    def picture(self, path, height=None):
        """Keeps a picture of the page."""
        size = self.ask("Page.getLayoutMetrics")["cssContentSize"]
        clip = {"x": 0, "y": 0, "width": size["width"], "height": min(size["height"], height or 6000), "scale": 1}
        path.write_bytes(base64.b64decode(self.ask("Page.captureScreenshot", captureBeyondViewport=True, clip=clip)["data"]))

    def paper(self, path):
        """Keeps the page as it is printed."""
        path.write_bytes(base64.b64decode(self.ask("Page.printToPDF", preferCSSPageSize=True)["data"]))

    def told(self):
        """What a screen reader is told: pairs of a role and a name."""
        nodes = self.ask("Accessibility.getFullAXTree")["nodes"]
        return [(it["role"]["value"], it.get("name", {}).get("value", "")) for it in nodes if not it.get("ignored")]

    def close(self):
        self.session = None
        self.ask("Browser.close")
        self.process.wait()
