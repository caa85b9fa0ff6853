"""A browser without a window, for the tests of pages: Chromium, driven by its own protocol over two pipes. Nothing is installed and no port opened."""
import fcntl
import json
import os
import select
import shutil
import subprocess
import sys
import time

NAMES = ("chromium", "chromium-browser", "google-chrome")
FLAGS = ["--headless", "--disable-gpu", "--no-first-run", "--disable-background-networking", "--disable-component-update", "--remote-debugging-pipe"]
# The browser reads what it is told from descriptor 3 and answers on 4.
LAUNCH = "import os, sys; os.dup2(int(sys.argv[1]), 3); os.dup2(int(sys.argv[2]), 4); os.execvp(sys.argv[3], sys.argv[3:])"
SECONDS = 120


def installed():
    """The browser's program, or None where there is none."""
    return next(filter(None, map(shutil.which, NAMES)), None)


class Browser:
    """A browser with one page at a time; what the pages say and ask for is kept."""

    def __init__(self, program, folder):
        ends = [*os.pipe(), *os.pipe()]
        told, self.tell, self.hear, said = (fcntl.fcntl(end, fcntl.F_DUPFD_CLOEXEC, 10) for end in ends)
        for end in ends:
            os.close(end)
        flags = FLAGS + ["--user-data-dir=" + folder] + (["--no-sandbox"] if os.geteuid() == 0 else [])
        words = [sys.executable, "-c", LAUNCH, str(told), str(said), program, *flags, "about:blank"]
        self.run = subprocess.Popen(words, pass_fds=(told, said), stdin=subprocess.DEVNULL, stdout=subprocess.DEVNULL, stderr=subprocess.DEVNULL)
        os.close(told)
        os.close(said)
        self.count, self.rest, self.events, self.session = 0, b"", [], None
        page = next(target for target in self.call("Target.getTargets")["targetInfos"] if target["type"] == "page")
        self.session = self.call("Target.attachToTarget", targetId=page["targetId"], flatten=True)["sessionId"]
        for domain in ("Page", "Runtime", "Network", "Log"):
            self.call(domain + ".enable")

    def __enter__(self):
        return self

    def __exit__(self, *_):
        self.session = None
        try:
            self.call("Browser.close")
            self.run.wait(SECONDS)
        except (OSError, RuntimeError, subprocess.TimeoutExpired):
            self.run.kill()
            self.run.wait()
        os.close(self.tell)
        os.close(self.hear)

    def message(self, until):
        """The next message of the browser."""
        while b"\0" not in self.rest:
            if not select.select([self.hear], [], [], max(0, until - time.monotonic()))[0]:
                raise RuntimeError("the browser does not answer")
            part = os.read(self.hear, 1 << 20)
            if not part:
                raise RuntimeError("the browser has ended")
            self.rest += part
        first, self.rest = self.rest.split(b"\0", 1)
        return json.loads(first)

    def call(self, method, **parameters):
        """What the browser answers; events that come before it are kept."""
        self.count += 1
        asked = {"id": self.count, "method": method, "params": parameters, **({"sessionId": self.session} if self.session else {})}
        data = json.dumps(asked).encode() + b"\0"
        while data:
            data = data[os.write(self.tell, data):]
        until = time.monotonic() + SECONDS
        while True:
            message = self.message(until)
            if message.get("id") == self.count:
                if "error" in message:
                    raise RuntimeError("%s: %s" % (method, message["error"]["message"]))
                return message["result"]
            self.events.append(message)

    def open(self, address):
        """Opens a page as new, also where the address differs behind the # alone, and waits until it is there."""
        for place in ("about:blank", address):
            self.events.clear()
            self.call("Page.navigate", url=place)
            until = time.monotonic() + SECONDS
            while self.value("location.protocol + document.readyState") != place.split(":")[0] + ":complete":
                if time.monotonic() > until:
                    raise RuntimeError("the browser does not open " + place)

    def value(self, expression):
        """What an expression of the page's language gives."""
        answer = self.call("Runtime.evaluate", expression=expression, returnByValue=True, awaitPromise=True)
        if "exceptionDetails" in answer:
            raise RuntimeError("%s: %s" % (expression, answer["exceptionDetails"]))
        return answer["result"].get("value")

    def press(self, key, code=None):
        """A key, down and up."""
        for kind in ("rawKeyDown", "keyUp"):
            self.call("Input.dispatchKeyEvent", type=kind, key=key, code=code or key, windowsVirtualKeyCode=KEYS[key])

    def point(self, x, y, press=False):
        """Moves the pointer, and presses its button."""
        self.call("Input.dispatchMouseEvent", type="mouseMoved", x=x, y=y)
        for kind in ("mousePressed", "mouseReleased") if press else ():
            self.call("Input.dispatchMouseEvent", type=kind, x=x, y=y, button="left", clickCount=1)

    def troubles(self):
        """Errors that the page's script met, what it wrote on the console, and every address that it asked for beside its own."""
        found = []
        for event in self.events:
            parameters = event.get("params", {})
            if event["method"] in ("Runtime.exceptionThrown", "Runtime.consoleAPICalled", "Log.entryAdded"):
                found.append((event["method"], json.dumps(parameters)[:300]))
            if event["method"] == "Network.requestWillBeSent" and not parameters["documentURL"].split("#")[0] == parameters["request"]["url"].split("#")[0]:
                if not parameters["request"]["url"].startswith("data:"):
                    found.append(("asked for", parameters["request"]["url"]))
        return found


KEYS = {"Tab": 9, "End": 35, "Home": 36, "ArrowLeft": 37, "ArrowUp": 38, "ArrowRight": 39, "ArrowDown": 40}
