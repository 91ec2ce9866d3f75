"""A headless Chromium that scripts drive, over a pipe and by the DevTools protocol."""

import base64
import json
import os
import shutil
import subprocess
import tempfile
import threading

import checking

NAMES = ("chromium", "chromium-browser", "google-chrome", "google-chrome-stable", "chrome")
WORDS = ["--headless=new", "--no-sandbox", "--disable-gpu", "--hide-scrollbars", "--no-first-run", "--disable-extensions",
         "--disable-background-networking", "--disable-component-update", "--disable-sync", "--disable-dev-shm-usage",
         "--remote-debugging-pipe"]
KEYS = {"Enter": 13, "Escape": 27, "Tab": 9, " ": 32, "ArrowUp": 38, "ArrowDown": 40, "PageDown": 34, "PageUp": 33, "Home": 36,
        "End": 35}


def chromium():
    """Where Chromium is, if it is anywhere."""
    return next((path for path in map(shutil.which, NAMES) if path), None)


class Browser:
    """One tab. Nothing is waited for in it any more where what it shows has ended, by `has_ended`."""

    def __init__(self, size=(1400, 900), has_ended=lambda: False):
        self.calls, self.replies, self.has_ended = 0, {}, has_ended
        self.errors, self.requests, self.told = [], [], threading.Condition()
        self.folder = tempfile.mkdtemp(prefix="casa-browser-")
        ours_read, theirs_write = os.pipe()
        theirs_read, self.ours_write = os.pipe()

        def give():  # the protocol is at the descriptors 3 and 4
            read, write = os.dup(theirs_read), os.dup(theirs_write)
            os.dup2(read, 3)
            os.dup2(write, 4)
        self.process = subprocess.Popen([chromium(), *WORDS, f"--user-data-dir={self.folder}", "about:blank"], preexec_fn=give,
                                        close_fds=False, stdin=subprocess.DEVNULL, stdout=subprocess.DEVNULL,
                                        stderr=subprocess.DEVNULL)
        os.close(theirs_read)
        os.close(theirs_write)
        threading.Thread(target=self.read, args=[os.fdopen(ours_read, "rb")], daemon=True).start()
        self.session = None
        target = self.call("Target.createTarget", url="about:blank")["targetId"]
        self.session = self.call("Target.attachToTarget", targetId=target, flatten=True)["sessionId"]
        for domain in ("Page", "Runtime", "Log", "Network"):
            self.call(domain + ".enable")
        self.resize(*size)

    def read(self, pipe):
        rest = b""
        while more := pipe.read1(65536):
            *texts, rest = (rest + more).split(b"\0")
            for text in texts:
                self.take(json.loads(text))

    def take(self, told):
        with self.told:
            if "id" in told:
                self.replies[told["id"]] = told
            elif told["method"] == "Runtime.exceptionThrown":
                details = told["params"]["exceptionDetails"]
                self.errors.append(details.get("exception", {}).get("description") or details["text"])
            elif told["method"] == "Runtime.consoleAPICalled" and told["params"]["type"] in ("error", "warning"):
                self.errors.append(str([value.get("value") for value in told["params"]["args"]]))
            elif told["method"] == "Log.entryAdded" and told["params"]["entry"]["level"] == "error":
                if told["params"]["entry"]["source"] != "network":
                    self.errors.append(told["params"]["entry"]["text"])
            elif told["method"] == "Network.requestWillBeSent":
                request = told["params"]["request"]
                self.requests.append((told["params"]["requestId"], request["method"], request["url"], request.get("postData")))
            self.told.notify_all()

    def call(self, method, **params):
        with self.told:
            self.calls += 1
            number = self.calls
            message = {"id": number, "method": method, "params": params}
            if self.session:
                message["sessionId"] = self.session
            os.write(self.ours_write, json.dumps(message).encode() + b"\0")
            if not self.told.wait_for(lambda: number in self.replies, checking.QUIET):
                raise TimeoutError(method)
            reply = self.replies.pop(number)
        if "error" in reply:
            raise RuntimeError(f"{method}: {reply['error']['message']}")
        return reply["result"]

    def resize(self, width, height):
        self.call("Emulation.setDeviceMetricsOverride", width=width, height=height, deviceScaleFactor=1, mobile=False)

    def media(self, **features):
        """With these media features, as `prefers_color_scheme="dark"`; or for paper, with `media="print"`."""
        media = features.pop("media", "")
        self.call("Emulation.setEmulatedMedia", media=media,
                  features=[{"name": name.replace("_", "-"), "value": value} for name, value in features.items()])

    def open(self, url):
        self.call("Page.navigate", url=url)
        self.until("document.readyState === 'complete'")

    def get(self, script):
        """What an expression of JavaScript is, as JSON has it."""
        done = self.call("Runtime.evaluate", expression=script, returnByValue=True, awaitPromise=True)
        if "exceptionDetails" in done:
            raise RuntimeError(f"{script}: {done['exceptionDetails'].get('exception', {}).get('description')}")
        return done["result"].get("value")

    def until(self, script):
        """Waits until an expression holds, and tells whether it does."""
        def holds():
            if self.has_ended():
                raise ConnectionError("what is shown has ended")
            return self.get(f"!!({script})")

        return checking.until(holds, pause=0.03)

    def click(self, selector):
        """Presses what a selector names in its middle, as a mouse does."""
        place = self.get(f"""(() => {{ const node = document.querySelector({json.dumps(selector)}); if (!node) return null;
            node.scrollIntoView({{block: "nearest"}}); const box = node.getBoundingClientRect();
            return [box.x + box.width / 2, box.y + box.height / 2] }})()""")
        if place is None:
            raise LookupError(selector)
        for kind in ("mousePressed", "mouseReleased"):
            self.call("Input.dispatchMouseEvent", type=kind, x=place[0], y=place[1], button="left", clickCount=1)

    def key(self, name):
        """Presses a key: a character, or one of KEYS."""
        more = {"text": "\r" if name == "Enter" else name} if name in ("Enter", " ") or len(name) == 1 else {}
        code = KEYS.get(name, ord(name.upper()[0]))
        self.call("Input.dispatchKeyEvent", type="keyDown", key=name, windowsVirtualKeyCode=code, **more)
        self.call("Input.dispatchKeyEvent", type="keyUp", key=name, windowsVirtualKeyCode=code)

    def type(self, text):
        self.call("Input.insertText", text=text)

    def body(self, request):
        """The body of the response to a request."""
        got = self.call("Network.getResponseBody", requestId=request)
        return base64.b64decode(got["body"]).decode() if got["base64Encoded"] else got["body"]

    def picture(self, path, whole=False):
        done = self.call("Page.captureScreenshot", format="png", captureBeyondViewport=whole)
        with open(path, "wb") as file:
            file.write(base64.b64decode(done["data"]))

    def paper(self, path):
        with open(path, "wb") as file:
            file.write(base64.b64decode(self.call("Page.printToPDF", printBackground=False)["data"]))

    def close(self):
        try:
            self.session = None
            self.call("Browser.close")
            self.process.wait(checking.QUIET)
        except (OSError, TimeoutError, RuntimeError, subprocess.TimeoutExpired):
            self.process.kill()
            self.process.wait()
        shutil.rmtree(self.folder, ignore_errors=True)
