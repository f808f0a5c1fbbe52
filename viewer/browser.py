"""A headless Chromium, driven over its debugging pipe: one page, and what a user does with it."""
import base64
import json
import os
import select
import shutil
import subprocess
import tempfile
import time

NAMES = ("chromium", "chromium-headless-shell", "chromium-browser", "google-chrome")
FLAGS = ("--headless=new", "--no-sandbox", "--disable-gpu", "--disable-dev-shm-usage", "--no-first-run", "--disable-extensions",
         "--disable-background-networking", "--disable-component-update", "--disable-sync", "--mute-audio", "--hide-scrollbars")
KEY_CODES = {"ArrowDown": 40, "ArrowUp": 38, "PageDown": 34, "PageUp": 33, "Home": 36, "End": 35, "Enter": 13, "Escape": 27, "Tab": 9}


def find():
    return next(filter(None, map(shutil.which, NAMES)), None)


# The browser ended, or says nothing any more: no further check can run.
class Ended(Exception):
    pass


# A Chromium and the two ends of its debugging pipe.
class Pipe:
    def __init__(self, words):
        self.number, self.events, self.rest, self.session = 0, [], b"", None
        read_end, self.to = os.pipe()
        self.come, write_end = os.pipe()

        # The debugging pipe is the descriptors 3 and 4, whatever stands there now.
        def ends():
            first, second = os.dup(read_end), os.dup(write_end)
            os.dup2(first, 3)
            os.dup2(second, 4)

        self.process = subprocess.Popen([*words, "--remote-debugging-pipe"], preexec_fn=ends, close_fds=False,
                                        stdout=subprocess.DEVNULL, stderr=subprocess.DEVNULL)
        os.close(read_end)
        os.close(write_end)

    def write(self, message):
        data = json.dumps(message).encode() + b"\0"
        try:
            while data:
                data = data[os.write(self.to, data):]
        except BrokenPipeError:
            raise Ended("the browser ended")

    # The next message, or nothing where none comes in time.
    def read(self, timeout):
        while b"\0" not in self.rest:
            if not select.select([self.come], [], [], timeout)[0]:
                return None
            data = os.read(self.come, 1 << 20)
            if not data:
                raise Ended("the browser ended")
            self.rest += data
        line, _, self.rest = self.rest.partition(b"\0")
        return json.loads(line)

    # Ends the browser, as soon as it has written what it has to.
    def end(self, ask):
        try:
            ask()
            self.process.wait(timeout=10)
        except (OSError, Ended, RuntimeError, subprocess.TimeoutExpired):
            self.process.kill()
            self.process.wait()
        os.close(self.to)
        os.close(self.come)


class Browser(Pipe):
    def __init__(self, program):
        self.folder = tempfile.mkdtemp(prefix="viewer-check-")
        self.downloads = os.path.join(self.folder, "downloads")
        super().__init__([program, *FLAGS, "--user-data-dir=" + self.folder, "about:blank"])
        self.attach()

    def attach(self):
        deadline = time.monotonic() + 60
        pages = []
        while not pages and time.monotonic() < deadline:
            pages = [each for each in self.call("Target.getTargets")["targetInfos"] if each["type"] == "page"]
        if not pages:
            raise Ended("the browser opens no page")
        self.session = self.call("Target.attachToTarget", targetId=pages[0]["targetId"], flatten=True)["sessionId"]
        for domain in ("Page", "Runtime", "Network", "Log", "DOM", "Accessibility"):
            self.call(domain + ".enable")
        self.call("Browser.setDownloadBehavior", behavior="allow", downloadPath=self.downloads)

    def send(self, method, **members):
        self.number += 1
        message = {"id": self.number, "method": method, "params": members}
        if self.session and not method.startswith(("Target.", "Browser.")):
            message["sessionId"] = self.session
        self.write(message)
        return self.number

    # The next message; events are kept.
    def receive(self, timeout):
        message = self.read(timeout)
        if message is None:
            raise Ended("the browser says nothing for %d seconds" % timeout)
        if "id" not in message:
            self.events.append(message)
        return message

    def call(self, method, timeout=180, **members):
        number = self.send(method, **members)
        while True:
            message = self.receive(timeout)
            if message.get("id") == number:
                if "error" in message:
                    raise RuntimeError("%s: %s" % (method, message["error"]["message"]))
                return message["result"]

    def evaluate(self, expression):
        answer = self.call("Runtime.evaluate", expression=expression, returnByValue=True, awaitPromise=True)
        if "exceptionDetails" in answer:
            raise RuntimeError(answer["exceptionDetails"].get("exception", {}).get("description", "an error in the page"))
        return answer["result"].get("value")

    # Waits until an expression is true in the page.
    def wait(self, expression, seconds=120):
        deadline = time.monotonic() + seconds
        while not self.evaluate(expression):
            if time.monotonic() > deadline:
                raise TimeoutError("never true: " + expression)
            time.sleep(0.02)

    def size(self, width, height, dark=False, reduced=False):
        self.call("Emulation.setDeviceMetricsOverride", width=width, height=height, deviceScaleFactor=1, mobile=False)
        self.call("Emulation.setEmulatedMedia", features=[
            {"name": "prefers-color-scheme", "value": "dark" if dark else "light"},
            {"name": "prefers-reduced-motion", "value": "reduce" if reduced else "no-preference"}])

    def open(self, url):
        self.call("Page.navigate", url=url)
        self.wait("document.readyState === 'complete' && location.href.startsWith('file:')")

    def choose_files(self, selector, paths):
        root = self.call("DOM.getDocument")["root"]["nodeId"]
        node = self.call("DOM.querySelector", nodeId=root, selector=selector)["nodeId"]
        self.call("DOM.setFileInputFiles", nodeId=node, files=list(paths))

    def press(self, key, text=""):
        members = {"key": key, "windowsVirtualKeyCode": KEY_CODES.get(key, ord(key.upper()) if len(key) == 1 else 0)}
        self.call("Input.dispatchKeyEvent", type="keyDown", text=text or (key if len(key) == 1 else ""), **members)
        self.call("Input.dispatchKeyEvent", type="keyUp", **members)

    def click(self, selector):
        self.evaluate("document.querySelector(%s).click()" % json.dumps(selector))

    def screenshot(self, path):
        data = self.call("Page.captureScreenshot", format="png")["data"]
        with open(path, "wb") as file:
            file.write(base64.b64decode(data))

    # The file that the page saves while `action` is done.
    def download(self, action, seconds=120):
        shutil.rmtree(self.downloads, ignore_errors=True)
        os.makedirs(self.downloads)
        action()
        deadline = time.monotonic() + seconds
        while time.monotonic() < deadline:
            names = [name for name in os.listdir(self.downloads) if not name.endswith(".crdownload") and not name.startswith(".")]
            if names:
                path = os.path.join(self.downloads, names[0])
                size = os.path.getsize(path)
                time.sleep(0.05)
                if size and size == os.path.getsize(path):
                    with open(path, encoding="utf-8") as file:
                        return file.read()
            time.sleep(0.02)
        raise TimeoutError("nothing was saved")

    def close(self):
        self.end(lambda: self.call("Browser.close", timeout=10))
        shutil.rmtree(self.folder, ignore_errors=True)
