"""A headless Chromium that is driven over a pipe, by the commands of its DevTools protocol."""
import base64
import json
import os
import select
import shutil
import subprocess
import time

NAMES = ("chromium", "chromium-browser", "google-chrome")
SECONDS = 30


def path():
    """The path of a browser, or None."""
    return next((found for found in map(shutil.which, NAMES) if found), None)


class NoAnswer(Exception):
    """The browser did not answer, or refused."""


class Browser:
    """A browser with one page. Messages end in NUL; the browser reads them from its file 3, and writes them to its file 4."""

    def __init__(self, folder):
        requests, self.requests = os.pipe()
        self.answers, answers = os.pipe()
        # The browser's files 3 and 4 are these two, whatever their numbers here.
        script = f'exec "$0" "$@" 3<&{requests} 4>&{answers}'
        words = [path(), "--headless=new", "--remote-debugging-pipe", f"--user-data-dir={folder}", "--window-size=640,480",
                 "--no-first-run", "--disable-gpu", "--disable-dev-shm-usage", "--disable-background-networking",
                 "--no-proxy-server", *(["--no-sandbox"] if os.geteuid() == 0 else []), "about:blank"]
        self.process = subprocess.Popen(["bash", "-c", script, *words], stdin=subprocess.DEVNULL, stdout=subprocess.DEVNULL,
                                        stderr=subprocess.DEVNULL, pass_fds=[requests, answers])
        os.close(requests)
        os.close(answers)
        self.number, self.read, self.session = 0, b"", None
        target = self.call("Target.createTarget", url="about:blank")["targetId"]
        self.session = self.call("Target.attachToTarget", targetId=target, flatten=True)["sessionId"]
        self.call("Page.enable")

    def message(self, end):
        """The next message of the browser."""
        while b"\0" not in self.read:
            if not select.select([self.answers], [], [], max(end - time.monotonic(), 0))[0]:
                raise NoAnswer("the browser is late")
            piece = os.read(self.answers, 1 << 16)
            if not piece:
                raise NoAnswer("the browser ended")
            self.read += piece
        text, self.read = self.read.split(b"\0", 1)
        return json.loads(text)

    def call(self, method, **params):
        """The result of a command."""
        self.number += 1
        asked = {"id": self.number, "method": method, "params": params}
        if self.session:
            asked["sessionId"] = self.session
        os.write(self.requests, json.dumps(asked).encode() + b"\0")
        end = time.monotonic() + SECONDS
        while True:
            told = self.message(end)
            if told.get("id") == self.number:
                if "error" in told:
                    raise NoAnswer(f"{method}: {told['error']['message']}")
                return told["result"]

    def value(self, script):
        """What a script in the page comes to."""
        return self.call("Runtime.evaluate", expression=script, returnByValue=True)["result"].get("value")

    def text(self):
        """The text that the page shows."""
        return self.value("document.body.innerText")

    def wait_for(self, script):
        """Waits until a script in the page comes to true."""
        end = time.monotonic() + SECONDS
        while self.value(script) is not True:
            if time.monotonic() > end:
                raise NoAnswer(f"not so: {script}")
            time.sleep(0.05)

    def go(self, url):
        """Loads a page. Returns the error, or an empty text."""
        error = self.call("Page.navigate", url=url).get("errorText", "")
        self.wait_for("document.readyState == 'complete'")
        return error

    def click(self, selector):
        """Clicks, and waits for the page behind it."""
        self.value("window.isLeft = false")
        self.value(f"document.querySelector({json.dumps(selector)}).click()")
        self.wait_for("window.isLeft === undefined && document.readyState == 'complete'")

    def fill(self, selector, text):
        self.value(f"document.querySelector({json.dumps(selector)}).value = {json.dumps(text)}")

    def choose_file(self, selector, name):
        """Chooses a file of this machine in a form."""
        root = self.call("DOM.getDocument")["root"]["nodeId"]
        node = self.call("DOM.querySelector", nodeId=root, selector=selector)["nodeId"]
        self.call("DOM.setFileInputFiles", files=[name], nodeId=node)

    def screenshot(self):
        """The page as PNG."""
        return base64.b64decode(self.call("Page.captureScreenshot", format="png")["data"])

    def close(self):
        try:
            os.close(self.requests)
            self.process.wait(5)
        except (OSError, subprocess.TimeoutExpired):
            self.process.kill()
            self.process.wait()
        os.close(self.answers)

    def __enter__(self):
        return self

    def __exit__(self, *_):
        self.close()
