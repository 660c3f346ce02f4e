"""Headless Chromium over its debugging pipe (file descriptors 3 and 4): no port, no network, and nothing but Python and chromium."""
import base64
import contextlib
import json
import os
import pathlib
import select
import shutil
import subprocess
import tempfile
import time

FLAGS = [
    "--headless", "--remote-debugging-pipe", "--no-sandbox", "--disable-gpu", "--disable-dev-shm-usage", "--no-first-run", "--disable-background-networking",
    "--disable-component-update", "--disable-sync", "--disable-extensions", "--hide-scrollbars", "--lang=en-US", "--host-resolver-rules=MAP * ~NOTFOUND",
    # A mouse, as at a desk: fine, and it hovers.
    "--blink-settings=primaryHoverType=2,availableHoverTypes=2,primaryPointerType=4,availablePointerTypes=4",
    # A page that isn't in front runs as quickly as one that is.
    "--disable-background-timer-throttling", "--disable-renderer-backgrounding", "--disable-backgrounding-occluded-windows",
    # A test changes the address more often than a browser bears of a page.
    "--disable-ipc-flooding-protection",
]
KEYS = {"Tab": 9, "Enter": 13, "Escape": 27, "Delete": 46, "ArrowLeft": 37, "ArrowUp": 38, "ArrowRight": 39, "ArrowDown": 40, "Home": 36, "End": 35}
WAIT_SECONDS = float(os.environ.get("DOBUTSU_WAIT", 180))  # what is waited for comes in a second, but on a machine that is busy
ANSWER_SECONDS = 2 * WAIT_SECONDS


class Browser:
    """A browser with one page. `events` are all that it told of its own accord."""

    def __init__(self):
        self.home = tempfile.mkdtemp(prefix="chromium-")
        to_child, self.to = os.pipe()
        self.back, from_child = os.pipe()

        def hand_over():  # the pipe's ends as 3 and 4, whatever their numbers are
            ends = os.dup(to_child), os.dup(from_child)
            os.dup2(ends[0], 3)
            os.dup2(ends[1], 4)

        self.child = subprocess.Popen(
            ["chromium", *FLAGS, f"--user-data-dir={self.home}", "about:blank"], preexec_fn=hand_over, close_fds=False, stdin=subprocess.DEVNULL,
            stdout=subprocess.DEVNULL, stderr=subprocess.DEVNULL, env={**os.environ, "HOME": self.home})
        os.close(to_child)
        os.close(from_child)
        self.number, self.buffer, self.events, self.session = 0, b"", [], None
        self.attach()

    def attach(self, **about):
        """Goes over to a new page."""
        self.session = None
        target = self.call("Target.createTarget", url="about:blank", **about)["targetId"]
        self.session = self.call("Target.attachToTarget", targetId=target, flatten=True)["sessionId"]
        for domain in ("Page", "Runtime", "DOM", "Network", "Log"):
            self.call(domain + ".enable")

    @contextlib.contextmanager
    def other_page(self):
        """Another page meanwhile, with a store of its own."""
        kept, self.session = self.session, None
        context = self.call("Target.createBrowserContext")["browserContextId"]
        self.attach(browserContextId=context)
        try:
            yield
        finally:
            self.session = None
            self.call("Target.disposeBrowserContext", browserContextId=context)
            self.session = kept

    # ---- calls

    def read(self):
        while b"\0" not in self.buffer:
            if not select.select([self.back], [], [], ANSWER_SECONDS)[0]:
                raise TimeoutError("the browser is silent")
            more = os.read(self.back, 1 << 20)
            if not more:
                raise EOFError("the browser has ended")
            self.buffer += more
        message, _, self.buffer = self.buffer.partition(b"\0")
        return json.loads(message)

    def call(self, method, **params):
        self.number += 1
        number = self.number
        message = {"id": number, "method": method, "params": params, **({"sessionId": self.session} if self.session else {})}
        os.write(self.to, json.dumps(message).encode() + b"\0")
        while True:
            answer = self.read()
            if answer.get("id") == number:
                if "error" in answer:
                    raise RuntimeError(f"{method}: {answer['error']}")
                return answer["result"]
            self.events.append(answer)

    def js(self, text):
        """What the page's code tells, as it would be in JSON."""
        answer = self.call("Runtime.evaluate", expression=text, awaitPromise=True, returnByValue=True, userGesture=True)
        if "exceptionDetails" in answer:
            raise RuntimeError(answer["exceptionDetails"].get("exception", {}).get("description") or answer["exceptionDetails"]["text"])
        return answer["result"].get("value")

    def wait(self, text, seconds=WAIT_SECONDS):
        end = time.time() + seconds
        while not self.js(text):
            if time.time() > end:
                raise TimeoutError(text)
            time.sleep(0.02)

    # ---- what its user does

    def open(self, url):
        self.call("Page.navigate", url="about:blank")
        self.call("Page.navigate", url=url)
        self.wait("!!document.documentElement && document.documentElement.dataset.ready === '1'")

    def give_files(self, selector, *files):
        root = self.call("DOM.getDocument")["root"]["nodeId"]
        node = self.call("DOM.querySelector", nodeId=root, selector=selector)["nodeId"]
        self.call("DOM.setFileInputFiles", nodeId=node, files=[os.path.abspath(it) for it in files])

    def size(self, width, height, scale=1, mobile=False):
        self.call("Emulation.setDeviceMetricsOverride", width=width, height=height, deviceScaleFactor=scale, mobile=mobile)
        self.call("Emulation.setTouchEmulationEnabled", enabled=mobile)

    def click(self, selector):
        """A click of the mouse in the middle of what the selector finds first."""
        x, y = self.js(f"(() => {{ const it = document.querySelector({json.dumps(selector)}); it.scrollIntoView({{block: 'center'}}); "
                       "const box = it.getBoundingClientRect(); return [box.x + box.width / 2, box.y + box.height / 2]; })()")
        for kind in ("mousePressed", "mouseReleased"):
            self.call("Input.dispatchMouseEvent", type=kind, x=x, y=y, button="left", clickCount=1)

    def key(self, key):
        code, text = KEYS.get(key, ord(key.upper()[0])), "\r" if key == "Enter" else key if len(key) == 1 else ""
        self.call("Input.dispatchKeyEvent", type="keyDown", key=key, windowsVirtualKeyCode=code, text=text)
        self.call("Input.dispatchKeyEvent", type="keyUp", key=key, windowsVirtualKeyCode=code)

    def shot(self, file, full=False):
        """A picture of what is seen, or of the full page."""
        data = self.call("Page.captureScreenshot", format="png", captureBeyondViewport=full)["data"]
        pathlib.Path(file).write_bytes(base64.b64decode(data))

    def close(self):
        try:
            self.session = None
            self.call("Browser.close")
            self.child.wait(10)
        except (OSError, EOFError, RuntimeError, subprocess.TimeoutExpired):
            self.child.kill()
            self.child.wait()
        shutil.rmtree(self.home, ignore_errors=True)
