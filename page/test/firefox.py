"""Headless Firefox over Marionette, its own debugging protocol, on a port of this machine: as much of browser.Browser as the tests of values, texts, files,
practice and random acts need. What they run in the page stands in a script of the page's own, since its policy allows no other."""
import json
import os
import pathlib
import shutil
import socket
import subprocess
import tempfile
import time

from browser import WAIT_SECONDS

PREFERENCES = {
    "marionette.port": 0, "browser.shell.checkDefaultBrowser": False, "datareporting.policy.dataSubmissionEnabled": False, "app.update.disabledForTesting": True,
    "browser.startup.homepage_override.mstone": "ignore", "intl.accept_languages": "en-US", "network.captive-portal-service.enabled": False,
    "network.connectivity-service.enabled": False, "dom.disable_open_during_load": False, "toolkit.telemetry.reportingpolicy.firstRun": False,
}
NAMES = {"firefox-esr", "firefox"}
ANSWER = "data-test-answer"
KEYS = {"Enter": "\ue007", "Escape": "\ue00c", "Delete": "\ue017", "ArrowLeft": "\ue012", "ArrowUp": "\ue013", "ArrowRight": "\ue014", "ArrowDown": "\ue015", "Home": "\ue011", "End": "\ue010"}


def program():
    return next((found for found in map(shutil.which, sorted(NAMES, reverse=True)) if found), None)


class Firefox:
    """A browser with one page."""

    def __init__(self):
        self.home, self.events, self.number, self.rest = tempfile.mkdtemp(prefix="firefox-"), [], 0, b""
        lines = [f"user_pref({json.dumps(name)}, {json.dumps(value)});" for name, value in PREFERENCES.items()]
        pathlib.Path(self.home, "user.js").write_text("\n".join(lines))
        self.child = subprocess.Popen([program(), "--headless", "--marionette", "--no-remote", "--profile", self.home, "about:blank"], stdin=subprocess.DEVNULL,
                                      stdout=subprocess.DEVNULL, stderr=subprocess.DEVNULL, env={**os.environ, "HOME": self.home, "MOZ_HEADLESS": "1"})
        self.line = self.connected()
        self.read()
        self.send("WebDriver:NewSession", capabilities={"alwaysMatch": {"acceptInsecureCerts": False}})
        self.send("WebDriver:SetTimeouts", script=120000, pageLoad=60000)

    def connected(self):
        """A connection to the port that the browser has chosen, which stands in its profile then."""
        end, port = time.time() + WAIT_SECONDS, pathlib.Path(self.home, "MarionetteActivePort")
        while True:
            try:
                return socket.create_connection(("127.0.0.1", int(port.read_text())), 150)
            except (OSError, ValueError):  # it isn't written yet, or not whole
                if time.time() > end:
                    raise
                time.sleep(0.1)

    # ---- calls: a number, a colon, and so many bytes of JSON

    def more(self):
        got = self.line.recv(1 << 20)
        if not got:
            raise EOFError("the browser has ended")
        return got

    def read(self):
        while b":" not in self.rest:
            self.rest += self.more()
        length, _, self.rest = self.rest.partition(b":")
        while len(self.rest) < int(length):
            self.rest += self.more()
        message, self.rest = self.rest[: int(length)], self.rest[int(length):]
        return json.loads(message)

    def send(self, command, **words):
        self.number += 1
        message = json.dumps([0, self.number, command, words]).encode()
        self.line.sendall(str(len(message)).encode() + b":" + message)
        _, _, error, result = self.read()
        if error:
            raise RuntimeError(f"{command}: {error.get('message')}")
        return result

    def call(self, method, **words):
        """Of Chromium's own calls those that set the paper or the screen change nothing here."""
        if not method.startswith("Emulation."):
            raise RuntimeError(f"{method} isn't Firefox's")
        return {}

    def script(self, text):
        return self.send("WebDriver:ExecuteScript", script=text, args=[])["value"]

    def js(self, text):
        """What the page's code tells, as it would be in JSON: of an expression its value, of statements nothing."""
        text = text.strip().rstrip(";")
        as_value = f"(async () => {{ const tell = (it) => document.documentElement.setAttribute({json.dumps(ANSWER)}, JSON.stringify(it)); " \
                   f"try {{ const it = await (\n{text}\n); tell({{ it: it === undefined ? null : it }}); }} catch (why) {{ tell({{ why: String(why) + why.stack }}); }} }})()"
        as_statements = f"try {{ {text}\n; document.documentElement.setAttribute({json.dumps(ANSWER)}, '{{}}'); }} " \
                        f"catch (why) {{ document.documentElement.setAttribute({json.dumps(ANSWER)}, JSON.stringify({{ why: String(why) }})); }}"
        put = """
            const [words] = %s, root = document.documentElement;
            root.removeAttribute("%s");
            const made = document.createElement("script");
            let isWrong = false;
            const note = (event) => { if (event.error === undefined || /SyntaxError/.test(event.message)) { isWrong = true; event.stopImmediatePropagation(); event.preventDefault(); } };
            window.addEventListener("error", note, true);
            made.textContent = words;
            document.body.append(made);
            made.remove();
            window.removeEventListener("error", note, true);
            return isWrong;"""
        if self.script(put % (json.dumps([as_value]), ANSWER)):
            self.script(put % (json.dumps([as_statements]), ANSWER))
        end = time.time() + 600
        while True:
            answer = self.script(f"return document.documentElement.getAttribute('{ANSWER}')")
            if answer is not None:
                break
            if time.time() > end:
                raise TimeoutError(text[:200])
            time.sleep(0.005)
        found = json.loads(answer)
        if "why" in found:
            raise RuntimeError(found["why"])
        return found.get("it")

    def wait(self, text, seconds=WAIT_SECONDS):
        end = time.time() + seconds
        while not self.js(text):
            if time.time() > end:
                raise TimeoutError(text)
            time.sleep(0.02)

    # ---- what its user does

    def open(self, url):
        self.send("WebDriver:Navigate", url="about:blank")
        self.send("WebDriver:Navigate", url=url)
        end = time.time() + WAIT_SECONDS
        while self.script("return document.documentElement.dataset.ready") != "1":
            if time.time() > end:
                raise TimeoutError(url)
            time.sleep(0.02)

    def element(self, selector):
        return next(iter(self.send("WebDriver:FindElement", using="css selector", value=selector)["value"].values()))

    def give_files(self, selector, *files):
        self.send("WebDriver:ElementSendKeys", id=self.element(selector), text="\n".join(os.path.abspath(it) for it in files))

    def size(self, width, height, scale=1, mobile=False):
        """A window whose page has that size."""
        self.send("WebDriver:SetWindowRect", width=width, height=height)
        wide, high = self.script("return [outerWidth - innerWidth, outerHeight - innerHeight]")
        self.send("WebDriver:SetWindowRect", width=width + wide, height=height + high)

    def click(self, selector):
        self.send("WebDriver:ElementClick", id=self.element(selector))

    def key(self, key):
        value = KEYS.get(key, key)
        actions = [{"type": "keyDown", "value": value}, {"type": "keyUp", "value": value}]
        self.send("WebDriver:PerformActions", actions=[{"type": "key", "id": "keys", "actions": actions}])

    def close(self):
        try:
            self.send("Marionette:Quit", flags=["eForceQuit"])
            self.child.wait(10)
        except (OSError, EOFError, RuntimeError, ValueError, subprocess.TimeoutExpired):
            self.child.kill()
            self.child.wait()
        shutil.rmtree(self.home, ignore_errors=True)
