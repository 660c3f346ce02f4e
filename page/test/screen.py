"""The page as its reader sees it: positions entered, values, moves and lines read, clicks, drags, taps and keys."""
import base64
import json
import pathlib
import re

SEEN = (pathlib.Path(__file__).parent / "seen.js").read_text()
SETTLED = "document.documentElement.dataset.busy === ''"


class Screen:
    def __init__(self, browser, page):
        self.browser, self.page, self.url = browser, page, page.as_uri()
        self.js = browser.js

    def open(self, fragment=""):
        self.browser.open(self.url + fragment)
        self.js(SEEN)
        self.settle()

    def afresh(self):
        """The page as at a first visit, in English, in a window of its usual size."""
        self.browser.call("Emulation.setEmulatedMedia", media="")
        self.browser.size(1180, 1000)
        if self.js("location.protocol") != "file:":  # what the page keeps is only seen from a page
            self.open()
        self.js("localStorage.clear()")
        self.open()
        self.language("en")

    def seen(self, name, *about):
        """What a function of seen.js tells."""
        return self.js(f"Seen.{name}({', '.join(map(json.dumps, about))})")

    def settle(self, more="true", **about):
        self.browser.wait(f"{SETTLED} && !!({more})", **about)

    def language(self, name):
        """English, Japanese, or Japanese in kana, by the page's buttons."""
        of = lambda: self.js("document.documentElement.dataset.language")
        if (of() == "en") != (name == "en"):
            self.press("language")
        if of() != name:
            self.press("kana")

    def theme(self, name):
        while self.js("document.documentElement.dataset.theme") != name or self.text("theme") == "◐":
            self.press("theme")

    def press(self, button):
        self.js(f"document.getElementById({json.dumps(button)}).click()")
        self.settle()

    def choose(self, select, value):
        self.seen("choose", select, value)
        self.settle()

    def give(self, *files, **about):
        """Gives files, and waits until each of them is told as open or refused: for so many `seconds`, where it isn't as long as for all else."""
        self.js("document.getElementById('files').textContent = ''")
        self.browser.give_files("#file", *files)
        self.settle_files(**about)

    def is_enabled(self, button):
        return self.js(f"(it => !it.disabled && it.getAttribute('aria-disabled') !== 'true')(document.getElementById({json.dumps(button)}))")

    def settle_files(self, **about):
        self.settle("document.querySelector('#files:not([aria-busy=true]) b') && document.querySelector('#exercise-card[aria-busy=false]')", **about)

    def base64(self, path):
        return base64.b64encode(path.read_bytes()).decode()

    def enter(self, text):
        self.seen("enter", text)
        self.settle()

    def text(self, name):
        return self.js(f"document.getElementById({json.dumps(name)}).innerText.trim()")

    def position(self):
        return self.js("document.getElementById('text').value")

    def value(self):
        return self.js("document.querySelector('#value b').textContent")

    def told(self):
        return self.js("document.querySelector('#value span').textContent")

    def moves(self):
        return self.js("[...document.querySelectorAll('#moves button')].map(it => [...it.children].map(part => part.textContent).join(' '))")

    def line(self):
        return self.js("[...document.querySelectorAll('#line .move')].map(it => it.textContent).join(' ')")

    def end(self):
        return self.js("(document.querySelector('#line .end') || {textContent: ''}).textContent")

    def score(self):
        return self.text("score")

    def record(self):
        return self.js("[...document.querySelectorAll('#record .move')].map(it => it.textContent)")

    def marks(self):
        """What is said of the worth of each move that was played."""
        return self.js("[...document.querySelectorAll('#record .step')].map(it => (it.querySelector('.mark') || {textContent: ''}).textContent.trim())")

    def pages(self):
        """How many sheets of A4 the page is on paper."""
        paper = base64.b64decode(self.browser.call("Page.printToPDF", paperWidth=8.27, paperHeight=11.69)["data"])
        return len(re.findall(rb"/Type\s*/Page\b", paper))

    def current(self):
        return self.js("document.querySelector('#record [aria-current]').textContent")

    def files(self):
        """Each line of the files: its name and what is said of it, and whether it is a bad one."""
        return self.js("[...document.querySelectorAll('#files p')].map(it => [[...it.querySelectorAll('b, span')].map(part => part.textContent).join(''), it.classList.contains('bad')])")

    def label(self, selector):
        return self.js(f"document.querySelector({json.dumps(selector)}).getAttribute('aria-label')")

    def play(self, move):
        """Plays the move of that text by its button in the list."""
        self.js(f"[...document.querySelectorAll('#moves button')].find(it => it.firstChild.textContent === {json.dumps(move)}).click()")
        self.settle()

    def middle(self, selector):
        return self.seen("middle", selector)

    def drag(self, start, end):
        """Drags with the mouse from the middle of an element to that of another one, or to a point."""
        at, to = self.middle(start), end if isinstance(end, tuple) else self.middle(end)
        mouse = lambda kind, x, y, held: self.browser.call("Input.dispatchMouseEvent", type=kind, x=x, y=y, button="left", buttons=held, clickCount=1)
        mouse("mousePressed", *at, 1)
        for part in (0.3, 0.7, 1):
            mouse("mouseMoved", at[0] + part * (to[0] - at[0]), at[1] + part * (to[1] - at[1]), 1)
        mouse("mouseReleased", *to, 0)
        self.settle()

    def touch(self, start, end=None):
        """Taps an element, or drags from it to another one by a finger."""
        at = self.middle(start)
        finger = lambda kind, *points: self.browser.call("Input.dispatchTouchEvent", type=kind, touchPoints=[{"x": x, "y": y} for x, y in points])
        finger("touchStart", at)
        if end:
            to = self.middle(end)
            for part in (0.3, 0.7, 1):
                finger("touchMove", (at[0] + part * (to[0] - at[0]), at[1] + part * (to[1] - at[1])))
        finger("touchEnd")
        self.settle()

    def in_both(self, checks, what, read, english, japanese):
        """What is read on the page in English and in Japanese, against two texts that stand in the test."""
        for language, wanted in [("ja", japanese), ("en", english)]:
            self.language(language)
            checks.expect(f"{what}, {language}", read(), wanted)

    def focus(self, selector):
        self.js(f"document.querySelector({json.dumps(selector)}).focus()")

    def key(self, *keys):
        for key in keys:
            self.browser.key(key)
        self.settle()
