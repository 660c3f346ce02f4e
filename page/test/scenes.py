#!/usr/bin/env python3
"""Scenes: named states of the page, each compared with a text of all that a person sees and hears there.

page/test/scenes.py [--page PAGE] [--firefox] [--states FOLDER] [--jobs N] [--renew] [--until-failure] [--seconds] [--list] [NAME..]

A scene of stories.py is played in headless Chromium on the page that the sources make, or on PAGE. Its first state is told whole (scene.js), or by what differs
from that of the scene `table`; and behind each further act what it changes. The text has to be that of page/test/scenes/NAME.txt; where it isn't, the lines that
differ are printed. With `--renew` the files are written instead: look at `git diff page/test/scenes` then. Where a table is open all values that are shown are
compared with pure Python's besides. NAMEs choose scenes, all without; the name `elsewhere` is a quarter of them. N browsers work side by side, by default one for
each processor, each with a profile of its own, and each scene begins with an empty store. Time stands still in a scene, but where its story lets it go on.

The files are written with the Japanese font of Debian's fonts-noto-cjk (`tools/have --install`). Without it the scenes that show Japanese are played, and their values
compared, but not their lines: a line says which they are.

With `--firefox` a scene is played in Firefox, by default the quarter. There things stand a little elsewhere, so it is told without looks and places, and compared
with what Chromium shows of them: FOLDER keeps that, and what it lacks Chromium plays first. The last line is `N passed, M failed`.
"""
import argparse
import contextlib
import difflib
import json
import os
import pathlib
import re
import subprocess
import sys
import tempfile
import time

sys.dont_write_bytecode = True
HERE = pathlib.Path(__file__).resolve().parent
sys.path[:0] = [str(HERE), str(HERE.parent)]
import side_by_side
import stories
from browser import WAIT_SECONDS, Browser
from firefox import Firefox
from scene_files import Files
from scene_values import wrong_values
from screen import Screen

GOLDEN = HERE / "scenes"
# The scenes that are played in the other browser and by the other engine too: a quarter of them.
ELSEWHERE = (
    "start", "table", "values", "ends", "chosen", "drops", "line", "texts", "link", "rules", "file_names", "refused", "refused_certificates", "claims", "practice", "exercise", "game", "game_files", "pasted_kifu",
    "lesson", "settings", "kept",
)
# What the page says of the engine: as the proved one, and as the script engine, by which the files are written.
ENGINES = [
    ("proved code, a WebAssembly module made from the proved sources of crates/dobutsu_web", "JavaScript, tested and not proved"),
    ("証明されたコード（crates/dobutsu_web の証明済みソースから作った WebAssembly）", "普通の JavaScript（テスト済み、証明なし）"),
    ("しょうめいされた コード（crates/dobutsu_web の しょうめいずみの ソースから つくった WebAssembly）", "ふつうの JavaScript（テストずみ、しょうめいなし）"),
    ("{win: ✓} proved engine", "script engine"), ("{win: ✓} 証明済みエンジン", "普通のエンジン"), ("{win: ✓} しょうめいずみ エンジン", "ふつうの エンジン"), ("checked by proved code", "checked by JavaScript"),
    ("証明済みエンジン", "普通のエンジン"), ("しょうめいずみ エンジン", "ふつうの エンジン"), ("proved engine", "script engine"),
    ("証明されたコードで検査済み", "普通の JavaScript で検査済み"), ("しょうめいされた コードで けんさずみ", "ふつうの JavaScript で けんさずみ"),
]
TOUCHED = ("phone", "small", "lying", "lesson_phone")
WHOLE = ("table", "start", "phone", "wide", "dark", "japanese", "kana", "lesson")  # whose first state is told whole, that of others beside the first one's
WALKER = (HERE / "scene.js").read_text()
SEED = """Math.random = ((seed) => () => {
  seed = (seed + 0x6d2b79f5) | 0;
  let word = Math.imul(seed ^ (seed >>> 15), 1 | seed);
  word = (word + Math.imul(word ^ (word >>> 7), 61 | word)) ^ word;
  return ((word ^ (word >>> 14)) >>> 0) / 4294967296;
})(7)"""
SIZE = (1180, 1000)
SHORT = 44
JAPANESE = re.compile("[\u3041-\u30ff\u4e00-\u9fff]")
BUTTONS = re.compile("日本語|ひらがな")  # the two that change the language, which have room in any font
# Whether the browser has the font: a word isn't as wide in it as in a font of the system.
HAS_FONT = """(() => {
  const pen = document.createElement("canvas").getContext("2d");
  const widthIn = (fonts) => { pen.font = `20px ${fonts}`; return pen.measureText("milwin").width; };
  return ["serif", "monospace"].some((other) => widthIn(`"Noto Sans CJK JP", ${other}`) !== widthIn(other));
})()"""


def changes(before, now):
    """The lines that came, with `~` where they stand in the place of others, else with `+`; of those that went alone the beginnings."""
    out = []
    for kind, a, b, c, d in difflib.SequenceMatcher(None, before, now, autojunk=False).get_opcodes():
        if kind == "equal":
            continue
        instead, gone = min(b - a, d - c), (b - a) - (d - c)
        out += [f"{'~' if place < instead else '+'} {line.strip()}" for place, line in enumerate(now[c:d])]
        if kind == "delete":
            out += [f"- {line.strip()[:SHORT]}" for line in before[a:b]]
        elif gone > 0:
            out.append(f"- {gone} more")
    return out or ["nothing changes"]


class Differs(Exception):
    """A scene isn't as it has to be: the line that is there."""


class Stage:
    """The page on which one scene is played: acts of its user, and behind each the lines that it changed."""

    def __init__(self, screen, files, base, wanted=None):
        self.wanted = wanted  # the lines of its file, where it is left at the first one that differs
        self.base = base  # the lines that the first state is told beside, or none where it is told whole
        self.screen, self.browser, self.files, self.js = screen, screen.browser, files, screen.js
        self.out, self.states, self.said, self.last, self.wrong, self.colours = [], [], set(), None, [], False
        self.is_firefox = isinstance(self.browser, Firefox)
        self.pointed = None  # where the mouse is in the window, and its buttons that are held
        self.heard = len(self.browser.events)
        self.is_shared = False  # whether it is told besides as each browser has to show it

    # ---- what is told

    def write(self, words, found, is_looked_up=True):
        lines = self.by_any_engine(found["lines"])
        if self.last is None and self.base:
            self.out += [f"== {words}; beside the scene table", *changes(self.base, lines)]
        else:
            self.out += [f"== {words}", *(lines if self.last is None else changes(self.last, lines))]
        self.out += self.logged()
        if self.is_shared:
            self.states.append([words, lines if self.is_firefox else self.by_any_engine(self.js("Scene.write({ isPlainly: true })"))])
        self.last = lines
        if found["facts"] and is_looked_up:
            self.wrong += [f"{words}: {it}" for it in wrong_values(found["facts"], self.files)]
        self.stop_early()

    def stop_early(self):
        if self.wanted is None:
            return
        for place, line in enumerate(self.out):
            if place + 1 >= len(self.wanted) or line != self.wanted[place + 1]:
                raise Differs(f"{line}, where {self.wanted[place + 1] if place + 1 < len(self.wanted) else 'nothing more'} has to be")

    def by_any_engine(self, lines):
        """Lines as they are where the script engine is at work."""
        if self.js("Game.engine().isProved !== true"):
            return lines
        for proved, plain in ENGINES:
            lines = [line.replace(proved, plain) for line in lines]
        return lines

    def options(self):
        return f"{{ withColours: {str(self.colours).lower()}, isPlainly: {str(self.is_firefox).lower()} }}"

    def point(self):
        """The mouse points once more where it points, since what is below it may have moved."""
        if self.pointed:
            self.mouse("mouseMoved", self.pointed[0], held=self.pointed[1])

    def tell(self, words, is_looked_up=True):
        self.point()
        self.write(words, self.js(f"({{ lines: Scene.write({self.options()}), facts: Scene.facts() }})"), is_looked_up)

    def logged(self):
        """What went wrong or was said in the console since the last state."""
        events, self.heard = self.browser.events[self.heard:], len(self.browser.events)
        thrown = [it["params"]["exceptionDetails"].get("exception", {}).get("description", it["params"]["exceptionDetails"]["text"]) for it in events if it["method"] == "Runtime.exceptionThrown"]
        said = [f"{it['params']['type']} {it['params']['args'][0].get('description', it['params']['args'][0].get('value'))}" for it in events if it["method"] == "Runtime.consoleAPICalled"]
        return [f"console: {words.splitlines()[0]}" for words in [*thrown, *said]]

    def says(self, *languages):
        """What is told of the position in the other languages, then in English again: the texts that weren't told before."""
        names = languages or ("ja", "kana")
        for name, told in zip(names, self.js(f"Scene.saidIn({list(names)})")):
            told = self.by_any_engine(told)
            lines = [line for line in dict.fromkeys(told) if line not in self.said]
            self.said.update(lines)
            self.out += [f"== in {name}", *lines]
            if self.is_shared:
                self.states.append([f"in {name}", told])
        self.stop_early()

    def paper(self, words="on paper"):
        """What the browser would print, and on how many sheets."""
        if self.is_firefox:  # which prints nothing here, and tells its page that it has
            return self.js("void dispatchEvent(new Event('afterprint'))")
        self.browser.call("Emulation.setEmulatedMedia", media="print")
        self.point()
        lines = self.by_any_engine(self.js("Scene.paper()"))
        self.browser.call("Emulation.setEmulatedMedia", media="")
        self.out += [f"== {words}, {self.screen.pages()} sheets", *lines]
        self.point()
        self.stop_early()

    # ---- the page

    def open(self, fragment="", stored=None, size=None, touch=False, before="", tell=None):
        if size or touch:
            self.browser.size(*(size or SIZE), 1, touch)
        if stored is not None:
            self.load("")
            self.js("".join(f"localStorage.setItem('dobutsu-{name}', '{value}');" for name, value in stored.items()) or "0")
        self.load(fragment)
        if before:
            self.js(before)
        if tell:
            self.tell(tell)

    number = 0  # makes each address a page of its own
    observe = staticmethod(lambda browser: None)  # is called whenever a page is left or entered

    def load(self, fragment):
        Stage.number += 1
        self.observe(self.browser)
        url = f"{self.screen.url}?{Stage.number}{fragment}"
        if self.is_firefox:
            self.browser.open(url)
        else:
            self.browser.call("Page.navigate", url=url)
        self.js("new Promise((done) => { const look = () => (document.documentElement && document.documentElement.dataset.ready === '1' ? done() : setTimeout(look, 4)); look(); })")
        self.js(f"{WALKER};\n{SEED}; Scene.patience = {WAIT_SECONDS}")

    def table(self, position=None, name="100A", tell=None, before="", **about):
        """The page with a table open, and that position."""
        self.open(before=before, **about)
        self.act(f"await Scene.give([{self.file(name)}]);" + (f"Scene.enter({position!r})" if position else ""), tell, tell)

    def clear(self):
        """What an earlier visit left in the browser goes."""
        self.load("")
        self.js("localStorage.clear()")

    def close(self):
        self.observe(self.browser)
        self.js("localStorage.clear()")

    # ---- acts; each is told, unless it is said that it isn't

    def act(self, script, words, tell=True, until="true"):
        """Does that in the page, waits until it has come to rest, and tells what it changed."""
        found = self.js(f"Scene.act(async () => {{ {script} }}, () => {until}, {str(bool(tell) and not self.pointed).lower()}, {self.options()})")
        if tell and self.pointed:
            self.tell(tell if isinstance(tell, str) else words)
        elif tell:
            self.write(tell if isinstance(tell, str) else words, found)

    def did(self, words, tell, until="true"):
        if tell or until != "true":
            self.act("", words, tell, until)

    def run(self, script, tell=True, until="true"):
        """Something that isn't done by a person, or by no other act."""
        self.act(script, tell, tell, until)

    def file(self, name):
        return f"{{ name: {self.files[name].name!r}, base64: {self.screen.base64(self.files[name])!r} }}"

    def give(self, *names, tell=True, until="true"):
        self.act(f"await Scene.give([{', '.join(self.file(name) for name in names)}])", f"give {', '.join(self.files[name].name for name in names)}", tell, until)

    def game(self, *names, by="drop", tell=True, until="true"):
        """Files of games and others that are dropped on the page, or opened by its button."""
        done = "dispatchEvent(new DragEvent('drop', { dataTransfer: data, bubbles: true, cancelable: true }))" if by == "drop" else "document.getElementById('file').files = data.files; document.getElementById('file').dispatchEvent(new Event('change'))"
        self.act(f"const data = new DataTransfer(); for (const {{ name, base64 }} of [{', '.join(map(self.file, names))}]) data.items.add(new File([Uint8Array.from(atob(base64), (sign) => sign.charCodeAt(0))], name)); {done}",
                 f"{by} {', '.join(names)}", tell, until)

    def pick(self, name, tell=True):
        """A file that is picked, and read where it lies."""
        self.screen.give(self.files[name])
        self.did(f"pick {name}", tell)

    def enter(self, text, tell=True):
        self.act(f"Scene.enter({text!r})", f"enter {text}", tell)

    def press(self, name, tell=True, until="true"):
        self.act(f"document.getElementById({name!r}).click()", f"press {name}", tell, until)

    def click(self, selector, tell=True, until="true"):
        """A click on a square by its name, in a hand by its letter, else by selector."""
        self.act(f"document.querySelector({self.found(selector)!r}).click()", f"click {selector}", tell, until)

    def on(self, words, tell=True, until="true", within="main"):
        """Presses the button whose text begins so."""
        self.act(f"Scene.press({words!r}, {within!r})", f"press «{words}»", tell, until)

    def play(self, *moves, tell=True):
        self.act(f"await Scene.play({list(moves)})", f"play {' '.join(moves)}", tell)

    def key(self, *keys, tell=True, until="true"):
        for key in keys:
            self.browser.key(key)
        self.did(f"key {' '.join(keys)}", tell, until)

    def choose(self, select, value, tell=True, until="true"):
        self.act(f"Scene.choose({select!r}, {value!r})", f"choose {value} of {select}", tell, until)

    def language(self, name, tell=True):
        self.act(f"await Scene.speak({name!r})", f"in {name}", tell)

    def size(self, width, height, touch=False, tell=True):
        self.browser.size(width, height, 1, touch)
        self.did(f"in a window of {width} by {height}", tell)

    def focus(self, selector, tell=False):
        self.act(f"document.querySelector({self.found(selector)!r}).focus()", f"the focus goes to {selector}", tell)

    def middle(self, selector):
        return self.js(f"(() => {{ const it = document.querySelector({self.found(selector)!r}); if (!it.closest('#table, .palette')) it.scrollIntoView({{ block: 'center' }}); "
                       "const box = it.getBoundingClientRect(); return [box.x + box.width / 2, box.y + box.height / 2]; })()")

    def mouse(self, kind, point, button="left", held=0):
        self.pointed = point, held
        self.browser.call("Input.dispatchMouseEvent", type=kind, x=point[0], y=point[1], button=button if kind != "mouseMoved" or held else "none", buttons=held, clickCount=0 if kind == "mouseMoved" else 1)

    def hover(self, selector, tell=True):
        """The mouse comes over an element."""
        self.mouse("mouseMoved", self.middle(selector))
        self.did(f"the mouse is over {selector}", tell)

    def hold(self, start, end, tell=True):
        """A drag that isn't ended."""
        at, to = self.middle(start), end if isinstance(end, tuple) else self.middle(end)
        self.mouse("mousePressed", at, held=1)
        self.mouse("mouseMoved", ((at[0] + to[0]) / 2, (at[1] + to[1]) / 2), held=1)
        self.mouse("mouseMoved", to, held=1)
        if tell:
            self.did(f"hold {start} over {end}", tell)
        return to

    def drag(self, start, end, tell=True, until="true"):
        self.mouse("mouseReleased", self.hold(start, end, False))
        self.did(f"drag {start} to {end}", tell, until)

    def stroke(self, start, end, button="right", tell=True):
        held = 2 if button == "right" else 1
        for kind, name, is_held in (("mousePressed", start, held), ("mouseMoved", end, held), ("mouseReleased", end, 0)):
            self.mouse(kind, self.middle(name), button, is_held)
        self.did(f"draw from {start} to {end} with the {button} button", tell)

    def touch(self, start, end=None, tell=True):
        at, to = self.middle(start), self.middle(end or start)
        finger = lambda kind, *points: self.browser.call("Input.dispatchTouchEvent", type=kind, touchPoints=[{"x": x, "y": y} for x, y in points])
        finger("touchStart", at)
        for part in (0.3, 0.7, 1) if end else ():
            finger("touchMove", (at[0] + part * (to[0] - at[0]), at[1] + part * (to[1] - at[1])))
        finger("touchEnd")
        self.did(f"a finger on {start}{f' to {end}' if end else ''}", tell)

    def wait(self, until, tell=True):
        self.act("", "after a while", tell, until)

    def later(self, tell=True, until="true"):
        """The next of the timers that wait comes."""
        self.act("Scene.pass()", "a moment later", tell, until)

    @staticmethod
    def found(name):
        if len(name) == 2 and name[0] in "abc" and name[1] in "1234":
            return f".square[data-square='{'abc'.index(name[0]) + 3 * (int(name[1]) - 1)}']"
        if len(name) == 1 and name.isalpha():
            return f".slot[data-hand='{name}']"
        if name.startswith("tool "):
            return f"[data-tool='{name[5:]}']"
        return name


class Played:
    """A scene that was played: its lines, the values in it that aren't pure Python's, and each state as any browser has to show it, where that is asked for. One
    that has fingers is played on a page of its own, since a page that once had them knows no mouse that hovers any more."""

    def __init__(self, name, screen, files, is_left_early=False, is_shared=False):
        self.name, browser = name, screen.browser
        if isinstance(browser, Firefox):
            return self.play(screen, files, is_left_early, True)
        told = len(browser.events)
        try:
            with browser.other_page() if name in TOUCHED else contextlib.nullcontext():
                self.play(screen, files, is_left_early, is_shared)
        finally:
            browser.events[told:] = [it for it in browser.events[told:] if it["method"].startswith("Network.")]

    def play(self, screen, files, is_left_early, is_shared):
        screen.browser.size(*SIZE)
        if not isinstance(screen.browser, Firefox) and self.name not in TOUCHED:
            screen.browser.call("Input.dispatchMouseEvent", type="mouseMoved", x=0, y=0)
        stage, story = Stage(screen, files, None if self.name in WHOLE else first_state(golden("table")), golden(self.name) if is_left_early else None), stories.STORIES[self.name]
        stage.colours = self.name in ("start", "dark", "flipped") and not stage.is_firefox
        stage.is_shared = is_shared
        stage.clear()
        try:
            story(stage)
        finally:
            stage.close()
        self.lines, self.wrong, self.states = [f"scene {self.name}: {' '.join(story.__doc__.split())}", *stage.out], stage.wrong, stage.states


def golden(name):
    path = GOLDEN / f"{name}.txt"
    return path.read_text(encoding="utf-8").split("\n")[:-1] if path.exists() else []


def first_state(lines):
    """The lines of a scene's first state."""
    ends = [place for place, line in enumerate(lines) if line.startswith("== ")] + [len(lines)]
    return lines[ends[0] + 1 : ends[1]] if len(ends) > 1 else []


def is_in_japanese(lines):
    """Whether something Japanese is laid out in a scene: what is only told of it in other languages isn't."""
    is_told = False
    for line in lines:
        if line.startswith("== "):
            is_told = re.fullmatch("== in (ja|kana)", line) is not None
        elif not (is_told and line.startswith("  ")) and JAPANESE.search(BUTTONS.sub("", line)):
            return True
    return False


def write(name, lines):
    GOLDEN.mkdir(exist_ok=True)
    (GOLDEN / f"{name}.txt").write_text("".join(line + "\n" for line in lines), encoding="utf-8")


def differences(name, lines):
    """The lines by which a scene isn't as its file says."""
    return [it for it in list(difflib.unified_diff(golden(name), lines, n=0, lineterm=""))[2:] if not it.startswith("@@")]


class Run:
    """Scenes that are played side by side, each in the next browser that is free."""

    def __init__(self, given, page, states):
        self.page, self.states, self.renews, self.stops, self.tells_seconds = page, states, given.renew, given.until_failure, given.seconds

    def play(self, names, jobs, is_firefox):
        """How many checks passed and failed."""
        in_order = sorted(names, key=lambda it: -len(golden(it)))  # the longest first, so that no browser works on alone at the end
        return side_by_side.counts(in_order, jobs, lambda taken, checks, _: self.work(taken, checks, is_firefox), self.stops)

    def work(self, names, checks, is_firefox):
        """Plays scenes in one browser."""
        with tempfile.TemporaryDirectory() as folder:
            browser, files = Firefox() if is_firefox else Browser(), Files.at(folder)
            try:
                screen, has_font = Screen(browser, self.page), bool(browser.js(HAS_FONT))
                for name in names:
                    since = time.monotonic()
                    checks.topic(f"scene {name}", lambda: self.beside(checks, name, screen, files) if is_firefox else self.compare(checks, name, screen, files, has_font))
                    if self.tells_seconds:
                        print(f"{name}: {time.monotonic() - since:.1f} s", flush=True)
                    if self.stops and checks.failed:
                        return
            finally:
                browser.close()

    def compare(self, checks, name, screen, files, has_font):
        """A scene in Chromium against its file; without the Japanese font one that shows Japanese plays, and is neither written nor compared."""
        is_shared = self.states is not None and name in ELSEWHERE
        scene = Played(name, screen, files, is_shared=is_shared)
        if is_shared:
            self.file(name).write_text(json.dumps(scene.states))
        checks.expect(f"values of scene {name} by pure Python", scene.wrong, [])
        if not has_font and is_in_japanese(scene.lines):
            print(f"LEFT OUT: scene {name}, since the Japanese font isn't there (fonts-noto-cjk)", flush=True)
            return
        if self.renews:
            write(name, scene.lines)
        for line in differences(name, scene.lines):
            print(f"{name}: {line}", flush=True)
        checks.expect(f"scene {name}", differences(name, scene.lines), [])

    def beside(self, checks, name, screen, files):
        """A scene in Firefox against what Chromium showed, state by state."""
        scene, shown = Played(name, screen, files), json.loads(self.file(name).read_text())
        checks.expect(f"values of scene {name} by pure Python", scene.wrong, [])
        checks.expect(f"the states of scene {name}", [words for words, _ in scene.states], [words for words, _ in shown])
        for (words, told), (_, wanted) in zip(scene.states, shown):
            checks.expect(f"scene {name}, {words}", [it for it in told if it not in wanted], [it for it in wanted if it not in told])

    def file(self, name):
        """The file of what each browser has to show in a scene."""
        return self.states / f"{name}.json"


def main():
    words = argparse.ArgumentParser(description=__doc__, formatter_class=argparse.RawDescriptionHelpFormatter)
    for option in ("--firefox", "--renew", "--seconds", "--until-failure", "--list"):
        words.add_argument(option, action="store_true")
    for option in ("--page", "--states"):
        words.add_argument(option, type=pathlib.Path)
    words.add_argument("--jobs", type=int, default=len(os.sched_getaffinity(0)))
    words.add_argument("names", nargs="*")
    given = words.parse_args()
    if given.list:
        print(*stories.STORIES, sep="\n")
        return 0
    named = [it for name in given.names or (["elsewhere"] if given.firefox else stories.STORIES) for it in (ELSEWHERE if name == "elsewhere" else [name])]
    if unknown := [it for it in named if it not in (ELSEWHERE if given.firefox else stories.STORIES)]:
        words.error(f"no such scene{' in Firefox' if given.firefox else ''}: {' '.join(unknown)}")
    with tempfile.TemporaryDirectory() as folder:
        page = given.page or pathlib.Path(folder, "dobutsu.html")
        if not given.page:
            subprocess.run([sys.executable, HERE.parent / "build.py", "--script", "-", page], check=True, stdout=subprocess.DEVNULL)
        states = given.states or (pathlib.Path(folder, "states") if given.firefox else None)
        if states:
            states.mkdir(exist_ok=True)
        run, counts = Run(given, page.resolve(), states), []
        first = [it for it in named if given.firefox and not run.file(it).exists()]
        if given.renew and "table" in named:  # beside whose first state others are told
            first, named = ["table"], [it for it in named if it != "table"]
        jobs = 1 if given.until_failure else given.jobs
        for names, is_firefox in ((first, False), (named, given.firefox)):
            if names and not (given.until_failure and any(failed for _, failed in counts)):
                counts.append(run.play(names, min(jobs, len(names)), is_firefox))
    passed, failed = map(sum, zip((0, 0), *counts))
    print(f"{passed} passed, {failed} failed")
    return failed > 0


if __name__ == "__main__":
    sys.exit(main())
