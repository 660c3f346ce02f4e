#!/usr/bin/env python3
"""Measures the page in headless Chromium: page/test/first_value.py PAGE [FILE [TIMES]]

Prints in milliseconds, the middle of so many runs (5): until the page is ready, until its engine is, and from a file that is given until a value is seen. Without
FILE, or with `-`, the page has a file in it (page/build.py --with): then it is how long after the page was asked for a value is seen.
"""
import pathlib
import statistics
import sys

sys.dont_write_bytecode = True
sys.path.insert(0, str(pathlib.Path(__file__).resolve().parent))
from browser import Browser
from screen import Screen

WATCH = """window.seenAfter = new Promise((done) => {
  document.getElementById("file").addEventListener("change", () => { window.since = performance.now(); }, { capture: true });
  const look = () => (document.querySelector("#value b").textContent ? done(performance.now() - window.since) : requestAnimationFrame(look));
  look();
})"""
SEEN = "!!document.querySelector('#value b')?.textContent && performance.now()"


def of_file(screen, file):
    """How long until the page and its engine are ready, and from the file on until a value is seen."""
    screen.open()
    ready = screen.js("performance.now()")
    screen.js(f"void ({WATCH})")
    screen.browser.give_files("#file", file)
    return ready, screen.js("Game.engine().started || 0"), screen.js("window.seenAfter")


def of_page(screen):
    """The same of a page that has its file."""
    screen.browser.call("Page.navigate", url="about:blank")
    screen.browser.call("Page.navigate", url=screen.url)
    screen.browser.wait(SEEN)
    seen = screen.js(SEEN)
    return 0, screen.js("Game.engine().started || 0"), seen


def main(page, file="-", times=5):
    browser = Browser()
    try:
        screen = Screen(browser, pathlib.Path(page).resolve())
        found = [of_page(screen) if file == "-" else of_file(screen, file) for _ in range(int(times))]
    finally:
        browser.close()
    print(*(f"{name} {statistics.median(column):.0f} ms" for name, column in zip(("page", "engine", "first value"), zip(*found)) if any(column)), sep=", ")


if __name__ == "__main__":
    main(*sys.argv[1:])
