#!/usr/bin/env python3
"""Tests the page in headless Chromium, offline: page/test/page_test.py PAGE PROGRAM [--firefox] [--jobs N] [--until-failure] [--seconds] [TOPIC[/PART]..]

Scenes say what is seen and heard, and scenes.py plays them; the topics here test what a scene can't say. Their values come from the program `dobutsu`, of small
files that it builds. A topic is a module here with a dictionary PARTS; `--list` in place of the page prints topics and parts. Some parts are left out where they
aren't named: `told/short`, which is `told/values` with few positions, `certificates/whole_B`, and `lasting/acts_4` and further seeds. With `--firefox` the browser
is Firefox, by default with the parts that need no call of Chromium's own. N browsers work side by side, by default one for each processor; the next part goes to
the next one that is free. With `--until-failure` the parts that are named come first, then all others, up to the first one that counts a failure, in one browser.
`--seconds` tells how long each part took. Prints a line for each failure, the engine that the page uses, and last `N passed, M failed`; the status is 0 where none
failed. DOBUTSU_FILES may name a folder in which built files are kept, DOBUTSU_WAIT the seconds until a test gives up waiting (180).
"""
import argparse
import os
import pathlib
import sys
import tempfile
import time

sys.dont_write_bytecode = True
sys.path.insert(0, str(pathlib.Path(__file__).resolve().parent))
import board
import certificates
import classroom
import glance
import handling
import lasting
import layout
import lesson
import links
import looks
import mistakes
import opening
import side_by_side
import told
from browser import Browser
from firefox import Firefox
from program import Program
from screen import Screen

TOPICS = {
    "told": told, "opening": opening, "board": board, "links": links, "certificates": certificates, "classroom": classroom, "glance": glance, "handling": handling,
    "lasting": lasting, "layout": layout, "lesson": lesson, "looks": looks, "mistakes": mistakes,
}

# The parts that Firefox runs where none is named: the others ask Chromium's own calls for fingers, paper, contrasts and the log.
IN_FIREFOX = ["told/short", "certificates/beside", "certificates/whole_B", "handling/twelve", "handling/edges", "lasting/acts_2", "lasting/outlived", "layout/filled"]

# The parts that take longest, which come first, so that no browser works on alone at the end.
LONG = [("certificates", "whole_A"), ("lasting", "acts_1"), ("lasting", "acts_2"), ("lasting", "acts_3"), ("told", "values"), ("lasting", "same"),
        ("classroom", "evenly"), ("certificates", "mutated"), ("opening", "large")]


def parts_of(names):
    """The (topic, part) pairs that the words name: of a topic all parts but those that have to be named, of no word all topics."""
    for name in names or TOPICS:
        topic, _, part = name.partition("/")
        if topic not in TOPICS or (part and part not in TOPICS[topic].PARTS):
            raise SystemExit(__doc__)
        named = getattr(TOPICS[topic], "NAMED", ())
        yield from [(topic, part)] if part else [(topic, it) for it in TOPICS[topic].PARTS if it not in named]


class Run:
    """Parts that are tested side by side, each in the next browser that is free."""

    def __init__(self, given):
        self.page, self.name, self.is_firefox = pathlib.Path(given.page).resolve(), given.program, given.firefox
        self.stops, self.tells_seconds = given.until_failure, given.seconds

    def test(self, chosen, files, jobs):
        """How many checks passed and failed."""
        return side_by_side.counts(chosen, jobs, lambda parts, checks, is_first: self.work(parts, checks, is_first, files), self.stops)

    def work(self, parts, checks, is_first, files):
        """Tests parts in one browser until none is left."""
        with tempfile.TemporaryDirectory() as folder:
            browser = Firefox() if self.is_firefox else Browser()
            try:
                self.use(browser, parts, checks, Program(self.name, files, folder), is_first)
            finally:
                browser.close()

    def use(self, browser, parts, checks, program, is_first):
        screen = Screen(browser, self.page)
        for topic, part in parts:
            since = time.monotonic()
            screen.afresh()
            checks.topic(f"{topic}/{part}", lambda: TOPICS[topic].PARTS[part](checks, screen, program))
            if self.tells_seconds:
                print(f"{topic}/{part}: {time.monotonic() - since:.1f} s", flush=True)
            if self.stops and checks.failed:
                return
        if is_first:
            screen.open()  # others may have taken each part before it
            print("engine:", "proved" if browser.js("Game.engine().isProved") else "JavaScript", flush=True)
        if not self.is_firefox:
            looks.asked(checks, screen)


def main():
    words = argparse.ArgumentParser(description=__doc__, formatter_class=argparse.RawDescriptionHelpFormatter)
    for option in ("--list", "--firefox", "--until-failure", "--seconds"):
        words.add_argument(option, action="store_true")
    words.add_argument("--jobs", type=int, default=len(os.sched_getaffinity(0)))
    words.add_argument("page", nargs="?")
    words.add_argument("program", nargs="?")
    words.add_argument("parts", nargs="*")
    given = words.parse_intermixed_args()
    if given.list:
        print(*(f"{topic}/{part}" for topic in TOPICS for part in TOPICS[topic].PARTS), sep="\n")
        return 0
    if not given.program:
        words.error("the page and the program are needed")
    stops, names = given.until_failure, given.parts or (IN_FIREFOX if given.firefox else [])
    chosen = list(dict.fromkeys([*(parts_of(names) if names or not stops else ()), *(parts_of(()) if stops else ())]))
    if not stops:
        chosen.sort(key=lambda it: it not in LONG)
    with tempfile.TemporaryDirectory() as folder:
        passed, failed = Run(given).test(chosen, os.environ.get("DOBUTSU_FILES", folder), 1 if stops else given.jobs)
    print(f"{passed} passed, {failed} failed")
    return failed > 0


if __name__ == "__main__":
    sys.exit(main())
