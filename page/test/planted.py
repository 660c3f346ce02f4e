#!/usr/bin/env python3
"""Plants wrong code in the page's script engine, one piece a page, and sees that the tests count failures: page/test/planted.py PROGRAM

Each planted page has to be told apart by `page_test.py told/short`, by counts alone: a test that breaks off with a traceback doesn't count. Prints a line for
each page that passed, and last `N passed, M failed`.
"""
import concurrent.futures
import os
import pathlib
import re
import subprocess
import sys
import tempfile

sys.dont_write_bytecode = True
HERE = pathlib.Path(__file__).resolve().parent
sys.path.insert(0, str(HERE.parent))
import build

PLANTS = {
    "a giraffe that doesn't step forward": ("G: [[0, -1], [-1, 0], [1, 0], [0, 1]],", "G: [[0, -1], [-1, 0], [1, 0]],"),
    "an image with columns b and c exchanged": ("(square) => square + 2 - 2 * (square % 3);", "(square) => square + [0, 1, -1][square % 3];"),
    "a value of the other side": ('{ kind: (record - 1) % 2 ? "win" : "loss", plies', '{ kind: (record - 1) % 2 ? "loss" : "win", plies'),
}


def counts(program, page):
    """How many checks failed of a page, or None where the run broke off."""
    ran = subprocess.run([sys.executable, HERE / "page_test.py", page, program, "told/short", "--jobs", "1"], capture_output=True, text=True)
    told = re.search(r"^(\d+) passed, (\d+) failed$", ran.stdout, re.MULTILINE)
    return int(told[2]) if told and "Traceback" not in ran.stdout + ran.stderr else None


def main(program):
    whole, passed, failed = build.build().decode(), 0, 0
    with tempfile.TemporaryDirectory() as folder, concurrent.futures.ThreadPoolExecutor(len(os.sched_getaffinity(0))) as pool:
        def planted(place, old, new):
            page = pathlib.Path(folder, f"{place}.html")
            page.write_text(whole.replace(old, new))
            return counts(program, page) if whole.count(old) == 1 else None

        told = [pool.submit(planted, place, *plant) for place, plant in enumerate(PLANTS.values())]
        for name, found in zip(PLANTS, [it.result() for it in told]):
            if found:
                passed += 1
            else:
                failed += 1
                print(f"FAILED: page: {name} isn't counted: {found}")
    print(f"{passed} passed, {failed} failed")
    return failed > 0


if __name__ == "__main__":
    sys.exit(main(sys.argv[1]))
