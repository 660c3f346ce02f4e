#!/usr/bin/env python3
"""Joins the page's sources into one file, dobutsu.html: page/build.py [--script] [--with FILE] [MODULE [OUT]]

MODULE is the engine that is proved, compiled to WebAssembly; without it, or where it is `-`, it is dobutsu_web.wasm, which stands here. With --script the page
has the engine in JavaScript alone. FILE is a certificate or a small database file that stands in the page and is open from the beginning. OUT is
page/out/dobutsu.html unless it is given. The bytes depend on the sources, the module, the file and Python's gzip alone. Prints the file's name and its length.
"""
import argparse
import base64
import gzip
import json
import pathlib
import re
import sys

HERE = pathlib.Path(__file__).resolve().parent
ENGINE = ["core.js", "certificate.js"]  # a worker runs these too
SCRIPTS = [
    "alone.js", "texts.js", "fence.js", "english.js", "japanese.js", "hiragana.js", "pieces.js", "file.js", "shuffle.js", "answers.js", "game.js", "notation.js", "gametext.js", "board.js", "setup.js", "view.js",
    "worksheet.js", "settings.js", "exercise.js", "practice.js",
    "lesson.js", "mistakes.js", "results.js", "glance.js", "page.js",
]
MODULE = HERE / "dobutsu_web.wasm"
MOST_BYTES, MOST_WITH_FILE = 300_000, 3_000_000


def read(name):
    return (HERE / name).read_text(encoding="utf-8")


def shortened(text):
    """A script without its indentation and its comments: lines of their own, and what stands behind code and has no quote."""
    lines = (re.sub(r"(?<=[;{},[(]) // [^\"'`]*$", "", line.strip()) for line in text.split("\n"))
    return "\n".join(line for line in lines if line and not line.startswith("//"))


def tight(script):
    """A script without the spaces around signs, in lines that have no text, no pattern and no comment."""
    return "\n".join(
        line if re.search(r"[\"'`/]", line) else re.sub(r" (=>|===|!==|&&|\|\||=) ", r"\1", re.sub(r"([,;]) ", r"\1", line)) for line in script.split("\n"))


def pressed(text):
    """The looks without comments, and without spaces beside what parts them."""
    bare = re.sub(r"/\*.*?\*/", "", text, flags=re.DOTALL)
    return re.sub(r"\s*([{};,>])\s*", r"\1", bare).replace(": ", ":").replace("}", "}\n").strip()


def packed(data):
    """Bytes as a text that wasm.js and page.js unpack."""
    return base64.b64encode(gzip.compress(data, 9, mtime=0)).decode("ascii")


def file_line(file):
    """The line of the script that has a file."""
    return f"window.DobutsuFile = {json.dumps({'name': file.name, 'bytes': packed(file.read_bytes())})};\n"


def joined(names):
    """Scripts in the order in which they stand on each other."""
    return "\n".join(shortened(read(name)) for name in names)


def engine(module):
    """The scripts that touch no part of the page, the module in its own."""
    return joined([*ENGINE, "wasm.js"]).replace("/*BYTES*/", packed(module)) if module else joined(ENGINE)


def build(module=None, file=None):
    """The page's bytes."""
    page = "\n".join(line.strip() for line in read("page.html").split("\n"))
    code = (file_line(file) if file else "") + tight(joined(SCRIPTS))
    for mark, text in [("/*STYLE*/", pressed(read("style.css") + read("cards.css"))), ("/*ENGINE*/", engine(module)), ("/*CODE*/", code)]:
        if page.count(mark) != 1 or "</script" in text or "</style" in text:
            raise SystemExit(f"page/build.py: {mark} can't be put in")
        page = page.replace(mark, text)
    data = page.encode("utf-8")
    most = MOST_WITH_FILE if file else MOST_BYTES
    if len(data) > most:
        raise SystemExit(f"page/build.py: the page has {len(data)} bytes, more than {most}")
    return data


def main(words):
    given = argparse.ArgumentParser(description=__doc__, formatter_class=argparse.RawDescriptionHelpFormatter)
    given.add_argument("--script", action="store_true")
    given.add_argument("--with", type=pathlib.Path, dest="file")
    given.add_argument("module", nargs="?", default="-")
    given.add_argument("out", nargs="?", type=pathlib.Path, default=HERE / "out" / "dobutsu.html")
    asked = given.parse_args(words)
    module = MODULE if asked.module == "-" else pathlib.Path(asked.module)
    data, out = build(None if asked.script else module.read_bytes(), asked.file), asked.out
    out.parent.mkdir(parents=True, exist_ok=True)
    out.write_bytes(data)
    print(f"{out}: {len(data)} bytes")


if __name__ == "__main__":
    main(sys.argv[1:])
