"""Whether what an unpacked archive's pages name is there, and whether README's commands run: release_named.py FOLDER

Each file of coq/, examples/ or testdata/ that a page has in back ticks or in a block of code has to be in FOLDER, and each subcommand after `./dobutsu` has
to have a help. The commands of README's table are run in a copy of FOLDER, with the wheel installed in a new environment, and none may fail.
"""
import os
import pathlib
import re
import shutil
import subprocess
import sys
import tempfile

FILES = r"(?<![\w/.-])(?:coq|examples|testdata)/[\w./-]*\w"


def codes(page):
    """The texts of code on the page: lines of blocks, and what stands in back ticks."""
    parts = re.split(r"(?ms)^```.*?\n(.*?)^```$", page.read_text())
    for block in parts[1::2]:
        yield from block.splitlines()
    for part in parts[::2]:
        yield from re.findall(r"`([^`\n]+)`", part)


def lost(folder):
    """What pages name and the folder doesn't have."""
    for page in sorted(folder.rglob("*.md")):
        for code in codes(page):
            for name in re.findall(FILES, code):
                if not (folder / name).exists():
                    yield f"{page.relative_to(folder)}: no such file: {name}"
            for word in re.findall(r"\./dobutsu ([a-z]+)", code):
                if subprocess.run([folder / "dobutsu", word, "--help"], capture_output=True).returncode:
                    yield f"{page.relative_to(folder)}: no such command: {word}"


def failing(folder):
    """The commands of README's table that end with another status than 0."""
    with tempfile.TemporaryDirectory() as work:
        copy, new = pathlib.Path(work) / "copy", pathlib.Path(work) / "new"
        shutil.copytree(folder, copy)
        subprocess.run([sys.executable, "-m", "venv", new], check=True)
        words = os.environ | {"PATH": f"{new}/bin:{os.environ['PATH']}", "PIP_NO_INDEX": "1", "PIP_QUIET": "1", "PIP_DISABLE_PIP_VERSION_CHECK": "1"}
        rows = [line for line in (folder / "README.md").read_text().splitlines() if line.startswith("|")]
        for row in rows:
            for command in re.findall(r"`([^`]+)`", row.replace("\\|", "|")):
                if re.match(r"(\./|cc |echo |pip |python3 )", command):
                    ran = subprocess.run(["bash", "-o", "pipefail", "-c", command], cwd=copy, env=words, capture_output=True, text=True)
                    if ran.returncode or re.search(r"^E\d+", ran.stdout, re.MULTILINE):
                        yield f"README.md: {command}: {ran.stdout}{ran.stderr}".strip()


found = pathlib.Path(sys.argv[1]).resolve()
sys.exit("\n".join([*lost(found)] or [*failing(found)]) or 0)
