"""Whether the tools for pages see what is planted: docs_planted.py

tools/check-pages a file that a row names in the wrong crate, and other numbers of lines; tools/results-page each figure in a sentence that isn't that of the
CSV files, and CSV files that don't agree; tools/planted another number of edits; tools/release another version at each of its places.
"""
import importlib.machinery
import importlib.util
import pathlib
import re
import shutil
import subprocess
import sys
import tempfile

sys.dont_write_bytecode = True
sys.path.insert(0, "tools")


def loaded(name):
    loader = importlib.machinery.SourceFileLoader(name.replace("-", "_"), f"tools/{name}")
    tool = importlib.util.module_from_spec(importlib.util.spec_from_loader(loader.name, loader))
    loader.exec_module(tool)
    return tool


pages, results, edits = loaded("check-pages"), loaded("results-page"), loaded("planted")


def with_planted(path, old, new):
    """The page, and its row of that name with another one in its place, which some other crate has."""
    page = pages.TOP / path
    row = next(line for line in page.read_text().split("\n") if line.startswith("|") and f"`{old}`" in line)
    assert not [*pages.misfiled(page, row)] and pages.is_there(new), (path, old)
    return page, row.replace(f"`{old}`", f"`{new}`")


planted = ("docs/PROOF.md", "QuestionsEach.antt", "Plays.antt"), ("CONTRIBUTING.md", "listing.rt", "sweep.rt"), ("CONTRIBUTING.md", "count.rt", "share.rt")
for path, old, new in planted:
    assert [*pages.misfiled(*with_planted(path, old, new))], new
row = with_planted("docs/PROOF.md", "QuestionsEach.antt", "Plays.antt")[1]
assert [path.name for path in pages.uncounted(row)] == ["Plays.antt"]
row = next(line for line in (pages.TOP / "docs/PROOF.md").read_text().split("\n") if "rows.rt" in line)
assert pages.with_lines(row) == row and pages.with_lines(row.replace("src/rows.rt", "src/command.rt")) != row, row


def counted_up(text):
    """The text with one more in its last digit."""
    return re.sub(r"\d(?=\D*$)", lambda digit: str((int(digit[0]) + 1) % 10), text)


texts = results.texts_of_pages()
assert not [*results.unlike_facts(texts)] and not [*results.disagreeing()]
for page, pattern, _ in results.FACTS:
    found = re.search(pattern, results.flowing(texts[page]))
    start, end = found.span(1)
    changed = results.flowing(texts[page])
    changed = changed[:start] + counted_up(changed[start:end]) + changed[end:]
    assert [*results.unlike_facts({**texts, page: changed})], pattern

rows_of = results.rows_of
spoilt = ("results_hands.csv", "lost"), ("results_ends.csv", "later_by_try"), ("results_reach_values.csv", "classes"), ("results_longest.csv", "plies")
for name, column in spoilt:
    results.rows_of = lambda asked: [dict(row, **{column: "1"}) if asked == name else row for row in rows_of(asked)]
    assert [*results.disagreeing()], name
results.rows_of = rows_of

page, text = next(iter(edits.pages(edits.names())))
assert page.read_text() == text and re.search(r"holds \d+ wrong bodies", text)
with tempfile.TemporaryDirectory() as top:
    places = [line.split(" ")[1] for line in subprocess.run(["tools/release", "--check"], capture_output=True, text=True, check=True).stdout.splitlines()]
    assert f"prints all {len(places)} with" in pathlib.Path("CONTRIBUTING.md").read_text(), len(places)
    for place in (*places, "tools/release"):
        (pathlib.Path(top) / place).parent.mkdir(parents=True, exist_ok=True)
        shutil.copy(place, pathlib.Path(top) / place)
    for place in places:
        copy = pathlib.Path(top) / place
        copy.write_text(copy.read_text().replace("0.1.0", "0.1.7").replace("VERSION_PATCH 0", "VERSION_PATCH 7"))
        assert subprocess.run([f"{top}/tools/release", "--check"], capture_output=True).returncode == 1, place
        shutil.copy(place, copy)
