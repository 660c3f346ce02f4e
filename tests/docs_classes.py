"""Whether docs/CLASSES.md names the class numbers that the reader in Python finds, and docs/FORMAT.md has the bytes of testdata: docs_classes.py"""
import pathlib
import re
import sys

sys.path.insert(0, "tools")
import read_db  # noqa: E402

page = open("docs/CLASSES.md").read()
chick, start = ".l./..c/.../.L. - -", "gle/.c./.C./ELG - -"
for profile, text, number in ("A", chick, "770"), ("B", chick, "695"), ("A", start, "427,671,695"), ("B", start, "337,403,035"):
    assert number in page, number
    assert f"{read_db.class_number(profile, read_db.read_position(text)):,}" == number, (profile, text)

blocks = [block for block in re.findall(r"(?ms)^```text\n(.*?)^```$", open("docs/FORMAT.md").read()) if re.match(r" *0  4", block)]
told = [b"".join(bytes.fromhex("".join(line.split()[1:])) for line in block.splitlines()) for block in blocks]
first, whole = pathlib.Path("testdata/lions_alone.db").read_bytes(), pathlib.Path("testdata/lions_alone_2.db").read_bytes()
assert told[0] == whole and told[1] == first[:20] + first[128:], [len(it) for it in told]
