"""Whether each sentence that coq/Rules.v quotes stands in docs/RULES.md: coq_quotes.py prints those that don't.

A quote may leave out words, by `[..]`.
"""
import pathlib
import re
import sys

page = " ".join(pathlib.Path("docs/RULES.md").read_text().replace("**", "").split())
comments = re.findall(r"\(\*(.*?)\*\)", pathlib.Path("coq/Rules.v").read_text(), re.DOTALL)
quotes = [quote for comment in comments for quote in re.findall(r'"([^"]*)"', " ".join(comment.split()))]
missing = [quote for quote in quotes if not re.search(".*?".join(map(re.escape, quote.split("[..]"))).replace(r"\ .*?", ".*?"), page)]
print(*missing, sep="\n", end="\n" if missing else "")
sys.exit(bool(missing or len(quotes) < 9))
