"""Whether each link of the pages below a folder leads somewhere: release_links.py FOLDER"""
import pathlib
import re
import sys
top = pathlib.Path(sys.argv[1])
links = [(page, link) for page in top.rglob("*.md") for link in re.findall(r"\]\(([^)#:]+)\)", page.read_text())]
sys.exit("\n".join(f"{page.relative_to(top)}: {link}" for page, link in links if not (page.parent / link).exists()) or 0)
