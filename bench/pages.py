#!/usr/bin/env python3
"""Finds what is wrong with the pages of the repository: links that lead nowhere, crates without their page or its headings, or that no
layer of the architecture names, pages and lines of prose that are too long. Prints a line for each, and ends with 1 where there is one.

    python3 bench/pages.py        at the top of a checkout
"""
import re
import sys
from pathlib import Path

LONGEST_LINE = 160
LONGEST_PAGE = 16 * 1024
LONGEST_README = 8 * 1024
# Pages of tables and definitions, which may be longer.
LONG_PAGES = {"docs/FORMATS.md", "docs/DEFINITIONS.md"}
# The headings of a library's page, and those of a crate of tests, a reference implementation or a program.
HEADINGS = ["What a contract sees", "Clauses", "Only tested", "Not covered", "Depends on"]
FEW_HEADINGS = ["What it shows", "Only tested", "Not covered", "Depends on"]

LINK = re.compile(r"\[[^\]]*\]\(([^)\s]+)\)")
CODE = re.compile(r"`[^`]*`")
FENCE = re.compile(r"^\s*```")


def prose(text):
    """The numbered lines that are neither code nor a row of a table."""
    fenced = False
    for number, line in enumerate(text.splitlines(), 1):
        if FENCE.match(line):
            fenced = not fenced
        elif not fenced:
            yield number, line


def anchors(text):
    """The names by which a page's headings are linked."""
    names = set()
    for _, line in prose(text):
        if line.startswith("#"):
            title = line.lstrip("#").strip().lower()
            names.add(re.sub(r"[^\w\- ]", "", title).replace(" ", "-"))
    return names


def links(page, text, top):
    for number, line in prose(text):
        for target in LINK.findall(CODE.sub("", line)):
            if "://" in target or target.startswith("mailto:"):
                continue
            path, _, anchor = target.partition("#")
            goal = (page.parent / path).resolve() if path else page
            if not goal.exists():
                yield f"{page.relative_to(top)}:{number}: nothing at {target}"
            elif anchor and goal.suffix == ".md" and anchor not in anchors(goal.read_text()):
                yield f"{page.relative_to(top)}:{number}: no heading {target}"


def lengths(page, text, top):
    name = str(page.relative_to(top))
    size = len(text.encode())
    most = LONGEST_README if name == "README.md" else LONGEST_PAGE
    if name not in LONG_PAGES and size > most:
        yield f"{name}: {size} bytes, at most {most}"
    for number, line in prose(text):
        if len(line) > LONGEST_LINE and not line.lstrip().startswith("|"):
            yield f"{name}:{number}: a line of {len(line)} characters"


def crates(top):
    layers = set(re.findall(r"\w+", (top / "docs/ARCHITECTURE.md").read_text()))
    for line in (top / "crates.txt").read_text().splitlines():
        name = line.split("#")[0].split(":")[0].split()
        if not name:
            continue
        if name[0] not in layers:
            yield f"docs/ARCHITECTURE.md: {name[0]} is in no layer"
        page = top / "crates" / name[0] / "README.md"
        if not page.exists():
            yield f"crates.txt: {name[0]} has no page"
            continue
        found = {line.lstrip("#").strip() for _, line in prose(page.read_text()) if line.startswith("## ")}
        missing = [h for h in HEADINGS if h not in found]
        if missing and [h for h in FEW_HEADINGS if h not in found]:
            yield f"{page.relative_to(top)}: no heading {', '.join(missing)}"


def main():
    top = Path(__file__).resolve().parent.parent
    faults = list(crates(top))
    for page in sorted(top.rglob("*.md")):
        if any(part in ("out", ".git") for part in page.parts):
            continue
        text = page.read_text()
        faults += links(page, text, top)
        faults += lengths(page, text, top)
    for fault in faults:
        print(fault)
    print(f"{len(faults)} faults" if faults else "no faults")
    return 1 if faults else 0


sys.exit(main())
