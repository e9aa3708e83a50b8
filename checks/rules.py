#!/usr/bin/env python3
"""Looks for each place that docs/RULES.md names: the page has the rule's words, each file has the name or the piece of text
that stands behind it, and the code is reached from `main`, as far as reached.py can tell. Ends with 1 where one is missing or
isn't reached, or where a table has fewer than ten rules.

  checks/rules.py
"""
import re
import sys
from pathlib import Path

sys.dont_write_bytecode = True
from reached import is_reached

TOP = Path(__file__).resolve().parent.parent
SPECIFICATIONS, CODE, ROWS = TOP / "crates", TOP / "crates/.", TOP / "crates/dswp/src/tests"
FOLDERS = [SPECIFICATIONS, CODE, ROWS]
PLACE = re.compile(r"`([^`]*)`: `(.*)`")


def plain(text):
    """Words without marks, so that a line's end or an emphasis is no difference."""
    return " ".join(text.replace("*", "").lower().split())


def tables():
    """The page of each table, and its rows as lists of cells."""
    for part in (TOP / "docs/RULES.md").read_text().split("\n## ")[1:]:
        page = re.search(r"\]\((\w+\.md)\)", part)[1]
        rows = [line for line in part.splitlines() if line.startswith("| ")][1:]
        yield TOP / "docs" / page, [[cell.strip().replace("\\|", "|") for cell in re.split(r"(?<!\\)\|", row)[1:-1]] for row in rows]


def stands(name, text):
    """A name stands there as a word of its own, and a piece of text as it is."""
    return re.search(rf"\b{name}\b", text) if re.fullmatch(r"\w+", name) else plain(name) in plain(text)


def missing(page, row):
    """What isn't where the row says."""
    rule, *places, edit = row
    if plain(rule) not in plain(page.read_text()):
        yield f"{page.name}: {rule}"
    for folder, cell in zip(FOLDERS, places):
        path, name = PLACE.fullmatch(cell).groups()
        file = folder / path
        if not file.exists() or not stands(name, file.read_text()):
            yield f"{path}: {name}"
        elif folder is CODE and not is_reached(file, name):
            yield f"{path}: {name} isn't reached from main"
    if edit:
        crate, name = PLACE.fullmatch(edit).groups()
        if not (TOP / "crates" / crate / "must-fail" / f"{name}.edit").exists():
            yield f"{crate}: {name}"


def main():
    wrong, count = [], 0
    for page, rows in tables():
        count += len(rows)
        wrong += [place for row in rows for place in missing(page, row)]
        if len(rows) < 10:
            wrong.append(f"{page.name}: {len(rows)} rules")
    print(*wrong, f"{count} rules, {len(wrong)} places missing", sep="\n")
    return 1 if wrong else 0


if __name__ == "__main__":
    sys.exit(main())
