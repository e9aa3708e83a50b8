#!/usr/bin/env python3
"""Writes the hints on inlining that stand in the sources to the functions of an LLVM module, which a try leaves out.

    hints.py IN.ll OUT.ll TREE

A function of the module is known by its crate, its type or none, and its name. Where several of the sources are meant it has
no hint, unless they have the same."""
import re
import shutil
import sys
from pathlib import Path

KIT = Path(shutil.which("rt") or sys.exit("the command rt isn't on the PATH")).resolve().parent.parent
LIBRARIES = ("core", "std", "std_alloc", "std_collections", "std_heap")
IMPL = re.compile(r"impl(?:<.*?>)? (?:(\w+)(?:<.*?>)? for )?(\w+)")
HINT = re.compile(r"\s*#\[inline\((always|never)\)\]")
FUNCTION = re.compile(r"(\s*)(?:pub(?:\([a-z]+\))? )?fn (\w+)")
NAME = re.compile(r'^define .*?@"([^"]*)"')
WORDS = {"always": "alwaysinline", "never": "noinline"}


def functions(path):
    """The functions of a file: the type and the trait that each belongs to, its name, and its hint or none."""
    owner, hint = "", None
    for line in path.read_text().splitlines():
        if found := IMPL.match(line):
            owner = found[2] + (found[1] or "")
        elif line.startswith("}"):
            owner = ""
        elif found := HINT.match(line):
            hint = found[1]
        elif found := FUNCTION.match(line):
            yield owner if found[1] else "", found[2], hint
            hint = None


def hints_of(tree):
    """By crate and name: the owners of such functions, and their hints."""
    made = {}
    crates = [*Path(tree, "crates").iterdir(), *(KIT / "rattle" / name for name in LIBRARIES)]
    for crate in crates:
        for path in Path(crate, "src").glob("**/*.rt"):
            for owner, name, hint in functions(path):
                made.setdefault((crate.name, name), []).append((owner, hint))
    return made


def hint_for(name, hints):
    """The hint of the module's function with this name, if it has one."""
    parts = name.split("::<")[0].split("::")
    known = hints.get((parts[0], parts[-1]), []) if len(parts) > 1 else []
    own = [hint for owner, hint in known if owner == parts[-2]] or [hint for _, hint in known]
    return own[0] if len(set(own)) == 1 else None


def main(source, out, tree):
    hints = hints_of(tree)
    with open(source) as lines, open(out, "w") as written:
        for line in lines:
            found = NAME.match(line)
            hint = hint_for(found[1], hints) if found else None
            written.write(line.replace(") #", f") {WORDS[hint]} #", 1) if hint else line)


if __name__ == "__main__":
    main(*sys.argv[1:4])
