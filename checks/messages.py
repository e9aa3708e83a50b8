#!/usr/bin/env python3
"""Runs the program on wrong words and texts, and compares all that it tells people.

Each file of checks/messages/ has cases: blocks `== NAME`, the text of a file, and behind them a block `$ dswp WORDS`, what
is written to standard output, a line `[status N]`, and the message on standard error. In a file's text N*TEXT between
backticks is that text N times, with `@` for the numbers from 0 on, and a line `\\` at its end says that it has no LF there. With --show the cases are printed as they are
answered, to be read before they are kept. Ends with 1 where a case differs.
"""
import argparse
import difflib
import os
import re
import subprocess
import sys
import tempfile

TOP = os.path.dirname(os.path.dirname(os.path.abspath(__file__)))


def filled(text):
    """The text with each repetition written out."""
    return re.sub(r"`(\d+)\*([^`]*)`", lambda it: "".join(it[2].replace("@", str(k)) for k in range(int(it[1]))), text)


def cases_of(text):
    """Yields each case: its files by name, the line of its words, and what it should tell."""
    files, name, words, told = {}, None, None, []
    for line in text.splitlines(keepends=True):
        if line.startswith("== ") or line.startswith("$ dswp"):
            if words is not None:
                yield files, words, "".join(told)
                files, words, told = {}, None, []
            if line.startswith("$ "):
                words, name = line[2:].rstrip("\n"), None
            else:
                name = line[3:].rstrip("\n")
                files[name] = ""
        elif words is not None:
            told.append(line)
        elif name is not None:
            files[name] += line
    if words is not None:
        yield files, words, "".join(told)


def content(text):
    text = text[: -len("\\\n")].removesuffix("\n") if text.endswith("\\\n") else text
    return filled(text).encode("latin-1")


def answer(program, files, words):
    """What the program tells of the words in a folder with these files."""
    with tempfile.TemporaryDirectory() as folder:
        for name, text in files.items():
            with open(os.path.join(folder, name), "wb") as it:
                it.write(content(text))
        ran = subprocess.run([program, *words.split()[1:]], cwd=folder, capture_output=True, timeout=600)
    told = "".join(it for it in ran.stderr.decode("latin-1").splitlines(keepends=True) if not it.startswith("dswp: "))
    return f"{ran.stdout.decode('latin-1')}[status {ran.returncode}]\n{told}"


def main():
    parser = argparse.ArgumentParser(description=__doc__.split("\n", maxsplit=1)[0])
    parser.add_argument("--program", default=os.path.join(TOP, "dswp"))
    parser.add_argument("--show", action="store_true")
    given = parser.parse_args()
    total = differ = 0
    shown = []
    folder = os.path.join(TOP, "checks", "messages")
    for file in sorted(os.listdir(folder)):
        with open(os.path.join(folder, file), encoding="latin-1") as it:
            text = it.read()
        for files, words, wanted in cases_of(text):
            total += 1
            got = answer(given.program, files, words)
            if given.show:
                for name, written in files.items():
                    shown.append(f"== {name}\n{written}")
                shown.append(f"$ {words}\n{got}")
            elif got != wanted:
                differ += 1
                print(f"{file}: {words}")
                sys.stdout.writelines(difflib.unified_diff(wanted.splitlines(True), got.splitlines(True), "wanted", "told"))
    sys.stdout.buffer.write("".join(shown).encode("latin-1"))
    if not given.show:
        print(f"{total - differ} of {total} as written")
    return 1 if differ or not total else 0


if __name__ == "__main__":
    sys.exit(main())
