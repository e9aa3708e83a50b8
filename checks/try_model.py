#!/usr/bin/env python3
"""Tries log_model.py by what is known already: the transcripts and the rows `| Text | Output |` of the documents, the outputs
of the examples, and the tests' tables of programs that are run. It needs no dswp. Left out is what refuses something, what
names a profile, and what takes long. Prints what differs; ends with 1 where something does.

  checks/try_model.py
"""
import os
import re
import subprocess
import sys
import tempfile
from pathlib import Path

sys.dont_write_bytecode = True
from log_model import answer, words_of
from worked_programs import TESTS, TOP, cases, library, place, status_of

PAGES = [TOP / "README.md", *sorted((TOP / "docs").glob("*.md")), TOP / "examples/README.md"]
MODEL = "%s -B checks/log_model.py" % sys.executable
VERBS = ("run", "plan", "log", "audit", "save", "resume")
REFUSALS = ("refused", "failed", "limit")


def transcripts(page):
    """Each command of a fenced block, and what it shows up to its status."""
    for block in re.findall(r"^```\n(.*?)^```", page, re.S | re.M):
        yield from re.findall(r"^\$ \./dswp (.*)\n((?:.*\n)*?\[status \d+\]\n)", block, re.M)


def is_modelled(command, shown):
    return command.split()[0] in VERBS and not re.search("--profile|/dev/", command) and not shown.startswith(REFUSALS)


def tried_transcripts(page):
    for command, shown in transcripts(page):
        if is_modelled(command, shown) and command.split()[1:]:
            done = subprocess.run("%s %s" % (MODEL, command), shell=True, cwd=TOP, stdout=subprocess.PIPE, text=True)
            yield command, shown, "%s[status %d]\n" % (done.stdout, done.returncode)


def tried_rows(page):
    """The rows, each a program without an input."""
    for table in re.findall(r"^\| Text \| Output \|\n\|---\|---\|\n((?:\|.*\n)*)", page, re.M):
        for row in table.splitlines():
            text, output = re.fullmatch(r"\| `(.*)` \| `(.*)` \|", row).groups()
            if not output.startswith(REFUSALS):
                Path("p.c").write_text(text)
                yield text, output, answer(words_of(["run", "p.c"]))[0].rstrip("\n").replace("\n", " / ")


def without_regions(text):
    return re.sub(r"(?m)^region .*\n", "", text)


def tried_examples():
    for program in sorted((TOP / "examples").rglob("*.c")):
        words, wanted = ["run", str(program), str(program.with_suffix(".in"))], program.with_suffix(".out").read_text()
        yield program.name, wanted, answer(words_of(words))[0]
        plan = program.with_suffix(".plan")
        if plan.exists():
            text = answer(words_of([*words, "--plan", str(plan)]))[0]
            yield plan.name, without_regions(wanted), without_regions(text)


def takes_long(words, text, wanted):
    """Whether the model would take long: a long region, cut into stages, or the whole fuel that isn't named."""
    return ("--plan" not in words and len(text) > 3000) or ("--fuel" not in words and "end fuel" in wanted)


def tried_tables(names):
    for row, words, held, wanted in cases(names):
        if not wanted.startswith(REFUSALS) and "--profile" not in words and not takes_long(words, held[0], wanted):
            place(held)
            yield "%s: %s" % (" ".join(words), row), (wanted, status_of(wanted)), answer(words_of(words))


def tried():
    for page in PAGES:
        text = page.read_text()
        yield from tried_transcripts(text)
        yield from tried_rows(text)
    yield from tried_examples()
    yield from tried_tables(sorted(path.stem for path in TESTS.glob("*.rt")))


def main():
    total = differ = 0
    with tempfile.TemporaryDirectory() as folder:
        os.chdir(folder)
        for name, text in library().items():
            Path(name).write_text(text)
        for what, wanted, got in tried():
            total += 1
            if wanted != got:
                differ += 1
                print("differs: %s" % what, wanted, got, sep="\n")
        os.chdir(TOP)
    print("%d answers, %d differ" % (total, differ))
    sys.exit(differ > 0)


if __name__ == "__main__":
    main()
