#!/usr/bin/env python3
"""Runs each case of the tests' tables that runs a program, with 1, 2 and 8 workers and lanes of 1, 2 and 64 places, and
compares text and status with the table's. Ends with 1 where one differs, and stops a run after a minute.

  checks/worked_programs.py [COUNT] [TABLES..]   COUNT runs of each case, 9 where it isn't given; tables are pipelines,
                                                 causes, automatic and exits where none is named
"""
import itertools
import os
import re
import subprocess
import sys
import tempfile
from pathlib import Path

TOP = Path(__file__).resolve().parent.parent
TESTS = TOP / "crates/dswp/src/tests"
DSWP = TOP / "crates/dswp/out/dswp"
STRING = r'"((?:[^"\\]|\\.)*)"'
CREWS = list(itertools.product((1, 2, 8), (1, 2, 64)))
STATUSES = [("end fault", 1), ("refused words", 2), ("refused program", 3), ("refused ", 4),
            ("failed read", 5), ("end fuel", 8), ("limit", 9)]


def unescaped(text):
    signs = {"n": "\n", "t": "\t", "r": "\r", "0": "\0"}
    return re.sub(r"\\(.)", lambda m: signs.get(m[1], m[1]), text, flags=re.S)


def library():
    """The texts that each case may name."""
    source = (TESTS / "library.rt").read_text()
    held = {m[1]: unescaped(m[2]) for m in re.finditer(r"const (\w+): &\[u8\] =\s*b" + STRING, source, re.S)}
    named = {m[1]: held[m[2]] for m in re.finditer(r'\("([\w.]+)", (\w+)\)', source)}
    return named | {m[1]: unescaped(m[2]) for m in re.finditer(r'\("([\w.]+)", b' + STRING + r"\)", source)}


def tables(name):
    """The tables of a file of tests whose pattern runs a program."""
    source = (TESTS / f"{name}.rt").read_text()
    for table in re.finditer(r"const \w+: &\[&str\] = &\[(.*?)\n\];", source, re.S):
        rows = [unescaped(m[1]) for m in re.finditer(STRING, table[1], re.S)]
        if rows[0].startswith("run "):
            yield rows[0], rows[1:]


def cut(text, mark):
    front, _, rest = text.partition(mark)
    return front, rest


def repeated(match):
    count, piece = cut(match[1], "*")
    return "".join(piece.replace("@", str(n)).replace("^", str(n + 1)) for n in range(int(count)))


def filled(text, parts):
    first, rest = cut(parts, " | ")
    second, third = cut(rest, " | ")
    text = text.replace("$1", first).replace("$2", second).replace("$3", third)
    return re.sub(r"`([^`]*)`", repeated, text, flags=re.S)


def cases(names):
    """Each row of the tables: its text, its words, what p.c, in.txt and plan.txt hold, and what it writes."""
    for pattern, rows in itertools.chain.from_iterable(map(tables, names)):
        front, text = cut(pattern, " => ")
        fields = (front.split(" | ") + ["", "", ""])[:4]
        for row in rows:
            parts, ends = cut(row, " => ")
            words, *held = (filled(field, parts) for field in fields)
            yield row, words.split(), held, filled(text, ends)


def place(held):
    """Writes what a case's files hold into the current folder."""
    for name, content in zip(("p.c", "in.txt", "plan.txt"), held):
        Path(name).write_text(content)


def status_of(text):
    last = text.rstrip().rsplit("\n", 1)[-1]
    return next((status for front, status in STATUSES if last.startswith(front)), 0)


def options(words, workers, lane):
    """What is added to a case's words: nothing that they have, and no workers where they would count for a least plan."""
    added = []
    if "--plan" in words and "--workers" not in words:
        added += ["--workers", str(workers)]
    if "--lane" not in words:
        added += ["--lane", str(lane)]
    return added


def answers(words, count):
    """What so many runs answer."""
    for workers, lane in itertools.islice(itertools.cycle(CREWS), count):
        run = [*words, *options(words, workers, lane)]
        done = subprocess.run([DSWP, *run], capture_output=True, timeout=60)
        yield " ".join(run), done.stdout.decode(), done.returncode


def main():
    count = int(sys.argv[1]) if len(sys.argv) > 1 else len(CREWS)
    names = sys.argv[2:] or ["pipelines", "causes", "automatic", "exits"]
    total = differ = worked = 0
    with tempfile.TemporaryDirectory() as folder:
        for name, text in library().items():
            Path(folder, name).write_text(text)
        os.chdir(folder)
        for row, words, held, wanted in cases(names):
            place(held)
            worked += 1
            for run, got, status in answers(words, count):
                total += 1
                if (got, status) != (wanted, status_of(wanted)):
                    differ += 1
                    print(f"differs: {run}, of {row!r}: {status} {got!r}")
        os.chdir(TOP)
    print(f"{total} runs of {worked} cases, {differ} differ")
    sys.exit(differ > 0)


if __name__ == "__main__":
    main()
