#!/usr/bin/env python3
"""Runs programs with each of their allocations failing in turn, with an output that fails at each of its bytes, and with
threads that can't be started.

Where an allocation fails, a run has to write its whole text with its status, or a front of it with status 7; and on
standard error its whole message, a front of it, or nothing. Where the output fails behind so many bytes, it has to have
written just those, and to end with status 6. Where a region's threads can't be started from one on, its text and status
have to be the same. Among the runs are some that are refused, some with iterations that are
executed again, some with a replicated stage, and a table of words.

  checks/failing_calls.py [WORDS]   WORDS input words of the table of words, 60 where it isn't given

Prints what isn't so, and how many runs there were; ends with 1 where one isn't.
"""
import os
import subprocess
import sys
import tempfile
from pathlib import Path

from worked_programs import DSWP, TOP, library

TABLE_PLAN = """plan 1
region 1 words 4096
seq 2 3 4
par 5 6 7 8 9
seq 10 11 12 13 14 15 16 17 18 19
end
"""
BINS_PLAN = "plan 1\nregion 1 words 4096\nseq 2 3 4\npar 5\nseq 6\nend\n"
WORDS = [
    "run", "run sum_loop.c --workers 9", "walk", "run semicolon.c", "run unknown.c", "run deep.c", "run sum_loop.c bad.txt",
    "run stale_read.c --plan bad.plan", "run stale_read.c --plan rule.plan", "run sum_loop.c", "run sum_loop.c --fuel 10", "run none.c", "check word_table.c", "plan word_table.c",
    "plan skip_negative.c --profile skip_negative.prof", "profile skip_negative.c in.txt", "gen 7 20",
    "run stale_read.c --plan stale.plan --why", "run skip_negative.c in.txt --plan skip.plan --why",
    "run histogram.c bins.txt --plan bins.plan --workers 8 --lane 1",
    "log stale_read.c --plan stale.plan", "log skip_negative.c in.txt --plan skip.plan", "audit sum_loop.c sum_loop.log",
    "audit stale_read.c sum_loop.log --plan stale.plan", "save stale_read.c --plan stale.plan --region 1 --after 4",
    "save sum_loop.c --region 1 --after 9", "resume stale_read.c stale.check --plan stale.plan",
    "batch skip_negative.c two.list --plan skip.plan",
    "run word_table.c words.txt --plan table.plan", "run word_table.c words.txt --plan table.plan --workers 8 --lane 64",
]

# Runs whose epochs give so many verdicts that their units are handed to threads, with crews of at most so many threads.
LONG = ["gen 7 400", "run histogram.c long.txt --plan bins.plan", "run word_table.c long.txt --plan table.plan"]
CREWS = ["--workers 1 --lane 1", "--workers 2 --lane 16", "--workers 8 --lane 64"]
THREADS = 14

REFUSED = {
    "semicolon.c": "int main() { int x = 1 print(x); }", "unknown.c": "int total; int main() { totl = 1; }",
    "deep.c": "int main() { print(" + "!" * 65 + "1); }", "bad.txt": "1 x", "bad.plan": "plan 3\n",
    "rule.plan": "plan 1\nregion 1 words 4096\nseq 2\nend\n",
}


def commands(folder, count):
    """The words of each run; the texts that they name lie in the folder or are examples."""
    texts = {**library(), **REFUSED, "in.txt": "5 -1 7 8", "bins.txt": "0 1 2 3 4 5 6", "bins.plan": BINS_PLAN, "table.plan": TABLE_PLAN,
             "words.txt": " ".join(str(k % 10) for k in range(count)), "long.txt": " ".join(str(k % 10) for k in range(400))}
    for name, text in texts.items():
        Path(folder, name).write_text(text)
    yield from (words.split() for words in WORDS)
    examples = TOP / "examples"
    for program in sorted(examples.glob("*.c")):
        yield ["run", str(program), str(program.with_suffix(".in"))]
        plan = program.with_suffix(".plan")
        if plan.exists():
            yield ["run", str(program), str(program.with_suffix(".in")), "--plan", str(plan)]


def told(it):
    """The message of a run, and how many allocations it made: a line of its own behind it."""
    message, _, count = it.stderr.removesuffix(b"\n").rpartition(b"\n")
    return message, int(count)


class Runs:
    """Runs of the program with the calls that fail."""

    def __init__(self, folder):
        self.folder, self.shim, self.made, self.wrong = folder, str(Path(folder, "failing.so")), 0, 0
        subprocess.run(["gcc", "-O2", "-shared", "-fPIC", "-o", self.shim, TOP / "checks/failing_calls.c", "-ldl"], check=True)

    def run(self, words, **failing):
        environment = dict(os.environ, LD_PRELOAD=self.shim, **failing)
        return subprocess.run([DSWP, *words], cwd=self.folder, capture_output=True, env=environment, timeout=60)

    def expect(self, holds, words, what, it):
        self.made += 1
        if not holds:
            self.wrong += 1
            print(f"{' '.join(words)}: {what}: status {it.returncode}, {len(it.stdout)} bytes", flush=True)

    def each_allocation(self, words, whole):
        message, count = told(whole)
        for number in range(1, count + 1):
            it = self.run(words, FAILING_ALLOCATION=str(number))
            same = (it.returncode, it.stdout) == (whole.returncode, whole.stdout)
            front = it.returncode == 7 and whole.stdout.startswith(it.stdout)
            self.expect((same or front) and message.startswith(told(it)[0]), words, f"allocation {number}", it)

    def each_byte(self, words, whole):
        for room in range(len(whole.stdout)):
            it = self.run(words, OUTPUT_ROOM=str(room))
            self.expect((it.returncode, it.stdout) == (6, whole.stdout[:room]), words, f"room for {room} bytes", it)


    def each_thread(self, words):
        whole = self.run(words)
        for number in range(1, THREADS + 1):
            it = self.run(words, FAILING_THREAD=str(number))
            self.expect((it.returncode, it.stdout) == (whole.returncode, whole.stdout), words, f"thread {number}", it)


def main():
    with tempfile.TemporaryDirectory() as folder:
        runs = Runs(folder)
        for words in commands(folder, int(sys.argv[1]) if len(sys.argv) > 1 else 60):
            whole = runs.run(words)
            runs.each_allocation(words, whole)
            runs.each_byte(words, whole)
        for words in LONG:
            for crew in CREWS:
                runs.each_thread([*words.split(), *crew.split()])
        print(f"{runs.made - runs.wrong} of {runs.made} runs as promised")
        sys.exit(runs.wrong > 0 or not runs.made)


main()
