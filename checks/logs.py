#!/usr/bin/env python3
"""Compares logs and runs of the tests' tables and of random programs with those of log_model.py, byte for byte, and audits each
log: as it is, and with a byte changed, with a line dropped, doubled or swapped with the next, and with its end cut off.

  checks/logs.py [COUNT [SEED]]    COUNT random programs, 3000 where it isn't given

A fifth of the random programs run under their least plan, the others under a random one. Shows each difference; ends with 1 where
there is one.
"""
import os
import random
import sys
import tempfile
from pathlib import Path

sys.dont_write_bytecode = True
from log_model import Run, differing_line
from model_plans import read_plans
from random_runs import RandomRun
from small_c import Program
from worked_runs import dswp, worked


def changed(rng, text):
    """Another text: one byte, one line or the end is another."""
    form, place, lines = rng.randrange(5), rng.randrange(len(text)), text.split("\n")[:-1]
    line = rng.randrange(len(lines))
    if form == 0:
        text = text[:place] + chr(rng.choice([it for it in range(256) if chr(it) != text[place]])) + text[place + 1 :]
    elif form == 1:
        return text[:place]
    elif form == 2:
        lines[line : line + 1] = []
    elif form == 3:
        lines[line : line + 1] = [lines[line]] * 2
    else:
        lines[line : line + 2] = lines[line : line + 2][::-1]
    return text if form == 0 else "".join(it + "\n" for it in lines)


class Compared:
    """Counts what was compared, and shows what differs."""

    def __init__(self):
        self.logs = self.changed = self.differ = 0

    def compare(self, what, got, wanted):
        if got != wanted:
            self.differ += 1
            print("differs: %s" % what, "got", *got, "wanted", *wanted, sep="\n")

    def random_program(self, rng):
        it, options = RandomRun(rng), ["--workers", rng.randint(1, 8)]
        if rng.random() < 0.2:
            Path("p.c").write_text(it.text)
            options += ["--stages", rng.randint(1, 8)]
            it.plan = dswp("plan", "p.c", *options)[0]
        else:
            Path("plan.txt").write_text(it.plan)
            options += ["--plan", "plan.txt"]
        self.program(rng, it, options + ["--lane", rng.choice((1, 2, 16, 64))])

    def worked_program(self, rng, case):
        Path("plan.txt").write_text(case.plan)
        for workers in (1, 2, 8):
            self.program(rng, case, ["--plan", "plan.txt", "--workers", workers, "--lane", rng.choice((1, 2, 16, 64))])

    def program(self, rng, it, options):
        Path("p.c").write_text(it.text)
        Path("in.txt").write_text(" ".join(map(str, it.numbers)))
        options += ["--fuel", it.fuel]
        shown = "\n".join([it.text, it.plan, "input %s, %s" % (it.numbers, options)])
        run = Run(Program(it.text), read_plans(it.plan), it.numbers, it.fuel)
        self.compare("log of\n" + shown, dswp("log", "p.c", "in.txt", *options), (run.log(), run.status()))
        self.compare("run of\n" + shown, dswp("run", "p.c", "in.txt", "--why", *options), (run.text(why=True), run.status()))
        self.logs += 1
        self.audits(rng, run.log(), options, shown)

    def audits(self, rng, log, options, shown):
        for text in [log] + [changed(rng, log) for _ in range(3)]:
            Path("run.log").write_bytes(text.encode("latin-1"))
            line = differing_line(text, log)
            wanted = ("audit differs line %d\n" % line, 10) if line else ("audit ok\n", 0)
            self.compare("audit of\n%s\n%s" % (shown, text), dswp("audit", "p.c", "run.log", "in.txt", *options), wanted)
            self.changed += line is not None


def main():
    count = int(sys.argv[1]) if len(sys.argv) > 1 else 3000
    rng, compared = random.Random(int(sys.argv[2]) if len(sys.argv) > 2 else 1), Compared()
    with tempfile.TemporaryDirectory() as folder:
        os.chdir(folder)
        for case in worked():
            compared.worked_program(rng, case)
        of_tables = compared.logs
        for _ in range(count):
            compared.random_program(rng)
        os.chdir("/")
    print("%d logs of tables, %d of random programs, %d changed, %d differ" % (of_tables, compared.logs - of_tables, compared.changed, compared.differ))
    sys.exit(compared.differ > 0)


if __name__ == "__main__":
    main()
