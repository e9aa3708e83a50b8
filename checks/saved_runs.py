#!/usr/bin/env python3
"""Saves runs before an iteration and goes on from there, and compares with log_model.py and with the run of one piece.

  checks/saved_runs.py [COUNT [SEED]]    COUNT random programs beside the tests' tables, 300 where it isn't given

Each iteration of each region is tried up to twelve of them, and some of more. `save` has 1, 2 or 8 workers, and `resume` each of
these numbers. What both write together is by the model the text of one run in which an epoch is forced there; but for the
numbers of iterations that were executed again it is what `run` writes. A checkpoint with another value and another fuel is gone
on from as well. `resume` can't save, so a run that is saved ten times is saved from its start each time, and each checkpoint is
gone on from. Shows each difference; ends with 1 where there is one.
"""
import itertools
import os
import random
import re
import sys
import tempfile
from collections import Counter
from pathlib import Path

sys.dont_write_bytecode = True
from log_model import Checkpoint, Run, resumed, saved
from model_plans import read_plans
from random_runs import RandomRun
from small_c import Program
from worked_programs import TOP
from worked_runs import Case, dswp, worked

WORKERS = (1, 2, 8)


def made(rng, count):
    for _ in range(count):
        it = RandomRun(rng)
        yield Case(it.text, it.plan, it.numbers, it.fuel)


def saved_ten_times():
    """A run with many stale reads."""
    text, plan, numbers = ((TOP / "examples/hash_table").with_suffix(it).read_text() for it in (".c", ".plan", ".in"))
    return Case(text, plan, [int(it) for it in numbers.split()], 10_000_000)


def without_again(text):
    return re.sub(r"(?m)^(region .*) recovered .*$", r"\1", text)


class Tries:
    def __init__(self, rng):
        self.rng, self.count, self.workers, self.options = rng, Counter(), itertools.cycle(WORKERS), []

    def compare(self, what, case, got, wanted):
        self.count["compared"] += 1
        if got != wanted:
            self.count["differ"] += 1
            print("differs: %s" % what, *case, "got", *got, "wanted", *wanted, sep="\n")

    def places(self, run):
        """Regions and iterations before which a run is saved; the last of each region isn't begun."""
        begun = Counter(it.region.number for it in run.walk.iterations)
        for region, count in begun.items():
            afters = range(count + 2)
            if count > 12:
                afters = sorted({0, 1, count - 1, count, count + 1, *(self.rng.randrange(count) for _ in range(7))})
            if count > 2000:
                afters = (1, count - 1)
            yield from ((region, after) for after in afters)
        if not begun:
            yield 1, 0

    def case(self, case, places=None):
        self.count["programs"] += 1
        Path("p.c").write_text(case.text)
        Path("in.txt").write_text(" ".join(map(str, case.numbers)))
        Path("plan.txt").write_text(case.plan)
        program, plans = Program(case.text), read_plans(case.plan)
        run = Run(program, plans, case.numbers, case.fuel)
        whole = dswp("run", "p.c", "in.txt", "--plan", "plan.txt", "--fuel", case.fuel, *self.options)
        self.compare("run", case, whole, (run.text(), run.status()))
        for region, after in places or self.places(run):
            self.place(case, program, plans, whole, region, after)

    def place(self, case, program, plans, whole, region, after):
        words = ["--plan", "plan.txt", "--fuel", case.fuel, "--region", region, "--after", after, "--workers", next(self.workers), *self.options]
        what, wanted = "save %s" % words, saved(program, plans, case.numbers, case.fuel, region, after)
        self.compare(what, case, dswp("save", "p.c", "in.txt", *words), wanted)
        front, mark, rest = wanted[0].partition("checkpoint 1\n")
        self.count["saves"] += 1
        if not mark:
            self.compare(what + " beside run", case, wanted, whole)
            return
        one = Run(program, plans, case.numbers, case.fuel, forced={(region, after)})
        self.goes_on(what, case, mark + rest, resumed(program, plans, case.numbers, mark + rest), WORKERS)
        together = front + resumed(program, plans, case.numbers, mark + rest)[0]
        self.compare(what + " and resume in one piece", case, (together,), (one.text(),))
        self.compare(what + " and resume beside run", case, (without_again(together),), (without_again(whole[0]),))
        if self.rng.random() < 0.3:
            other = self.made_up(program, mark + rest)
            self.goes_on("made up", case, other, resumed(program, plans, case.numbers, other), (2,))

    def goes_on(self, what, case, checkpoint, wanted, crews):
        Path("checkpoint.txt").write_text(checkpoint)
        for workers in crews:
            self.count["resumed"] += 1
            got = dswp("resume", "p.c", "checkpoint.txt", "in.txt", "--plan", "plan.txt", "--workers", workers, *self.options)
            self.compare("%s, resume with %d workers\n%s" % (what, workers, checkpoint), case, got, wanted)

    def made_up(self, program, text):
        """The checkpoint with one value and with a fuel that are made up."""
        local = {cell for region in program.regions for cell in region.locals}
        checkpoint, cells = Checkpoint(text), [cell for cell in range(len(program.start)) if cell not in local]
        lines = text.split("\n")
        values = lines[2].split()
        if cells:
            values[1 + self.rng.choice(cells)] = str(self.rng.randint(-9, 9))
        lines[1] = re.sub(r"fuel \d+", "fuel %d" % (checkpoint.steps + self.rng.randrange(300)), lines[1])
        return "\n".join([*lines[:2], " ".join(values), *lines[3:]])


def main():
    count = int(sys.argv[1]) if len(sys.argv) > 1 else 300
    tries = Tries(random.Random(int(sys.argv[2]) if len(sys.argv) > 2 else 1))
    with tempfile.TemporaryDirectory() as folder:
        os.chdir(folder)
        for case in itertools.chain(worked(), made(tries.rng, count)):
            tries.case(case)
        tries.case(saved_ten_times(), [(1, after) for after in range(2, 22, 2)])
        os.chdir("/")
    print("{programs} programs, {saves} saves, {resumed} resumed, {differ} of {compared} differ".format_map(Counter(tries.count)))
    sys.exit(tries.count["differ"] > 0)


if __name__ == "__main__":
    main()
