#!/usr/bin/env python3
"""Compares the plans of small random programs, with profiles and without, with those that model_plans.py finds, a second
implementation by the documents alone, which goes through every cut.

  checks/least_plans.py [COUNT [SEED [PROGRAM]]]    COUNT programs, 2000 where it isn't given; PROGRAM is another build of dswp

The programs have early exits, `for`, calls, inner loops and strides. Ends with 1 at the first difference, and shows it.
"""
import collections
import itertools
import os
import random
import subprocess
import sys
import tempfile

sys.dont_write_bytecode = True
from model_plans import Accesses, LeastPlan, least_plans
from random_programs import OneLoop
from random_runs import Text
from small_c import Program

HERE = os.path.dirname(os.path.dirname(os.path.abspath(__file__)))
COUNTS = [0, 1, 3, 10, 100, 101, 1000, 5000, 10**12]
CONDITIONS = ("while", "if", "break")
MOST_UNITS = 11


class Profile:
    """Random counts of a program's regions."""

    def __init__(self, rng, program):
        self.runs, self.flows, lines = {}, {}, ["profile 1"]
        for region in program.regions:
            lines.append("region %d" % region.number)
            lines += [self.site(rng, program.sites[number]) for number in region.sites()]
            pairs = itertools.product(region.sites(), region.sites(), ("intra", "carried"))
            lines += [self.flow(rng, *pair) for pair in pairs if rng.random() < 0.3]
        self.text = "\n".join(lines + ["end", ""])

    def site(self, rng, site):
        runs = rng.choice(COUNTS)
        nonzero = min(runs, rng.choice((runs, *COUNTS))) if site.kind in CONDITIONS else 0
        self.runs[site.number] = runs, nonzero
        return "runs %d %d %d" % (site.number, runs, nonzero)

    def flow(self, rng, start, to, kind):
        """Of half of them a count at the rate of ten in a thousand, or one more."""
        at_rate = self.runs[to][0] // 100 + rng.randrange(2)
        self.flows[start, to, kind] = count = max(1, rng.choice((at_rate, rng.choice(COUNTS[1:]))))
        return "flow %d %d %s %d" % (start, to, kind, count)


class Options:
    """The options of `plan`, each of which may be left out."""

    def __init__(self, rng):
        self.stages, self.workers, self.rate, self.words = 4, 2, 10, []
        for name, numbers in (("stages", range(1, 9)), ("workers", range(1, 9)), ("rate", (0, 1, 10, 500, 999, 1000))):
            if rng.random() < 0.8:
                setattr(self, name, rng.choice(numbers))
                self.words += ["--" + name, str(getattr(self, name))]


def small_text(rng):
    """The text of a program none of whose regions has too many units to go through all cuts."""
    while True:
        text = OneLoop(rng).text if rng.random() < 0.6 else "\n".join(Text(rng).lines) + "\n"
        program = Program(text)
        if all(len(LeastPlan(Accesses(program, region)).order) <= MOST_UNITS for region in program.regions):
            return text, program


def shown(program, plans):
    """What the plans have, to tell how much was tried."""
    kinds = {site.kind for region in program.regions for site in map(program.sites.get, region.sites())}
    return {"early exits": "break" in kinds, "par stages": "par" in plans, "assumed outcomes": "assume" in plans,
            "several stages": plans.count("seq") > len(program.regions)}


def main():
    count = int(sys.argv[1]) if len(sys.argv) > 1 else 2000
    rng = random.Random(int(sys.argv[2]) if len(sys.argv) > 2 else 1)
    dswp = sys.argv[3] if len(sys.argv) > 3 else os.path.join(HERE, "crates", "dswp", "out", "dswp")
    tried = collections.Counter()
    with tempfile.TemporaryDirectory() as work:
        names = os.path.join(work, "p.c"), os.path.join(work, "p.profile")
        for _ in range(count):
            text, program = small_text(rng)
            profile, options = Profile(rng, program) if rng.random() < 0.7 else None, Options(rng)
            words = [dswp, "plan", names[0], *options.words, *(["--profile", names[1]] if profile else [])]
            for name, content in zip(names, (text, profile.text if profile else "")):
                with open(name, "w") as file:
                    file.write(content)
            done = subprocess.run(words, stdout=subprocess.PIPE, stderr=subprocess.PIPE, text=True)
            expected = least_plans(program, options.stages, options.workers, profile, options.rate)
            if done.stdout != expected:
                print(text, profile.text if profile else "", *words[1:], sep="\n")
                print("answered:", done.stdout, done.stderr, "expected:", expected, sep="\n")
                sys.exit(1)
            tried.update(what for what, so in shown(program, expected).items() if so)
    print("%d plans, 0 differ (%s)" % (count, ", ".join("%d with %s" % (tried[what], what) for what in sorted(tried))))


if __name__ == "__main__":
    main()
