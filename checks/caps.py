#!/usr/bin/env python3
"""Compares runs in which another number of iterations goes together with log_model.py, byte for byte. That number is a matter of
speed: the program takes it from the length of a region's text, and from whether that has an inner loop. Here it is 1, 2, 3 and 64,
in four programs that are built for that, unproved (bench/unproved.py).

  checks/caps.py [COUNT [SEED]]    COUNT random programs for each number, 1000 where it isn't given; beside them the
                                   tests' tables, the examples, and loops with stale reads

Of each the log is compared and what `run --why` writes, and of each tenth random program what is saved before its iterations
and gone on from. A build takes four minutes of a processor, and is kept as long as no source changes. That it has its number is
looked at as well: each constant is found once and stands in one expression, no two builds are of the same bytes, and the fewer
iterations go together, the longer takes a long loop. Tells for each number how many texts differ; shows each difference; ends
with 1 where there is one, or where a build lacks.
"""
import os
import random
import re
import resource
import sys
import tempfile
from pathlib import Path

sys.dont_write_bytecode = True
import logs
import worked_runs
from forced_builds import TOP, built
from random_runs import RandomRun
from saved_runs import Tries
from worked_runs import Case, dswp, worked

CAPS = (1, 2, 3, 64)
CAPPING = "crates/dp_lean_region/src/capping.rt"
CONSTANTS = {"OPS": 1 << 40, "MOST": None, "LOOPED": None}
# A loop of so many iterations, of which each so many-th leaves a stale read to the next one.
LOOP = """int hits;
int sum;
int main() {
  int i = 0;
  #pragma dswp
  while (i < %d) {
    i = i + 1;
    sum = sum + hits + i %% 7;
    if (i %% %d == 0) {
      hits = hits + 1;
    }
  }
}
"""
LOOP_PLAN = "plan 2\nregion 1 words 4096\nseq 2 3\nseq 4\nseq 5 6\nend\n"


def capped(most):
    """The source with so many iterations as the most, however long a text is."""
    text = (TOP / CAPPING).read_text()
    for name, value in CONSTANTS.items():
        text, count = re.subn(r"(?m)^const %s: u64 = [\d_]+;$" % name, "const %s: u64 = %d;" % (name, value or most), text)
        uses = len(re.findall(r"\b%s\b" % name, text)) - count
        if (count, uses) != (1, 1):
            sys.exit("%s has %d definitions of %s, and %d uses: caps.py is to follow it" % (CAPPING, count, name, uses))
    return {CAPPING: text}


class Compared(logs.Compared):
    """Compares logs and runs, and audits none of them."""

    def audits(self, *_):
        pass


def seconds(words):
    """The time of all processors that a run takes."""
    before = resource.getrusage(resource.RUSAGE_CHILDREN)
    text, status = dswp(*words)
    after = resource.getrusage(resource.RUSAGE_CHILDREN)
    assert status == 0, text
    return after.ru_utime - before.ru_utime + after.ru_stime - before.ru_stime


def long_run():
    """The least time that a long loop without stale reads takes."""
    Path("p.c").write_text(LOOP % (300_000, 1_000_000))
    Path("plan.txt").write_text(LOOP_PLAN)
    return min(seconds(["run", "p.c", "--plan", "plan.txt", "--workers", 1]) for _ in range(3))


def cases():
    """The tests' tables, the examples that have a plan, and loops with stale reads."""
    yield from worked()
    for plan in sorted(TOP.glob("examples/**/*.plan")):
        numbers = plan.with_suffix(".in").read_text().split()
        yield Case(plan.with_suffix(".c").read_text(), plan.read_text(), [int(it) for it in numbers], 10_000_000)
    for period in (5, 50, 64, 65):
        yield Case(LOOP % (700, period), LOOP_PLAN, [], 10_000_000)


def compare(count, seed):
    """How many texts were compared, and how many differ."""
    rng, compared, tries = random.Random(seed), Compared(), Tries(random.Random(seed))
    for case in cases():
        compared.worked_program(rng, case)
    for number in range(count):
        compared.random_program(rng)
        if number % 10 == 0:
            it = RandomRun(rng)
            tries.case(Case(it.text, it.plan, it.numbers, it.fuel))
    return 2 * compared.logs + tries.count["compared"], compared.differ + tries.count["differ"]


def main():
    count = int(sys.argv[1]) if len(sys.argv) > 1 else 1000
    seed = int(sys.argv[2]) if len(sys.argv) > 2 else 1
    differ, programs, times = 0, [], []
    with tempfile.TemporaryDirectory() as folder:
        for most in CAPS:
            programs.append(built("at_most_%d" % most, capped(most)))
            os.chdir(folder)
            worked_runs.answer_by(programs[-1])
            times.append(long_run())
            texts, others = compare(count, seed)
            differ += others
            print("at most %d iterations: %d texts, %d differ; a long loop in %.2f s" % (most, texts, others, times[-1]), flush=True)
            os.chdir("/")
    take = len({it.read_bytes() for it in programs}) == len(CAPS) and times == sorted(times, reverse=True)
    print("%d builds, %s, %d texts differ" % (len(CAPS), "each with its own number" if take else "NOT each with its own number", differ))
    sys.exit(differ > 0 or not take)


if __name__ == "__main__":
    main()
