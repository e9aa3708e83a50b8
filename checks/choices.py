#!/usr/bin/env python3
"""Compares runs in which it is forced by which plans regions are run with log_model.py, byte for byte. That is a matter of speed:
the program chooses by the clock. Here a region is run in one stage, or by the plan that keeps inner loops whole, or by its own
plan, as long as it may be, or by one after the other with a switch behind each 1, 3 or 7 iterations; by the calling thread alone,
and with threads from the first iteration on; with batches of 1 iteration and of up to 64. It is so under plans that are named too.

  checks/choices.py [COUNT [SEED]]    COUNT random programs, 400 where it isn't given; beside them the tests' tables, the examples
                                      that have a plan, and loops with stale reads and with inner loops, under their least plans too

Two programs are built for that (forced_builds.py), one for each size of batches. In them the number of a lane's places tells what is
forced (choices.template), so each run is made with all of them. Of each the answer with --why or without it is compared, and its log; of each
tenth random program also what is saved before its iterations and gone on from. That each choice was made is looked at as well, by
what DSWP_CHOICE=1 tells of each run: which iterations were committed by which plan, and how often plans were switched.
Shows each difference; ends with 1 where there is one, or where a choice wasn't made.
"""
import os
import random
import re
import subprocess
import sys
import tempfile
from collections import Counter
from pathlib import Path

sys.dont_write_bytecode = True
import caps
import worked_runs
from forced_builds import TOP, built, replaced
from log_model import Run
from model_plans import read_plans
from random_runs import RandomRun
from saved_runs import Tries
from small_c import Program
from worked_runs import Case, dswp

FORCED = ("one stage", "whole loops", "own plan", "each 1", "each 3", "each 7")
WAYS = FORCED[:3]
TOLD = re.compile(r"dswp: region (\d+): one stage (\d+), epochs \d+, ms \d+; whole loops (\d+), epochs \d+, ms \d+; "
                  r"own plan (\d+), epochs \d+, ms \d+; again (\d+); switches (\d+); ms \d+")
REPORT = re.compile(r"(?m)^region (\d+) iterations (\d+) recovered (\d+)")
# A loop with an inner loop, whose results a later statement takes; each so many-th iteration stops the inner one early.
NESTED = """int sum; int row[8]; int most;
int main() {
  int i = 0;
  #pragma dswp
  while (i < %d) {
    int at = i; int turn = 0; int made = 0;
    i = i + 1;
    while (turn < 3 + at %% %d) { made = made + at * turn; turn = turn + 1; }
    %s
    sum = sum + made %% 97;
    if (sum > 1000000) { most = most + 1; }
  }
  print(sum); print(most);
}
"""


def sources(most):
    """The sources with what is forced."""
    crew, awaited, choosing, texts = ("crates/%s.rt" % it for it in ("dp_crew/src/crew", "dp_crew/src/awaited", "dp_crew/src/choosing", "dp_drive/src/texts"))
    return caps.capped(most) | {
        crew: replaced(crew, ("Choice::new(!work.bells.is_empty(), work.has_workers())", "Choice::new(work.size.lane)")),
        awaited: replaced(awaited, ("const ALONE: u32 = 256;", "const ALONE: u32 = 1_000_000_000;"),
                          ("const PATIENCE: u64 = 200_000;", "const PATIENCE: u64 = u64::MAX;"),
                          ("const IN_ONE_STAGE: u64 = 500_000;", "const IN_ONE_STAGE: u64 = u64::MAX;")),
        choosing: (TOP / "checks/choices.template").read_text(),
        texts: replaced(texts, ("PlanSource::Named(_) => false", "PlanSource::Named(_) => true")),
    }


def answered(words):
    """What is answered, the status, and what is told of each region by which plans it was run."""
    done = subprocess.run([worked_runs.DSWP, *map(str, words)], capture_output=True, timeout=60, env={**os.environ, "DSWP_CHOICE": "1"})
    told = [dict(zip(("region", *WAYS, "again", "switches"), map(int, it))) for it in TOLD.findall(done.stderr.decode("latin-1"))]
    return (done.stdout.decode("latin-1"), done.returncode), told


def begun(text):
    """Of each region of an answer that an iteration was begun of: its number, how many were, and how many were executed again."""
    reported = [tuple(map(int, each)) for each in REPORT.findall(text)]
    return [each for each in reported if each[1]]


class Compared:
    """Counts what was compared, differs, and was run by which plans."""

    def __init__(self, rng):
        self.rng, self.texts, self.differ, self.made = rng, 0, 0, [Counter() for _ in FORCED]

    def case(self, it):
        Path("p.c").write_text(it.text)
        Path("in.txt").write_text(" ".join(map(str, it.numbers)))
        Path("plan.txt").write_text(it.plan)
        run, words = Run(Program(it.text), read_plans(it.plan), it.numbers, it.fuel), ["log", "p.c", "in.txt", "--plan", "plan.txt", "--fuel", it.fuel]
        self.compare(words, it, dswp(*words), (run.log(), run.status()))
        for number in range(len(FORCED)):
            for by_threads in (False, True):
                places = 1 + number + len(FORCED) * by_threads + 2 * len(FORCED) * self.rng.randrange(5)
                self.run(it, run, number, ["--lane", places, "--workers", self.rng.choice((1, 2, 8)), "--fuel", it.fuel])

    def run(self, it, run, number, options):
        why = self.rng.random() < 0.5
        words = ["run", "p.c", "in.txt", "--plan", "plan.txt", *options, *["--why"] * why]
        got, told = answered(words)
        self.compare(words, it, got, (run.text(why=why), run.status()))
        # a region that is reached with no fuel left is told, and has no line in the answer
        counted = [(each["region"], sum(each[way] for way in (*WAYS, "again")), each["again"]) for each in told]
        self.compare([*words, "told"], it, [each for each in counted if each[1]], begun(got[0]))
        for each in told:
            self.made[number].update({key: each[key] for key in (*WAYS, "switches")})

    def compare(self, words, it, got, wanted):
        self.texts += 1
        if got != wanted:
            self.differ += 1
            print("differs: %s" % words, it.text, it.plan, it.numbers, "got", *got, "wanted", *wanted, sep="\n")

    def is_forced(self, number):
        """Whether this choice was made: no iteration is by another run plan than its own, and some are by each that it takes."""
        made = self.made[number]
        if number > 2:
            return all(made[way] for way in WAYS) and made["switches"] > 0
        return made[FORCED[number]] > 0 and not any(made[way] for way in WAYS[:2] if way != FORCED[number])


def least(text, words=()):
    """The text under its least plan."""
    Path("p.c").write_text(text)
    return dswp("plan", "p.c", *words)[0]


def worked_cases():
    yield from caps.cases()
    for period in (5, 50):
        text = caps.LOOP % (200, period)
        yield Case(text, least(text), [], 10_000_000)
    for turns, line in ((5, ""), (1, "row[at % 8] = made;"), (3, "print(made);"), (7, "if (made > 5000) break;")):
        text = NESTED % (90, turns, line)
        for fuel in (10_000_000, 1200):
            for words in (("--stages", 2), ("--stages", 8), ("--workers", 8)):
                yield Case(text, least(text, words), [], fuel)
            yield Case(text, re.sub("words 4096", "words 20", least(text)), [], fuel)


def random_case(rng):
    """A random program, mostly under its least plan, sometimes with fewer words, or under a random one."""
    it, plan = RandomRun(rng), ""
    if rng.random() < 0.7:
        plan = least(it.text, ["--stages", rng.randint(2, 8), "--workers", rng.randint(1, 8)])
        if rng.random() < 0.3:
            plan = re.sub("words 4096", "words %d" % rng.choice((16, 20, 40)), plan)
    return Case(it.text, plan or it.plan, it.numbers, it.fuel)


def compare(count, seed):
    rng = random.Random(seed)
    compared, tries = Compared(rng), Tries(random.Random(seed))
    for case in worked_cases():
        compared.case(case)
    for number in range(count):
        case = random_case(rng)
        compared.case(case)
        if number % 10 == 0:
            tries.options = ["--lane", rng.randint(1, 12)]
            tries.case(case)
    compared.texts += tries.count["compared"]
    compared.differ += tries.count["differ"]
    return compared


def main():
    count = int(sys.argv[1]) if len(sys.argv) > 1 else 400
    seed = int(sys.argv[2]) if len(sys.argv) > 2 else 1
    bad = 0
    with tempfile.TemporaryDirectory() as folder:
        for most in (1, 64):
            worked_runs.answer_by(built("choices_%d" % most, sources(most)))
            os.chdir(folder)
            compared = compare(count, seed)
            os.chdir("/")
            for number, name in enumerate(FORCED):
                forced = compared.is_forced(number)
                bad += not forced
                print("at most %d, %s: %s%s" % (most, name, dict(compared.made[number]), "" if forced else " NOT as forced"))
            print("at most %d iterations: %d texts, %d differ" % (most, compared.texts, compared.differ), flush=True)
            bad += compared.differ
    sys.exit(bad > 0)


if __name__ == "__main__":
    main()
