"""The runs of the tests' tables, each as what it runs on, for the checks that do something else with them."""
import itertools
import re
import subprocess
from collections import namedtuple
from pathlib import Path

from small_c import Program
from small_c_walk import Walk
from worked_programs import DSWP, TESTS, cases, library

MOST_STEPS = 100_000
Case = namedtuple("Case", "text plan numbers fuel")


def answer_by(program):
    """Has another program answer than the proved one."""
    global DSWP
    DSWP = program


def dswp(*words):
    """What is answered, and the status."""
    done = subprocess.run([DSWP, *map(str, words)], stdout=subprocess.PIPE, stderr=subprocess.DEVNULL, timeout=60)
    return done.stdout.decode("latin-1"), done.returncode


def option(words, name, default):
    return words[words.index(name) + 1] if name in words else default


def worked():
    """The tests' rows that run a region under a plan or a least plan, but for those that take a profile or many steps."""
    files = library()
    for _, words, held, wanted in cases(sorted(path.stem for path in TESTS.glob("*.rt"))):
        files.update(zip(("p.c", "in.txt", "plan.txt"), held))
        if not re.search("^region ", wanted, re.M) or "--profile" in words:
            continue
        text, numbers = files[words[1]], [int(it) for it in (files["in.txt"] if "in.txt" in words else "").split()]
        fuel = int(option(words, "--fuel", 10_000_000))
        if fuel <= MOST_STEPS or Walk(Program(text), numbers, MOST_STEPS).end != "fuel":
            plan = files[option(words, "--plan", "")] if "--plan" in words else least_plan(text, words[2:])
            yield Case(text, plan, numbers, fuel)


def least_plan(text, words):
    Path("p.c").write_text(text)
    named = [(name, option(words, name, "")) for name in ("--stages", "--workers", "--rate") if name in words]
    return dswp("plan", "p.c", *itertools.chain(*named))[0]
