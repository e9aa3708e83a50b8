#!/usr/bin/env python3
"""A second implementation of `run`, `log`, `audit`, `save` and `resume`, from docs/LANGUAGE.md, docs/MEANING.md and
docs/FORMATS.md alone. It refuses nothing: its files are to be of their forms.

  checks/log_model.py VERB PROGRAM [LOG or CHECKPOINT] [INPUT] [--plan FILE] [--stages N] [--workers N] [--fuel N] [--why]
                      [--region N] [--after N]

Profiles aren't taken. Ends with dswp's status.
"""
import argparse
import copy
import re
import sys
from pathlib import Path

sys.dont_write_bytecode = True
from model_plans import Accesses, least_plans, read_plans
from small_c import Program
from small_c_walk import Walk

LISTED = 1000
NUMBERS = {"fuel": 10_000_000, "stages": 4, "workers": 2, "lane": 16, "rate": 10, "region": 0, "after": 0}
STATUSES = {"done": 0, "fuel": 8, "here": 0}


class Judge:
    """Says which iterations of a region are executed again, and why. The epochs begin where one was executed again, and at
    those that are forced."""

    def __init__(self, program, region, plan, cells, forced):
        accesses = Accesses(program, region)
        self.plan, self.region, self.forced, self.cells = plan, region, forced, cells
        self.checked, self.locals = accesses.checked(plan), set(region.locals)
        self.begin_epoch()

    def begin_epoch(self):
        """The memory with which all stages begin, and the stores of the epoch to each cell, in order."""
        self.base, self.stores = list(self.cells), {}

    def covers(self, stage, iteration, cell, store):
        """Whether the stage sees the store in the iteration."""
        stored_in, by, _ = store
        if by > stage or (cell in self.locals and stored_in != iteration):
            return False
        return by < stage or not self.plan.replicated[stage] or stored_in == iteration

    def seen(self, stage, iteration, cell):
        for store in reversed(self.stores.get(cell, [])):
            if self.covers(stage, iteration, cell, store):
                return store[2]
        return 0 if cell in self.locals else self.base[cell]

    def failed_load(self, event, stage, iteration):
        for cell, value in event.loads:
            seen = self.seen(stage, iteration, cell)
            if seen != value:
                return "load site %d cell %d seen %d source %d" % (event.site.number, cell, seen, value)
        return None

    def is_otherwise(self, event, stage):
        """Whether the event goes otherwise than the plan assumes."""
        number = event.site.number
        if event.site.kind == "break":
            return stage > 1 and event.value != 0
        return number in self.plan.assumed and self.plan.assumed[number] != (event.value != 0)

    def failure(self, iteration):
        """The first failure among the events, or None. The stores are gone through as well."""
        words, failures = [0] * len(self.plan.replicated), []
        for event in iteration.events:
            site, stage = event.site, self.plan.stage[event.site.number]
            checked = site.number in self.checked
            if checked:
                failures.append(self.failed_load(event, stage, iteration.number))
            if self.is_otherwise(event, stage):
                failures.append("assume site %d" % site.number)
            words[stage] += 1 + checked * len(event.loads)
            if words[stage] > self.plan.words:
                failures.append("words stage %d site %d" % (stage, site.number))
            if event.stored:
                cell, _, value = event.stored
                self.stores.setdefault(cell, []).append((iteration.number, stage, value))
                self.cells[cell] = value
        return next(filter(None, failures), None)

    def cause(self, iteration, end):
        """Why the iteration is executed again, or None. `end` is how the run ended."""
        if (self.region.number, iteration.number) in self.forced:
            self.begin_epoch()
        cause = self.failure(iteration)
        if not cause and not iteration.ended:
            cause = end
        if cause:
            self.begin_epoch()
        return cause


class Report:
    """A region's line: how many iterations were begun, how many executed again, and the first of these."""

    def __init__(self, region, begun=0, again=0, listed=()):
        self.region, self.begun, self.again, self.listed = region, begun, again, list(listed)

    def add(self, iteration, cause):
        self.begun += 1
        if cause:
            self.again += 1
            self.listed = (self.listed + [iteration])[:LISTED]

    def line(self, word):
        numbers = ":" * (self.again > 0) + "".join(" %d" % number for number in self.listed)
        return "%s %d iterations %d recovered %d%s" % (word, self.region, self.begun, self.again, numbers)


class Checkpoint:
    """A text of docs/FORMATS.md as its parts."""

    def __init__(self, text):
        _, place, cells, *reports, _ = map(str.split, text.splitlines())
        self.region, self.after, self.steps, self.fuel = map(int, place[1::2])
        self.cells = list(map(int, cells[1:]))
        self.reports = [Report(int(it[1]), int(it[3]), int(it[5].rstrip(":")), map(int, it[6:])) for it in reports]


class Run:
    """A run as that of a Walk, with what came of each begun iteration. `forced` has places, a region's number and an iteration's,
    where an epoch begins in any case."""

    def __init__(self, program, plans, numbers, fuel, forced=(), until=None, checkpoint=None):
        self.program, self.walk = program, Walk(program, numbers, fuel, until, checkpoint)
        self.reports = {report.region: copy.copy(report) for report in (checkpoint.reports if checkpoint else [])}
        self.causes, judges = [], {}
        for iteration in self.walk.iterations:
            number = iteration.region.number
            if number not in judges:
                judges[number] = Judge(program, iteration.region, plans[number - 1], self.walk.entered[number], forced)
            cause = judges[number].cause(iteration, self.walk.end)
            self.causes.append(cause)
            self.reports.setdefault(number, Report(number)).add(iteration.number, cause)

    def status(self):
        return STATUSES.get(self.walk.end, 1)

    def prints(self):
        return "".join("%d\n" % value for value in self.walk.prints)

    def text(self, why=False):
        lines = ["state"]
        for variable in self.program.shown:
            lines.append(" ".join([variable.name, *(str(self.walk.cells[cell]) for cell in variable.cells())]))
        for number, report in sorted(self.reports.items()):
            if report.begun:
                lines += [report.line("region")] + self.listed_causes(number, report) * why
        return self.prints() + "\n".join(lines + ["end " + self.walk.end, ""])

    def listed_causes(self, region, report):
        listed = set(report.listed)
        return ["cause %d %s" % (it.number, cause) for it, cause in zip(self.walk.iterations, self.causes)
                if it.region.number == region and cause and it.number in listed]

    def log(self):
        lines = ["log 1"]
        for at, (iteration, cause) in enumerate(zip(self.walk.iterations, self.causes)):
            region = iteration.region.number
            if at == 0 or self.walk.iterations[at - 1].region.number != region:
                lines.append("region %d" % region)
            lines.append("%s %d" % ("again" if cause else "commit", iteration.number))
            lines += ["set %d %d" % change for change in iteration.changes()]
            lines += ["print %d" % value for value in iteration.prints()]
            lines += ["closed %d" % region] * iteration.leaves
        return "\n".join(lines + ["end " + self.walk.end, ""])

    def checkpoint(self, region, after):
        """The text of where the run stands, which has come to that iteration."""
        local = {cell for each in self.program.regions for cell in each.locals}
        cells = ["0" if cell in local else str(value) for cell, value in enumerate(self.walk.cells)]
        lines = ["checkpoint 1", "region %d after %d steps %d fuel %d" % (region, after, self.walk.steps, self.walk.fuel)]
        lines.append(" ".join(["cells", *cells]))
        lines += [self.reports.get(number, Report(number)).line("report") for number in range(1, region + 1)]
        return "\n".join(lines + ["end", ""])


def differing_line(text, other):
    """The first line, from 1, that isn't the same in both texts, or None."""
    if text == other:
        return None
    lines, others = (re.findall(r"[^\n]*\n|[^\n]+", it) for it in (text, other))
    same = [line == its for line, its in zip(lines, others)]
    return (same + [False]).index(False) + 1


def saved(program, plans, numbers, fuel, region, after):
    """What `save` writes, and its status."""
    run = Run(program, plans, numbers, fuel, until=(region, after))
    if run.walk.end != "here":
        return run.text(), run.status()
    return run.prints() + run.checkpoint(region, after), 0


def resumed(program, plans, numbers, text):
    """What `resume` writes, and its status."""
    checkpoint = Checkpoint(text)
    run = Run(program, plans, numbers, checkpoint.fuel, checkpoint=checkpoint)
    return run.text(), run.status()


def content(path):
    """A file's bytes, a character each."""
    return path.read_bytes().decode("latin-1")


def answer(words):
    """What the words write, and the status."""
    program = Program(content(words.program))
    held, inputs = (content(words.files[0]), words.files[1:]) if words.verb in ("audit", "resume") else ("", words.files)
    numbers = [int(number) for number in content(inputs[0]).split()] if inputs else []
    text = content(words.plan) if words.plan else least_plans(program, words.stages, words.workers)
    plans = read_plans(text)
    if words.verb == "plan":
        return text, 0
    if words.verb == "save":
        return saved(program, plans, numbers, words.fuel, words.region, words.after)
    if words.verb == "resume":
        return resumed(program, plans, numbers, held)
    run = Run(program, plans, numbers, words.fuel)
    if words.verb == "audit":
        line = differing_line(held, run.log())
        return ("audit differs line %d\n" % line, 10) if line else ("audit ok\n", 0)
    return (run.log() if words.verb == "log" else run.text(words.why)), run.status()


def words_of(line):
    parser = argparse.ArgumentParser(prog="log_model.py")
    parser.add_argument("verb", choices=("run", "plan", "log", "audit", "save", "resume"))
    parser.add_argument("program", type=Path)
    parser.add_argument("files", type=Path, nargs="*")
    parser.add_argument("--plan", type=Path)
    parser.add_argument("--why", action="store_true")
    for option, default in NUMBERS.items():
        parser.add_argument("--" + option, type=int, default=default)
    return parser.parse_intermixed_args(line)


if __name__ == "__main__":
    written, status = answer(words_of(sys.argv[1:]))
    sys.stdout.write(written)
    sys.exit(status)
