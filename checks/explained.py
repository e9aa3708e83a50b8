#!/usr/bin/env python3
"""Compares what `tree` and `explain` write of the examples and of random programs with what a second implementation writes,
from docs/LANGUAGE.md, docs/MEANING.md and docs/FORMATS.md alone, byte for byte.

  checks/explained.py [COUNT [SEED]]    COUNT random programs, 300 where it isn't given

Shows each difference; ends with 1 where there is one.
"""
import itertools
import os
import random
import sys
import tempfile
from pathlib import Path

sys.dont_write_bytecode = True
from least_plans import Profile
from model_plans import Accesses, LeastPlan, read_plans
from random_runs import RandomRun
from small_c import Program, Variable
from small_c_text import Name
from worked_runs import dswp

TOP = Path(__file__).resolve().parent.parent
KINDS = ("control", "intra", "carried")


class Written(Program):
    """A program whose statements are written as they are expanded."""

    def __init__(self, text):
        self.variables, self.lines = [], []
        super().__init__(text)

    def variable(self, name, value=0, length=None):
        self.variables.append(super().variable(name, value, length))
        return self.variables[-1]

    def number(self, variable):
        return self.variables.index(variable)

    def words(self, tree, scope):
        """An expression in prefix notation."""
        if isinstance(tree, int):
            return " number %d" % tree
        if not isinstance(tree, Name):
            sign = "negate" if tree.sign == "-" and tree.right is None else tree.sign
            return " %s%s%s" % (sign, self.words(tree.left, scope), "" if tree.right is None else self.words(tree.right, scope))
        index = "" if tree.index is None else self.words(tree.index, scope)
        if not isinstance(scope[tree.name], Variable):
            return " %s%s" % (tree.name, index)
        return " %s %d%s" % ("element" if index else "scalar", self.number(scope[tree.name]), index)

    def put_assign(self, it, scope, parts):
        value = self.words(it.value, scope)
        index = "" if it.index is None else self.words(it.index, scope)
        super().put_assign(it, scope, parts)
        self.assigned("store" if index else "assign", scope[it.name], index + value)

    def assigned(self, word, variable, words):
        self.lines.append("%s %d %d%s" % (word, len(self.sites), self.number(variable), words))

    def put_call(self, it, scope, parts):
        function = self.functions[it.name]
        own = {name: self.outer[name] for name in ("input", "input_len", *function.visible)}
        for name, argument in zip(function.parameters, it.arguments):
            site = self.assign(it.line, argument, scope, parts)
            site.target = own[name] = self.variable(name)
            self.assigned("assign", own[name], self.words(argument, scope))
        parts += self.block(function.body, own)

    def evaluated(self, word, tree, scope):
        self.lines.append("%s %d%s" % (word, len(self.sites), self.words(tree, scope)))

    def put_print(self, it, scope, parts):
        super().put_print(it, scope, parts)
        self.evaluated("print", it.value, scope)

    def put_exit(self, it, scope, parts):
        super().put_exit(it, scope, parts)
        self.evaluated("break", it.condition, scope)

    def put_choice(self, it, scope, parts):
        site = self.condition(it, scope, "if")
        self.evaluated("if", it.condition, scope)
        self.around.append(site)
        self.block(it.then, scope)
        self.lines.append("else")
        self.block(it.other, scope)
        self.around.pop()
        self.lines.append("end")

    def loop_body(self, it, scope):
        self.evaluated("region %d" % self.region.number if it.marked else "while", it.condition, scope)
        body = super().loop_body(it, scope)
        self.lines.append("end")
        return body

    def scope_of(self, variable):
        return "global" if variable in self.shown else "body %d" % variable.region if variable.region else "outer"


def listed(program):
    """What `check` writes."""
    yield "ok"
    for region in program.regions:
        yield "region %d line %d sites %d to %d" % (region.number, region.condition.line, region.condition.number, region.last)
    for site in program.sites.values():
        yield "site %d line %d %s" % (site.number, site.line, site.kind)


def tree(program):
    yield from listed(program)
    for number, it in enumerate(program.variables):
        form = "scalar" if it.length is None else "array"
        start = 0 if it.length else program.start[it.cell]
        yield "var %d %s %s first %d length %d start %d %s" % (number, it.name, form, it.cell, it.length or 1, start, program.scope_of(it))
    yield "main"
    yield from program.lines
    yield "end"


class Reasons:
    """What `explain` writes of one region, by the model of least plans."""

    def __init__(self, program, region, plan, profile, rate):
        self.program, self.region, self.plan, self.profile = program, region, plan, profile
        self.accesses = Accesses(program, region)
        self.by_text, self.minded = LeastPlan(self.accesses), LeastPlan(self.accesses, profile, rate)

    def variable(self, site):
        stored = self.accesses.sites[site].stores
        return "%d %s" % (self.program.number(stored), stored.name)

    def edges(self, model):
        """The edges in order, each with the words that tell it."""
        for start, to, kind in sorted(model.edges, key=lambda it: (it[0], it[1], KINDS.index(it[2]))):
            yield start, to, "%d %d %s%s" % (start, to, kind, "" if kind == "control" else " " + self.variable(start))

    def compared(self):
        for to, start in itertools.product(self.accesses.numbers, self.accesses.numbers):
            loads = [it for it in self.accesses.sites[to].site.loads if it[0] is self.accesses.sites[start].stores]
            if any(self.accesses.needs_check(self.plan, to, *load, start) for load in loads):
                yield "compared %d %d %s" % (to, start, self.variable(start))

    def forward(self):
        stage = self.plan.stage
        for behind in range(1, len(self.plan.replicated)):
            for start, to, words in self.edges(self.minded):
                if stage[start] <= behind < stage[to]:
                    yield "forward %d %s" % (behind, words)

    def shown(self):
        if self.profile:
            yield from ("runs %d %d %d" % (number, *self.profile.runs[number]) for number in self.accesses.numbers)
            for (start, to, kind), count in sorted(self.profile.flows.items(), key=lambda it: (it[0][0], it[0][1], it[0][2] == "carried")):
                if start in self.accesses.sites:
                    yield "flow %d %d %s %d" % (start, to, kind, count)

    def lines(self):
        yield "region %d" % self.region.number
        yield from ("edge " + words for _, _, words in self.edges(self.by_text))
        yield from ("checked %d" % site for site in sorted(self.accesses.checked(self.plan)))
        yield from ("minded " + words for _, _, words in self.edges(self.minded))
        for weight, unit in zip(self.minded.weights, self.minded.order):
            yield " ".join(map(str, ["unit", weight, *sorted(unit)]))
        yield from self.compared()
        yield from self.forward()
        yield from self.shown()


def reasons(program, plans, profile, rate):
    for region, plan in zip(program.regions, plans):
        yield from Reasons(program, region, plan, profile, rate).lines()
    yield "end"


class Compared:
    def __init__(self):
        self.texts = self.differ = 0

    def compare(self, what, got, lines):
        wanted = "".join(line + "\n" for line in lines)
        self.texts += 1
        if got != (wanted, 0):
            self.differ += 1
            print("differs: %s" % what, "got", *got, "wanted", wanted, sep="\n")

    def program(self, name, stages, workers, rng=None):
        """With a random profile, where a generator is given. The least plans are dswp's own: checks/least_plans.py compares them."""
        program, options = Written(Path(name).read_text()), ["--stages", stages, "--workers", workers]
        self.compare("tree %s" % name, dswp("tree", name), tree(program))
        profile, rate = Profile(rng, program) if rng else None, rng.choice((0, 10, 1000)) if rng else 10
        if profile:
            Path("p.profile").write_text(profile.text)
            options += ["--profile", "p.profile", "--rate", rate]
        plan = dswp("plan", name, *options)[0]
        lines = reasons(program, read_plans(plan), profile, rate)
        self.compare("explain %s" % name, dswp("explain", name, *options), [*plan.splitlines(), *lines])


def main():
    count = int(sys.argv[1]) if len(sys.argv) > 1 else 300
    rng = random.Random(int(sys.argv[2]) if len(sys.argv) > 2 else 1)
    compared = Compared()
    for name in sorted(TOP.glob("examples/*.c")):
        compared.program(str(name), 4, 2)
    with tempfile.TemporaryDirectory() as work:
        os.chdir(work)
        for _ in range(count):
            Path("p.c").write_text(RandomRun(rng).text)
            compared.program("p.c", rng.randint(1, 8), rng.randint(1, 8), rng if rng.random() < 0.5 else None)
    print("%d texts compared, %d differ" % (compared.texts, compared.differ))
    sys.exit(compared.differ > 0)


if __name__ == "__main__":
    main()
