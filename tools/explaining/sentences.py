"""Edges, stages and causes as sentences."""
import collections

from . import reasons


class Teller:
    """Sentences about a program."""

    def __init__(self, tree):
        self.tree = tree

    def line(self, site):
        return self.tree.sites[site].line

    def target(self, site):
        """What a site stores to, as the program has it."""
        return f"`{self.tree.sites[site].text.split(' = ')[0]}`"

    def edge(self, edge):
        """Why the second site waits for the first."""
        start, end = self.line(edge.start), self.line(edge.end)
        if edge.kind == "control":
            return f"the condition of line {start} decides whether line {end} is reached"
        name = self.target(edge.start)
        if edge.kind == "intra":
            return f"{name} of line {start} is loaded in line {end} of the same iteration"
        if edge.start == edge.end:
            return f"{name} of line {start} is stored there and loaded in a later iteration"
        return f"{name} of line {start} is stored there and loaded in line {end} of a later iteration"

    def passed(self, key, edges):
        """What one variable or condition tells later stages."""
        kind, number = key
        starts, ends = ({self.line(getattr(edge, end)) for edge in edges} for end in ("start", "end"))
        if kind == "condition" and number == self.tree.regions[self.tree.sites[number].region][1]:
            return "that the iteration goes on"
        if kind == "condition":
            return f"how the condition of {lines(starts)} goes, for {lines(ends)}"
        return f"`{self.tree.variables[number].name}` of {lines(starts)}, for {lines(ends)}"

    def boundary(self, plan, number):
        passed = reasons.forward(plan, number)
        return [self.passed(key, passed[key]) for key in sorted(passed, key=str)]

    def kept(self, plan, number):
        """What keeps a stage sequential."""
        stage = plan.stages[number - 1]
        cycle = reasons.shortest_cycle(plan, stage)
        if cycle:
            return [self.edge(edge) for edge in cycle]
        if number == 1:
            return ["no iteration needs one before it here, but the first stage is always sequential"]
        near = [plan.stages[place].kind for place in (number - 2, number) if place < len(plan.stages)]
        if "par" in near:
            return ["no iteration needs one before it here, but a stage beside it has several workers"]
        return ["no iteration needs one before it here, and more workers would cost no less"]

    def check(self, plan, load, store):
        loaded, stored = self.tree.sites[load], self.tree.sites[store]
        name = self.tree.variables[stored.stores].name
        where = "another worker of its stage may store" if plan.stage_of(load) == plan.stage_of(store) else "a later stage stores"
        return f"what line {loaded.line} loads of `{name}` is compared with the source's, since {where} it in line {stored.line}"


def lines(numbers):
    numbers = sorted(numbers)
    return f"line {numbers[0]}" if len(numbers) == 1 else "lines " + ", ".join(map(str, numbers))


class Causes:
    """How often a run executed iterations again, by line and by cause."""

    def __init__(self, tree, text):
        self.count = collections.Counter()
        self.line_of, self.total = {}, 0
        for line in text.splitlines():
            words = line.split()
            if words[:1] == ["region"] and "recovered" in words:
                self.total += int(words[words.index("recovered") + 1].rstrip(":"))
            if words[:1] == ["cause"]:
                self.add(tree, words[2:])

    def add(self, tree, words):
        kind = words[0]
        if kind == "load":
            cell = int(words[4])
            variable = tree.variable_of_cell(cell)
            name = variable.cell(cell) if variable else f"cell {cell}"
            self.put(tree.sites[int(words[2])].line, f"a load of `{name}` saw another number than the source's")
        elif kind == "assume":
            self.put(tree.sites[int(words[2])].line, "the condition went otherwise than the plan assumes")
        elif kind == "words":
            self.put(tree.sites[int(words[4])].line, f"stage {words[2]} had more words than the plan allows")
        elif kind == "fault":
            self.put(int(words[3]), f"a fault: {words[1]}")
        else:
            self.put(0, "the fuel was spent")

    def put(self, line, why):
        self.count[line, why] += 1

    def of_line(self, line):
        return sorted((why, count) for (at, why), count in self.count.items() if at == line)

    def lines(self):
        return sorted({line for line, _ in self.count})
