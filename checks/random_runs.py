"""Random programs with one or two marked loops, and for each a plan, an input and a fuel. Stages are spread at random, so that
many iterations are executed again; and there are early exits, calls, prints, body locals, strides, faults and spent fuel."""
from random_programs import OneLoop
from small_c import Program

ARRAYS = {"h": 5, "g": 18}
OPERATORS = ["+", "+", "+", "-", "-", "*", "<", "<=", ">", "==", "!=", "&&", "||"]


class Text:
    """The text of a random program."""

    def __init__(self, rng):
        self.rng, self.names, self.functions, self.depth = rng, 0, [], 0
        self.lines = ["int a; int b = 3; int c = -2; int m = 2;", *("int %s[%d];" % array for array in ARRAYS.items())]
        shared = ["a", "b", "c", "m"]
        for _ in range(rng.randrange(3)):
            self.function(shared)
        self.lines.append("int main() {")
        visible = list(shared)
        self.block(visible, rng.randrange(3))
        for _ in range(rng.choice((1, 1, 2))):
            self.region(visible)
            self.block(visible, rng.randrange(2))
        self.lines.append("}")

    def fresh(self):
        self.names += 1
        return "v%d" % self.names

    def function(self, shared):
        name, parameters = "f%d" % len(self.functions), [self.fresh() for _ in range(self.rng.randrange(3))]
        self.lines.append("void %s(%s) {" % (name, ", ".join("int " + it for it in parameters)))
        self.depth = 1
        self.block(shared + parameters, self.rng.randint(1, 3))
        self.depth = 0
        self.lines.append("}")
        self.functions.append((name, len(parameters)))

    def index(self, visible, length):
        """An index, which is mostly in range."""
        form = self.rng.random()
        if form < 0.02:
            return self.rng.choice(visible)
        if length < 18 or form < 0.3:
            return "(%s %% %d + %d) %% %d" % (self.rng.choice(visible), length, length, length)
        return self.rng.choice(("m", "m", "m + 1", "1 + m", "m - 1", "m + 2", "m - 2"))

    def leaf(self, visible):
        form = self.rng.random()
        if form < 0.3:
            return str(self.rng.choice((0, 1, 1, 2, 3, 7)))
        if form < 0.75:
            return self.rng.choice(visible)
        if form < 0.8:
            return "input_len"
        if form < 0.84:
            return "input[%s]" % self.rng.choice(("0", "1", "m"))
        name = self.rng.choice(list(ARRAYS))
        return "%s[%s]" % (name, self.index(visible, ARRAYS[name]))

    def expression(self, visible, depth=2):
        form = self.rng.random()
        if depth == 0 or form < 0.3:
            return self.leaf(visible)
        left = self.expression(visible, depth - 1)
        if form < 0.36:
            return "%s(%s)" % (self.rng.choice("-!"), left)
        if form < 0.6:
            return "%s %s %d" % (left, self.rng.choice("%%%/"), self.rng.randint(2, 9))
        if form < 0.61:
            return "(%s %s %s)" % (left, self.rng.choice("/%"), self.leaf(visible))
        return "(%s %s %s)" % (left, self.rng.choice(OPERATORS), self.expression(visible, depth - 1))

    def block(self, visible, count):
        self.depth += 1
        for _ in range(count):
            self.statement(visible)
        self.depth -= 1

    def inner(self, head, visible, last=""):
        self.lines.append(head + " {")
        self.block(list(visible), self.rng.randint(1, 3))
        self.lines.append(last + "}")

    def statement(self, visible):
        form, value = self.rng.random(), self.expression(visible)
        value = value if form > 0.4 or self.rng.random() < 0.1 else "(%s) %% 97" % value
        if form < 0.25:
            self.lines.append("%s = %s;" % (self.rng.choice([it for it in visible if it != "m" and not it.startswith("w")]), value))
        elif form < 0.4:
            name = self.rng.choice(list(ARRAYS))
            self.lines.append("%s[%s] = %s;" % (name, self.index(visible, ARRAYS[name]), value))
        elif form < 0.55:
            self.lines.append("print(%s);" % value)
        elif form < 0.68 or self.depth > 3:
            self.lines.append("int %s = %s;" % (name := self.fresh(), value))
            visible.append(name)
        elif form < 0.78 and self.functions:
            name, count = self.rng.choice(self.functions)
            self.lines.append("%s(%s);" % (name, ", ".join(self.expression(visible, 1) for _ in range(count))))
        elif form < 0.92:
            self.inner("if (%s)" % value, visible)
            if self.rng.random() < 0.4:
                self.inner("else" if self.rng.random() < 0.7 else "else if (%s)" % self.expression(visible), visible)
        else:
            name = "w" + self.fresh()
            head = "for (int %s = 0; %s < %d; %s = %s + 1)" % (name, name, self.rng.randint(0, 3), name, name)
            self.inner(head, [*visible, name])

    def region(self, visible):
        """A marked loop, which mostly counts up to a small number."""
        bound, step = self.rng.choice(("input_len", "input_len", "3", "6", "10")), self.rng.choice((1, 1, 1, 2))
        name, form = self.rng.choice(("m", "m", "w" + self.fresh())), self.rng.random()
        moves, start = ["%s = %s + %d;" % (name, name, step)], "2" if name == "m" else "0"
        if form < 0.3:
            first = "%s%s = %s" % ("int " * (name != "m"), name, start)
            head, moves = "for (%s; %s < %s; %s)" % (first, name, bound, moves[0][:-1]), []
        else:
            self.lines.append("%s%s = %s;" % ("int " * (name != "m"), name, start))
            visible += [name] * (name != "m")
            head = "while (%s < %s)" % (name, bound) if form < 0.92 else "while (%s)" % self.expression(visible)
        self.lines.append("#pragma dswp\n%s {" % head)
        inside, parts = visible + [name] * (name not in visible), self.rng.randint(2, 5)
        exits = ["if (%s > %d) break;" % (self.expression(inside), self.rng.randint(-1, 4))] if self.rng.random() < 0.4 else []
        ours = {self.rng.randrange(parts): line for line in moves + exits}
        late = [line for line in moves + exits if line not in ours.values()]
        for part in range(parts):
            self.block(inside, 1)
            self.lines += [ours[part]] if part in ours else []
        self.lines += late + ["}"]


def spread(rng, program, region):
    """A stage for each site of a region, so that a condition is in no later stage than what is inside, unless it is an `if`."""
    numbers, most = region.sites(), rng.randint(1, 5)
    in_order = rng.random() < 0.5
    stage = {number: 1 + (number - numbers[0]) * most // len(numbers) if in_order and rng.random() < 0.8 else rng.randint(1, most)
             for number in numbers}
    stage[numbers[0]] = 1
    for number in reversed(numbers[1:]):
        inside = [it for it in numbers if program.sites[number] in program.sites[it].around]
        if inside and (program.sites[number].kind == "while" or rng.random() < 0.6):
            stage[number] = min(stage[it] for it in (number, *inside))
    return stage


def plan_lines(rng, program, region):
    stage, lines, replicated = spread(rng, program, region), [], True
    for each in sorted(set(stage.values())):
        replicated = not replicated and rng.random() < 0.5
        lines.append(" ".join(["par" if replicated else "seq", *(str(it) for it in sorted(stage) if stage[it] == each)]))
    for number, site in ((it, program.sites[it]) for it in stage):
        needed = site.kind == "if" and any(site in program.sites[it].around and stage[it] < stage[number] for it in stage)
        if needed or (site.kind == "if" and rng.random() < 0.1):
            lines.append("assume %d %d" % (number, rng.randrange(2)))
    return ["region %d words %d" % (region.number, rng.choice((16, 20, 40, 4096, 4096)))] + lines


def random_plan(rng, program):
    """The text of valid plans."""
    lines = ["plan %d" % rng.randint(1, 2)]
    for region in program.regions:
        lines += plan_lines(rng, program, region)
    return "\n".join(lines + ["end", ""])


class RandomRun:
    """A program, its text, plans, the numbers of the input, and a fuel."""

    def __init__(self, rng):
        self.text = OneLoop(rng).text if rng.random() < 0.15 else "\n".join(Text(rng).lines) + "\n"
        self.program = Program(self.text)
        self.plan = random_plan(rng, self.program)
        self.numbers = [rng.randint(-3, 9) for _ in range(rng.choice((0, 2, *range(3, 14))))]
        if self.numbers and rng.random() < 0.1:
            self.numbers[-1] = rng.choice((2**63 - 1, -(2**63)))
        self.fuel = rng.choice((1500, 1500, 1500, rng.randrange(60), rng.randrange(400)))
