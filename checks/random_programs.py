"""Texts of small random programs of one marked loop. Many loops move a variable by a stride, so that elements indexed by it
lie apart or don't; some stop early, are a `for`, or call functions."""
SHARED = ["a", "b", "c"]


class OneLoop:
    """The text of a random program with one region."""

    def __init__(self, rng):
        self.rng, self.names, self.inside, self.functions = rng, 0, False, []
        self.lines = ["int a; int b; int c = 5; int h[4]; int g[9]; int m;"]
        for _ in range(rng.choice((0, 0, 1, 2))):
            self.function()
        self.lines.append("int main() {")
        for _ in range(rng.randrange(3)):
            self.statement(list(SHARED), 0)
        self.region()
        self.lines.append("}\n")
        self.text = "\n".join(self.lines)

    def fresh(self):
        self.names += 1
        return "l%d" % self.names

    def function(self):
        """A function, which may move `m`; it is called in the loop alone."""
        parameters = [self.fresh() for _ in range(self.rng.randrange(3))]
        self.lines.append("void f%d(%s) {" % (len(self.functions), ", ".join("int " + it for it in parameters)))
        self.inside = True
        self.block(SHARED + parameters, 1, self.rng.random() < 0.3)
        self.inside = False
        self.lines.append("}")
        self.functions.append(len(parameters))

    def region(self):
        rng, condition = self.rng, self.expression(SHARED)
        counts = rng.random() < 0.25
        self.lines.append("#pragma dswp")
        self.lines.append("for (m = 0; %s; %s) {" % (condition, self.move()) if counts else "while (%s) {" % condition)
        self.inside = True
        self.block(SHARED, 0, rng.random() < (0.1 if counts else 0.6))
        self.lines.append("}")
        self.inside = False

    def index(self, visible):
        """An index of `g`."""
        form, offset = self.rng.random(), self.rng.randint(-3, 3)
        if form < 0.1:
            return "%s %% 4" % self.rng.choice(visible)
        if form < 0.16:
            return self.rng.choice(("g[m]", "2 - m", "m + a", "m + -1", "m + 1 + 1", "(m) + (2)"))
        forms = ["m + %d" % offset, "%d + m" % offset] if offset >= 0 else ["m - %d" % -offset]
        return self.rng.choice(forms + ["m"] * (offset == 0))

    def move(self):
        """Mostly a move by a stride."""
        stride = self.rng.choice((1, 1, 2, 3, -1, -2))
        if self.rng.random() < 0.1:
            return self.rng.choice(("m = 1 + m", "m = m + 0", "m = m - -1", "m = m + a"))
        return "m = m %s %d" % ("+-"[stride < 0], abs(stride))

    def expression(self, visible):
        text = " + ".join(self.rng.sample(visible, self.rng.randrange(min(3, len(visible) + 1)))) or "7"
        if self.rng.random() < 0.2:
            text = "%s - h[%s %% 4]" % (text, self.rng.choice(visible))
        while self.rng.random() < 0.25:
            text = "%s %s g[%s]" % (text, self.rng.choice(("-", "-", "&&", "||")), self.index(visible))
        return text

    def block(self, visible, depth, moves=False):
        visible, count = list(visible), self.rng.randrange(1, 4 if depth else 6)
        moved, left = self.rng.randrange(count), self.rng.randrange(4 * count)
        for at in range(count):
            if moves and at == moved:
                self.lines.append(self.move() + ";")
            if depth == 0 and self.inside and at == left:
                self.lines.append("if (%s) break;" % self.expression(visible))
            self.statement(visible, depth)

    def inner(self, head, visible, depth):
        self.lines.append(head + " {")
        self.block(visible, depth + 1)
        self.lines.append("}")

    def statement(self, visible, depth):
        form, text = self.rng.random(), self.expression(visible)
        if form < 0.35 or (depth > 1 and form > 0.6):
            self.lines.append("%s = %s;" % (self.rng.choice(visible), text))
        elif form < 0.41 and self.inside:
            self.lines.append("g[%s] = %s;" % (self.index(visible), text))
        elif form < 0.45:
            self.lines.append("h[%s %% 4] = %s;" % (self.rng.choice(visible), text))
        elif form < 0.52:
            self.lines.append("print(%s);" % text)
        elif form < 0.6 or not self.inside:
            name = self.fresh()
            self.lines.append("int %s = %s;" % (name, text))
            visible.append(name)
        else:
            self.long_statement(visible, depth, text)

    def long_statement(self, visible, depth, text):
        form = self.rng.random()
        if form < 0.25 and self.functions:
            called = self.rng.randrange(len(self.functions))
            arguments = [self.expression(visible) for _ in range(self.functions[called])]
            self.lines.append("f%d(%s);" % (called, ", ".join(arguments)))
        elif form < 0.65:
            self.inner("if (%s)" % text, visible, depth)
            if self.rng.random() < 0.3:
                self.inner("else", visible, depth)
        elif form < 0.85:
            self.inner("while (%s)" % text, visible, depth)
        else:
            name = self.fresh()
            self.inner("for (int %s = %s; %s < 3; %s = %s + 1)" % (name, text, name, name, name), [*visible, name], depth)
