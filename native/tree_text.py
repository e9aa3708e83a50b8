"""The text that `dswp tree` writes of a program, read back as a tree."""


class Variable:
    """A variable by its first cell and its number of cells; the region whose body declares it, or 0."""

    def __init__(self, words):
        self.name, self.is_array, self.first = words[2], words[3] == "array", int(words[5])
        self.length = int(words[7])
        self.region = int(words[11]) if words[10] == "body" else 0


class Statement:
    """A statement by its first word and its site, with its expressions, and the statements inside it."""

    def __init__(self, form, site):
        self.form, self.site = form, site
        self.variable = None
        self.expressions, self.bodies = [], []


class Program:
    def __init__(self, text):
        lines = [line.split(" ") for line in text.split("\n")]
        self.variables = [Variable(words) for words in lines if words[0] == "var" and len(words) > 10]
        self.site_count = sum(words[0] == "site" for words in lines)
        self.lines = {int(words[1]): int(words[3]) for words in lines if words[0] == "site"}
        self.main, end = read_body(lines, lines.index(["main"]) + 1)
        assert lines[end] == ["end"]

    def cell_count(self):
        return sum(variable.length for variable in self.variables)


def read_body(lines, at):
    """The statements from a line on up to an `end` or `else`, and the line of that."""
    body = []
    while lines[at][0] not in ("end", "else"):
        statement, at = read_statement(lines, at)
        body.append(statement)
    return body, at


def read_statement(lines, at):
    words = iter(lines[at])
    form = next(words)
    if form == "region":
        next(words)
    statement = Statement(form, int(next(words)))
    if form in ("assign", "store"):
        statement.variable = int(next(words))
    count = 2 if form == "store" else 1
    statement.expressions = [read_expression(words) for _ in range(count)]
    for _ in range({"if": 2, "while": 1, "region": 1}.get(form, 0)):
        body, at = read_body(lines, at + 1)
        statement.bodies.append(body)
    return statement, at + 1


def read_expression(words):
    """An expression in prefix notation: its first word, and then a number or its operands."""
    head = next(words)
    if head in ("number", "scalar"):
        return head, int(next(words))
    if head == "input_len":
        return (head,)
    if head == "element":
        return head, int(next(words)), read_expression(words)
    count = 1 if head in ("input", "negate", "!") else 2
    return (head,) + tuple(read_expression(words) for _ in range(count))
