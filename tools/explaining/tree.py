"""A program as `dswp tree` writes it."""
import dataclasses

UNARY = {"negate": "-", "!": "!"}
LEVELS = [["||"], ["&&"], ["==", "!="], ["<", "<=", ">", ">="], ["+", "-"], ["*", "/", "%"]]
LEVEL = {sign: level for level, signs in enumerate(LEVELS, 1) for sign in signs}
PREFIX_LEVEL = 7


@dataclasses.dataclass
class Variable:
    number: int
    name: str
    is_array: bool
    first: int
    length: int
    region: int  # the region whose body declares it, or 0

    def cell(self, cell):
        """The name of one of its cells."""
        return f"{self.name}[{cell - self.first}]" if self.is_array else self.name


@dataclasses.dataclass
class Site:
    number: int
    line: int
    kind: str
    region: int = 0
    text: str = ""
    loads: frozenset = frozenset()
    stores: int | None = None


@dataclasses.dataclass
class Tree:
    variables: list
    sites: dict
    regions: dict  # each region's line, first and last site

    def variable_of_cell(self, cell):
        return next((it for it in self.variables if it.first <= cell < it.first + it.length), None)


class Expression:
    """The text of an expression, and the variables that it loads."""

    def __init__(self, words, variables):
        self.words, self.variables, self.loads = words, variables, set()

    def read(self, outer=0):
        head = next(self.words)
        if head in ("number", "scalar", "element", "input", "input_len"):
            return self.read_operand(head)
        if head in UNARY:
            return UNARY[head] + self.read(PREFIX_LEVEL)
        level = LEVEL[head]
        text = f"{self.read(level)} {head} {self.read(level + 1)}"
        return f"({text})" if level < outer else text

    def read_operand(self, head):
        if head == "number":
            return next(self.words)
        if head == "input_len":
            return head
        if head == "input":
            return f"input[{self.read()}]"
        variable = int(next(self.words))
        self.loads.add(variable)
        name = self.variables[variable].name
        return f"{name}[{self.read()}]" if head == "element" else name


def read_statement(words, variables, sites):
    """What the line of a statement says of its site."""
    head = next(words)
    if head in ("else", "end"):
        return
    if head == "region":
        next(words)
    site = sites[int(next(words))]
    expression = Expression(words, variables)
    if head in ("assign", "store"):
        site.stores = int(next(words))
        target = variables[site.stores].name
        if head == "store":
            target += f"[{expression.read()}]"
        site.text = f"{target} = {expression.read()}"
    else:
        word = {"region": "while", "break": "break if"}.get(head, head)
        site.text = f"{word} ({expression.read()})"
    site.loads = frozenset(expression.loads)


def read_variable(words):
    number, name, form, first, length = int(words[1]), words[2], words[3], int(words[5]), int(words[7])
    region = int(words[11]) if words[10] == "body" else 0
    return Variable(number, name, form == "array", first, length, region)


def read_tree(text):
    variables, sites, regions = [], {}, {}
    lines = iter(text.splitlines())
    for line in lines:
        words = line.split()
        if words[0] == "region":
            regions[int(words[1])] = (int(words[3]), int(words[5]), int(words[7]))
        elif words[0] == "site":
            sites[int(words[1])] = Site(int(words[1]), int(words[3]), words[4])
        elif words[0] == "var":
            variables.append(read_variable(words))
        elif words[0] == "main":
            break
    for number, (_, first, last) in regions.items():
        for site in range(first, last + 1):
            sites[site].region = number
    for line in lines:
        read_statement(iter(line.split()), variables, sites)
    return Tree(variables, sites, regions)
