"""Reads the text of a program of the language of docs/LANGUAGE.md into its statements and expressions. Nothing is refused: the
text is to be a program."""
import re
import sys
from collections import namedtuple

sys.setrecursionlimit(20000)

COMMENT = re.compile(r"//[^\n]*|/\*.*?\*/", re.S)
TOKEN = re.compile(r"#pragma[ \t]+dswp|[A-Za-z_][A-Za-z_0-9]*|[0-9]+|\+\+|--|[<>=!]=|&&|\|\||[-+*/%!<>=()\[\]{},;]")
LEVELS = [("||",), ("&&",), ("==", "!="), ("<", "<=", ">", ">="), ("+", "-"), ("*", "/", "%")]

Name = namedtuple("Name", "name index")
Operator = namedtuple("Operator", "sign left right")
Assign = namedtuple("Assign", "line name index value declares")
Call = namedtuple("Call", "line name arguments")
Print = namedtuple("Print", "line value")
Loop = namedtuple("Loop", "line first condition step body marked")
Choice = namedtuple("Choice", "line condition then other")
Exit = namedtuple("Exit", "line condition")
Function = namedtuple("Function", "parameters body visible")


def tokens_of(text):
    """Each token with its line."""
    text = COMMENT.sub(lambda it: re.sub(r"[^\n]", " ", it[0]), text)
    line, place, tokens = 1, 0, []
    for it in TOKEN.finditer(text):
        line, place = line + text.count("\n", place, it.start()), it.start()
        tokens.append((it[0], line))
    return tokens


class Reader:
    """Reads statements and expressions off a list of tokens."""

    def __init__(self, text):
        self.tokens, self.place = tokens_of(text), 0

    def peek(self):
        return self.tokens[self.place][0]

    def line(self):
        return self.tokens[self.place][1]

    def next(self):
        self.place += 1
        return self.tokens[self.place - 1][0]

    def is_next(self, token):
        taken = self.peek() == token
        self.place += taken
        return taken

    def expect(self, *tokens):
        for token in tokens:
            if self.next() != token:
                raise SyntaxError("line %d: no %s" % (self.tokens[self.place - 1][1], token))

    def expression(self, level=0):
        if level == len(LEVELS):
            return self.unary()
        left = self.expression(level + 1)
        while self.peek() in LEVELS[level]:
            left = Operator(self.next(), left, self.expression(level + 1))
        return left

    def unary(self):
        if self.peek() in ("-", "!"):
            return Operator(self.next(), self.unary(), None)
        if self.is_next("("):
            inner = self.expression()
            self.expect(")")
            return inner
        token = self.next()
        return int(token) if token.isdigit() else Name(token, self.index())

    def index(self):
        if not self.is_next("["):
            return None
        inner = self.expression()
        self.expect("]")
        return inner

    def simple(self, line):
        """An assignment or a declaration, without what ends it."""
        declares = self.is_next("int")
        name, index = self.next(), self.index()
        self.expect("=")
        return Assign(line, name, index, self.expression(), declares)

    def condition(self):
        self.expect("(")
        condition = self.expression()
        self.expect(")")
        return condition

    def block(self):
        self.expect("{")
        statements = []
        while not self.is_next("}"):
            statements.append(self.statement())
        return statements

    def statement(self):
        marked = self.peek().startswith("#")
        self.place += marked
        line, token = self.line(), self.peek()
        if token == "if":
            return self.choice(line)
        if token == "while":
            self.expect("while")
            return Loop(line, None, self.condition(), None, self.block(), marked)
        if token == "for":
            return self.counted(line, marked)
        if token == "print":
            self.expect("print")
            statement = Print(line, self.condition())
        elif self.tokens[self.place + 1][0] == "(":
            statement = Call(line, self.next(), self.arguments())
        else:
            statement = self.simple(line)
        self.expect(";")
        return statement

    def choice(self, line):
        self.expect("if")
        condition = self.condition()
        if self.peek() == "break" or self.tokens[self.place + 1][0] == "break":
            braces = self.is_next("{")
            self.expect("break", ";", *"}" * braces)
            return Exit(line, condition)
        then, other = self.block(), []
        if self.is_next("else"):
            other = [self.choice(self.line())] if self.peek() == "if" else self.block()
        return Choice(line, condition, then, other)

    def counted(self, line, marked):
        self.expect("for", "(")
        first = self.simple(self.line())
        self.expect(";")
        condition = self.expression()
        self.expect(";")
        step = self.simple(self.line())
        self.expect(")")
        return Loop(line, first, condition, step, self.block(), marked)

    def arguments(self):
        self.expect("(")
        arguments = []
        while not self.is_next(")"):
            arguments.append(self.expression())
            self.is_next(",")
        return arguments

    def parameters(self):
        self.expect("(")
        names = []
        while not self.is_next(")"):
            if self.next() == "int":
                names.append(self.next())
        return names

    def start_value(self):
        """The rest of a file-scope declaration: its start value and, of an array, its length."""
        value, length = 0, None
        if self.is_next("["):
            length = int(self.next())
            self.expect("]")
        elif self.is_next("="):
            sign = -1 if self.is_next("-") else 1
            value = sign * int(self.next())
        self.expect(";")
        return value, length

    def main(self):
        statements = []
        while self.peek() not in ("return", "}"):
            statements.append(self.statement())
        return statements


def read_program(text):
    """The file-scope variables as name, start value and length, each function, and the statements of `main`. A function sees
    the variables that stand in front of it."""
    reader, variables, functions = Reader(text), [], {}
    while True:
        kind, name = reader.next(), reader.next()
        if name == "main":
            reader.parameters()
            reader.expect("{")
            return variables, functions, reader.main()
        if kind == "void":
            visible = [variable[0] for variable in variables]
            functions[name] = Function(reader.parameters(), reader.block(), visible)
        else:
            variables.append((name, *reader.start_value()))
