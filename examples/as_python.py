#!/usr/bin/env python3
"""Writes an example as a program of Python, which reads an input and writes the example's prints and its state.

  examples/as_python.py PROGRAM

It takes Python's division, which is that of the language where no dividend is negative.
"""
import keyword
import re
import sys

IN_PYTHON = {"&&": "and", "||": "or", "!": "not", "/": "//"}
IN_PYTHON |= {word: word + "_" for word in keyword.kwlist if word not in ("break", "return")}
SKIPPED = r"/\*.*?\*/|//[^\n]*|#[^\n]*|\s+"
TOKEN = re.compile(rf"(?:{SKIPPED})*(\w+|[<>=!]=|&&|\|\||\S)", re.S)


class Reader:
    def __init__(self, text):
        self.tokens = TOKEN.findall(re.sub(SKIPPED + r"\Z", "", text, flags=re.S))
        self.place = 0
        self.lines = []
        self.state = {}

    def next(self):
        self.place += 1
        return self.tokens[self.place - 1]

    def is_next(self, token):
        taken = self.tokens[self.place : self.place + 1] == [token]
        self.place += taken
        return taken

    def until(self, end):
        """The tokens up to the closing one, as Python."""
        words, depth = [], 0
        while depth or self.tokens[self.place] != end:
            token = self.next()
            depth += (token in "([") - (token in ")]")
            words.append(IN_PYTHON.get(token, token))
        self.place += 1
        return " ".join(words[1:] if words[:1] == ["int"] else words)

    def condition(self):
        self.next()
        return self.until(")")

    def put(self, depth, line):
        if line:
            self.lines.append("    " * depth + line)

    def body(self, depth):
        if not self.is_next("{"):
            return self.statement(depth)
        while not self.is_next("}"):
            self.statement(depth)

    def statement(self, depth):
        if self.is_next("if"):
            self.put(depth, f"if {self.condition()}:")
            self.body(depth + 1)
            if self.is_next("else"):
                self.put(depth, "else:")
                self.body(depth + 1)
        elif self.is_next("while"):
            self.put(depth, f"while {self.condition()}:")
            self.body(depth + 1)
        elif self.is_next("for"):
            self.next()
            self.put(depth, self.until(";"))
            self.put(depth, f"while {self.until(';')}:")
            step = self.until(")")
            self.body(depth + 1)
            self.put(depth + 1, step)
        else:
            self.put(depth, self.until(";"))

    def item(self):
        """A file-scope variable, with its value, or a function."""
        self.next()
        name = self.next()
        if self.is_next("("):
            self.put(0, f"def {name}({self.until(')').replace('int ', '')}):")
            self.put(1, f"global {', '.join(self.state)}" if self.state else "pass")
            self.body(1)
        elif self.is_next("["):
            self.state[name] = f"[0] * {self.until(']')}"
            self.next()
        else:
            self.state[name] = (self.until(";").removeprefix("= ")) or "0"


def main():
    reader = Reader(open(sys.argv[1]).read())
    while reader.place < len(reader.tokens):
        reader.item()
    print("import sys\ninput = list(map(int, sys.stdin.read().split()))\ninput_len = len(input)")
    for name, value in reader.state.items():
        print(f"{name} = {value}")
    print("\n".join(reader.lines))
    print("main()\nprint('state')")
    for name, value in reader.state.items():
        print(f"print('{name}', {'*' * ('[' in value)}{name})")


main()
