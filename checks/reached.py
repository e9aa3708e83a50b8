"""Which functions of crates/*/src are reached from `main`, by names alone. This is coarse, and says of more than is so that it is
reached: a method is, where a function that is reached calls any method or associated function of that name, whatever the
type; a function that is no method where its name stands in its own file, is imported there or is named by its path. A name
without brackets counts as a call, as it may be handed on. Contracts and comments don't count, and neither do tests.

  checks/reached.py    prints the functions that no way leads to
"""
import re
from collections import defaultdict
from functools import cache
from pathlib import Path

TOP = Path(__file__).resolve().parent.parent
CRATES = TOP / "crates"
FUNCTION = re.compile(r"( *)(?:pub(?:\([a-z ]+\))? )?(?:const |unsafe )*fn (\w+)")
CONTRACT = re.compile(r"\s*(//|(?:requires|ensures|decreases|ghost|invariant)\b)")
NAME = re.compile(r"(\.|::)?\b([a-z_]\w*)\b(?!!)")
IMPORT = re.compile(r"^\s*(?:pub )?use ([^;]+);", re.M)


class Function:
    """A function: its file, its name, whether it is a method, and the text of its body."""

    def __init__(self, path, indent, name):
        self.path, self.indent, self.name, self.lines = path, indent, name, []
        self.crate = path.relative_to(CRATES).parts[0]
        self.is_method = indent > 0

    @property
    def text(self):
        return "\n".join(self.lines)

    def calls(self):
        """What its body names: methods and associated functions, and others."""
        methods, plain = set(), set()
        for sign, name in NAME.findall(self.text):
            (methods if sign == "." else plain).add(name)
            if sign == "::":
                methods.add(name)
        return methods, plain


def functions_of(path):
    """The functions of a file. The body of one goes to the next line that isn't deeper than it."""
    found, open_functions = [], []
    for line in path.read_text().splitlines():
        indent = len(line) - len(line.lstrip())
        head = FUNCTION.match(line)
        if line.strip() and not re.match(r"\s*([(){}]|requires|ensures|where)", line):
            open_functions = [it for it in open_functions if indent > it.indent]
        if head:
            open_functions.append(Function(path, len(head[1]), head[2]))
            found.append(open_functions[-1])
        elif not CONTRACT.match(line):
            for function in open_functions[-1:]:
                function.lines.append(line.split("//")[0])
    return found


def is_test(path):
    return "tests" in path.parts or path.name == "tests.rt"


@cache
def functions():
    """All functions by name."""
    found = defaultdict(list)
    for path in sorted(CRATES.glob("*/src/**/*.rt")):
        if not is_test(path):
            for function in functions_of(path):
                found[function.name].append(function)
    return found


@cache
def imported(path):
    """The names that a file imports, and those that it names behind a module."""
    text = path.read_text()
    words = {word for use in IMPORT.findall(text) for word in re.findall(r"\w+", use)}
    return words | set(re.findall(r"\b[a-z]\w*::([a-z_]\w*)", text))


def may_call(caller, called):
    """Whether a name in the one can be the other."""
    return called.is_method or caller.path == called.path or called.name in imported(caller.path)


@cache
def reached():
    """The functions that are reached from `main` of dswp, and those that the language calls itself."""
    everything = functions()
    work = [it for it in everything["main"] if it.crate == "dswp"] + everything["drop"] + everything["next"]
    found = set(work)
    while work:
        caller = work.pop()
        methods, plain = caller.calls()
        for name in methods | plain:
            for called in everything.get(name, ()):
                if called not in found and name in (methods if called.is_method else plain) and may_call(caller, called):
                    found.add(called)
                    work.append(called)
    return found


def is_reached(path, name):
    """Whether a function of this name in the file is reached, or one that is reached there names it."""
    here = [it for it in reached() if it.path == path]
    own = [it for it in functions().get(name, ()) if it.path == path]
    return any(it in reached() for it in own) if own else any(re.search(rf"\b{name}\b", it.text) for it in here)


def main():
    for name, found in sorted(functions().items()):
        for function in found:
            if function not in reached():
                print(function.path.relative_to(TOP), name)


if __name__ == "__main__":
    main()
