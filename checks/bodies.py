"""The functions of a crate: where the body of each one stands, under which name a check judges it, and whom it may call."""
import re
from collections import defaultdict
from pathlib import Path
from typing import NamedTuple


class Function(NamedTuple):
    """A function with the numbers of its body's lines, from 0, the last one left out. A method is named by its type, which may
    stand in another file, and by its trait, if it has one."""
    path: Path
    name: str
    begin: int
    end: int


def parameters(text):
    """The parameters in brackets with which a text begins, and what follows them."""
    depth = 0
    for at, sign in enumerate(text):
        depth += (sign == "<") - (sign == ">")
        if depth == 0:
            return (text[:at + 1], text[at + 1:]) if at else ("", text)
    return "", text


def type_of(line):
    """The type whose functions a line begins. Behind it stand the words of the trait that the functions are of, if
    they are of one; lifetimes and parameters don't count."""
    if not re.match(r"impl\b", line):
        return None
    given, text = parameters(line.removeprefix("impl"))
    trait, _, owner = text.rstrip(" {").rpartition(" for ")
    words = re.findall(r"&|\w+", re.sub(r"'\w+", "", f"{owner} {trait}"))
    words = [word for word in words if word not in re.findall(r"[<,] *(\w+)", given)]
    return "".join("Ref" if word == "&" else word[0].upper() + word[1:] for word in words) if trait else "+".join(words)


def functions_of(path, module):
    """The functions of a file."""
    lines, owner, head = path.read_text().split("\n"), None, None
    for at, line in enumerate(lines):
        owner = type_of(line) or (None if line == "}" else owner)
        named = re.match(r"( *)(?:pub(?:\(crate\))? )?fn (\w+)", line)
        if named:
            indent, begin = named[1], None
            head = f"{owner}::{named[2]}" if owner and indent else f"{module}::{named[2]}"
        elif head and line == indent + "{":
            begin = at + 1
        elif head and line == indent + "}" and begin is not None:
            yield Function(path, head, begin, at)
            head = None


def functions(copy):
    """The functions of a crate but for its tests and for what reads its lemmas."""
    top = copy.folder / "src"
    for path in sorted(top.glob("**/*.rt")):
        if "tests" not in path.parts and path.stem not in ("lib", "tests", "reads_lemmas", "reads_definitions"):
            yield from functions_of(path, "::".join([copy.crate, *path.relative_to(top).with_suffix("").parts]))


def reached(every):
    """For each function those that it may call, and those that these may call; all of one name are taken for each other."""
    by_name = defaultdict(set)
    for function in every:
        by_name[function.name.split("::")[-1]].add(function)
    called = {}
    for function in every:
        body = "\n".join(function.path.read_text().split("\n")[function.begin:function.end])
        called[function] = set().union(*(by_name[word] for word in re.findall(r"\w+", body) if word in by_name)) - {function}
    return {function: closed(function, called) for function in every}


def closed(function, called):
    """What can be reached from a function along calls."""
    found, left = set(), [function]
    while left:
        new = called[left.pop()] - found
        found |= new
        left += new
    return found
