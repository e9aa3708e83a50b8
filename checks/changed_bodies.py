#!/usr/bin/env python3
"""Changes bodies of a crate's functions in a copy, one place of each (a comparison, a sign, a number, a branch turned
round, a statement left out), and has the prover judge the changed functions: several at once, none of which calls another.
Says of each change that has its type what refuses it, and ends with 1 where the prover takes one: it may mean the same,
take only more time, or be wrong.

  checks/changed_bodies.py CRATE [COUNT] [FUNCTIONS..]      all functions where none is named; at least so many changes that
                                                            have their type, picked at random, and all where no count is given

A change takes some seconds to a minute, and longer where the crates below have no libraries, which `rt ci --anew` leaves in
crates/*/out.
"""
import difflib
import random
import re
import subprocess
import sys
import tempfile
from collections import Counter
from contextlib import ExitStack, contextmanager
from pathlib import Path
from typing import NamedTuple

sys.dont_write_bytecode = True
from bodies import Function, functions, reached
from crate_copy import Copy

SECONDS = 1500
AT_ONCE = 12
TRIES = 3   # how often answers are mended, and how often a change is made that stood behind another
TURNED = [
    (r" < ", " <= "), (r" <= ", " < "), (r" > ", " >= "), (r" >= ", " > "), (r" == ", " != "), (r" != ", " == "),
    (r" && ", " || "), (r" \|\| ", " && "), (r" \+ ", " - "), (r" - ", " + "), (r"\b0\b", "1"), (r"\b1\b", "0"), (r"\b1\b", "2"),
    (r"\btrue\b", "false"), (r"\bfalse\b", "true"), (r"\bif (?!let |!)(.*) \{$", r"if !(\1) {"), (r"(?<!\w)!(?=[\w(])", ""),
    (r"\bbreak;", "continue;"), (r"\bcontinue;", "break;"), (r"\bSome\(\w+\)$", "None"), (r"\((\w+), (\w+)\)", r"(\2, \1)"),
    (r"\.rev\(\)", ""), (r"\.min\(", ".max("), (r"\.max\(", ".min("), (r"\bfirst\b", "last"), (r"\blast\b", "first"),
]


class Change(NamedTuple):
    """A line of a function, from 0, and what stands there in its place; nothing does where a statement is left out."""
    function: Function
    at: int
    line: str

    def shown(self, folder):
        old = self.function.path.read_text().split("\n")[self.at].strip()
        place = f"{self.function.path.relative_to(folder)}:{self.at + 1} {self.function.name}"
        return f"{place}: {old} -> {self.line.strip() or 'nothing'}"


class End(NamedTuple):
    """How a change ends, and what is told of it."""
    kind: str
    why: str = ""


def changes_of(function):
    """The changes of a function's body."""
    lines = function.path.read_text().split("\n")
    for at in range(function.begin, function.end):
        line = lines[at]
        if re.match(r" *(//|ghost\b|$)", line):
            continue
        for old, new in TURNED:
            for place in re.finditer(old, line):
                changed = line[:place.start()] + place.expand(new) + line[place.end():]
                if changed != line:
                    yield Change(function, at, changed)
        whole = line.count("(") == line.count(")") and line.endswith(";")
        if whole and not re.match(r" *(let|return|break|continue|use|\})", line):
            yield Change(function, at, "")


@contextmanager
def restored(texts):
    """Writes texts to their files, and gives these back what they held."""
    kept = {path: path.read_text() for path in texts}
    try:
        for path, text in texts.items():
            path.write_text(text)
        yield
    finally:
        for path, text in kept.items():
            path.write_text(text)


def changed_texts(changes):
    """The files with the changes made."""
    texts = {}
    for change in changes:
        path = change.function.path
        lines = texts.setdefault(path, path.read_text().split("\n"))
        lines[change.at] = change.line
    return {path: "\n".join(lines) for path, lines in texts.items()}


def mended(folder, text):
    """The answers to goals whose names have changed with a line, under the names that they have now. An answer that names
    what is gone is left out, so that the prover searches for another."""
    texts = {}
    found = r"^(?:\./)?(proofs/\S+/Answers\.antt):\d+:\d+: error: `([\w'-]+)`: .*(module|record) `\S*` has no "
    for path, name, kind in re.findall(found, text, re.M):
        answers = texts.get(folder / path, (folder / path).read_text())
        asked = re.findall(r"`([\w'-]+)`", "".join(re.findall(rf"`{name}`; rattle asks for (.*)", text)))
        near = difflib.get_close_matches(name, [x for x in asked if x not in answers], 1) if kind == "module" else []
        if near:
            texts[folder / path] = re.sub(rf"(?<![\w'-]){name}(?![\w'-])", near[0], answers)
        else:
            texts[folder / path] = "\n\n".join(x for x in answers.split("\n\n") if not re.search(rf"^(pub )?{name} :", x, re.M))
    return texts


class Attack:
    """A copy of a crate, its functions, and whom each of them may call."""

    def __init__(self, copy):
        self.copy = copy
        self.functions = list(functions(copy))
        self.reached = reached(self.functions)

    def together(self, pending):
        """Functions with changes of which none calls another, those with most of them first."""
        chosen = []
        for function in sorted((f for f in pending if pending[f]), key=lambda f: (-len(pending[f]), random.random())):
            apart = all(function not in self.reached[x] and x not in self.reached[function] for x in chosen)
            if apart and len(chosen) < AT_ONCE:
                chosen.append(function)
        return chosen

    def told(self, changes):
        """What a check tells of the changed functions."""
        words = [word for change in changes for word in ("--only", change.function.name)]
        told = subprocess.run([*self.copy.words(), *words], cwd=self.copy.folder, capture_output=True, text=True, timeout=SECONDS)
        return told.stdout + told.stderr

    def owner(self, path, line):
        """The function in which a line of a file stands."""
        near = [f for f in self.functions if f.path == self.copy.folder / path and f.end >= int(line) - 1]
        return min(near, key=lambda f: f.end, default=None)

    def without_a_type(self, text):
        """The functions in which a check finds an error before it judges any."""
        judged = re.search(r"^fn ", text, re.M)
        places = re.findall(r"^(?:\./)?(src/\S+?):(\d+):\d+: error", text, re.M)
        return set() if judged else {self.owner(*place) for place in places}

    def ending(self, function, text):
        """How the change of one function ends, by what a check tells. It is refused by a goal or an answer of its own; without
        one, something else that changed stands in its way."""
        name = function.name.split("::")
        named = re.search(rf"^fn (?:\S+::)?{re.escape('::'.join(name[-2:]))}: (.*)$", text, re.M)
        if not named:
            return End("not judged", text[-200:])
        if named[1].startswith("proved"):
            return End("taken")
        places = re.findall(r"^note: (?:\./)?(src/\S+?):(\d+):\d+: (.*)$", text, re.M)
        own = [f"{path}:{line}: {why}" for path, line, why in places if self.owner(path, line) == function]
        errors = re.findall(r"^(?:\./)?(proofs/\S+)/\w+\.antt:\d+:\d+: error: (.*)$", text, re.M)
        errors = [why for path, why in errors if path.split("/")[-2:] == name[-2:] or path == "/".join(["proofs", *name[1:]])]
        told = own + [why for why in errors if not re.search(r"` has no (field )?`", why)]
        if told:
            return End("refused", told[0])
        if errors:
            return End("by a name", errors[0])
        return End("behind another", named[1])

    def judged(self, changes):
        """How each of the changes ends, all of them made at once."""
        if not changes:
            return {}
        with ExitStack() as stack:
            stack.enter_context(restored(changed_texts(changes)))
            try:
                text = self.told(changes)
                untyped = self.without_a_type(text)
                for _ in range(0 if untyped else TRIES):
                    answers = mended(self.copy.folder, text)
                    if not answers:
                        break
                    stack.enter_context(restored(answers))
                    text = self.told(changes)
            except subprocess.TimeoutExpired:
                return {change: End("not judged", f"no answer in {SECONDS} seconds") for change in changes}
        if not untyped:
            return {change: self.ending(change.function, text) for change in changes}
        ends = {change: End("without a type") for change in changes if change.function in untyped}
        if not ends:
            return {change: End("not judged", text[-200:]) for change in changes}
        return ends | self.judged([change for change in changes if change not in ends])


def main():
    crate, names = sys.argv[1], sys.argv[2:]
    count = int(names.pop(0)) if names and names[0].isdigit() else None
    ends, tries = Counter(), Counter()
    with tempfile.TemporaryDirectory() as folder:
        attack = Attack(Copy(crate, Path(folder)))
        chosen = [f for f in attack.functions if not names or f.name.split("::")[-1] in names]
        pending = {function: list(changes_of(function)) for function in chosen}
        found = sum(map(len, pending.values()))
        for changes in pending.values():
            random.shuffle(changes)
        while any(pending.values()) and (count is None or ends.total() - ends["without a type"] < count):
            for change, end in attack.judged([pending[f].pop() for f in attack.together(pending)]).items():
                tries[change] += 1
                if end.kind == "behind another" and tries[change] < TRIES:
                    pending[change.function].append(change)
                    continue
                ends[end.kind] += 1
                if end.kind != "without a type":
                    print(f"{end.kind}: {change.shown(attack.copy.folder)}{end.why and ': '}{end.why}", flush=True)
    print(f"{crate}: {len(attack.functions)} functions, {found} changes, {', '.join(f'{number} {kind}' for kind, number in ends.items())}")
    sys.exit(ends["taken"] > 0)


if __name__ == "__main__":
    main()
