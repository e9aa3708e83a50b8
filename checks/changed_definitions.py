#!/usr/bin/env python3
"""Changes each definition of a crate once, or several times on different lines, in a copy, where a change is found that keeps
its type, and says which lemma, row or other definition of the crate notices. Ends with 1 where none does; a function's clause
may then, or a crate above.

  checks/changed_definitions.py CRATE [COUNT] [NAMES..]     all definitions where none is named; so many changes of each, on
                                                            different lines, and one where no count is given

Takes one minute to half an hour, and longer where the crates below have no libraries, which `rt ci --anew` leaves in
crates/*/out.
Definitions each of which some lemma sees alone are changed together.
"""
import itertools
import re
import sys
import tempfile
from functools import cache
from pathlib import Path
from types import MappingProxyType

sys.dont_write_bytecode = True
from changes import Scope, changes
from citations import cites
from crate_copy import Copy
from definitions import CRATES, antt
from uncited import brought, in_full, lemma_files

TOGETHER = 8
MOST = 60
ROUNDS = 12
PRELUDE = {"not": "not", "||": "◌||◌", "&&": "◌&&◌", "nat_lt": "nat_lt", "nat_le": "nat_le", "<": "◌<◌", "≤": "◌≤◌", "suc": "suc",
           "+": "◌+◌", "true": "true", "false": "false", "++": "◌++◌", "⊎": "◌⊎◌", "take": "take", "drop": "drop"}


class Changed:
    """A definition with the changes that are left to try."""

    def __init__(self, definition, scope):
        self.definition, self.source = definition, definition.source
        self.path = str(definition.source.path.relative_to(CRATES).relative_to(definition.source.path.relative_to(CRATES).parts[0]))
        self.numbers = list(self.own_lines())
        self.left = changes(definition, self.numbers, self.source.lines, scope)[:MOST]
        self.fields = [x[1] for x in map(re.compile(r"\s+(?:pub )?([\w'-]+) : ").match, self.text_lines()[1:]) if x] if "record" in definition.kind else []

    def own_lines(self):
        at = self.definition.first - 1 + self.definition.comments
        for text in self.definition.lines[self.definition.comments:]:
            while self.source.lines[at] != text:
                at += 1
            yield at
            at += 1

    def text_lines(self, edit=MappingProxyType({})):
        """Its lines, some of them changed."""
        lines = (edit.get(at, self.source.lines[at]) for at in self.numbers)
        return "\n".join(line for line in lines if line is not None).split("\n")

    def beside(self, number):
        """The definition with a change, under a name of its own; a record's fields have theirs too."""
        def renamed(line, first):
            for field in self.fields:
                line = re.sub(rf"(?<![\w'.-]){re.escape(field)}(?![\w'-])", f"{field}-{number}", line)
            name = re.escape(self.definition.name)
            front = r"^(\s*(?:(?:abbrev|unfoldable|opaque|pub|record) )*)" if first or self.fields else r"^(\s*)"
            return re.sub(front + name + r"(?=[ :]|$)", rf"\g<1>{self.definition.name}-{number}", line)
        return [renamed(line, at == 0) for at, line in enumerate(self.text_lines(self.left[number][1]))]

    def can_stand_beside(self):
        is_family = "data" in self.definition.kind or self.definition.name.startswith("◌")
        return self.left and not is_family and not any("mutual" in x for x in self.definition.inside)


def written(copy, source, replaced, behind, changed_text):
    """Writes a file with lines replaced and lines added behind others, and gives what each line of it belongs to."""
    wanted = [name for sign, name in PRELUDE.items() if name not in source.names and sign not in source.own
              and re.search(rf"(?<![\w◌]){re.escape(sign)}(?![\w◌])", changed_text)]
    lines, owners = [], []
    if wanted:
        lines, owners = ["use Rattle.std.specs.Prelude.{" + ", ".join(wanted) + "}"], [None]
    for at, line in enumerate(source.lines):
        owner, text = replaced.get(at, (None, line))
        for part in [] if text is None else text.split("\n"):
            lines.append(part)
            owners.append(owner)
        for owner, part in behind.get(at, ()):
            lines.append(part)
            owners.append(owner)
    (copy.folder / source.path.relative_to(CRATES / copy.crate)).write_text("\n".join(lines) + "\n")
    return owners


def write(copy, items, chosen):
    """Writes the first change that is left of each chosen definition, and gives the owners of each file's lines."""
    owners = {}
    for path in dict.fromkeys(item.path for item in items):
        here = [item for item in items if item.path == path]
        replaced = {at: (item, item.source.lines[at]) for item in here for at in item.numbers}
        for item in here:
            if item in chosen:
                replaced.update({at: (item, text) for at, text in item.left[0][1].items()})
        text = "\n".join(x or "" for item in here if item in chosen for x in item.left[0][1].values())
        owners[path] = written(copy, here[0].source, replaced, {}, text)
    return owners


def owner_of(owners, path, line):
    return owners[path][line - 1] if path in owners and line <= len(owners[path]) else None


def keep_typed_beside(copy, items):
    """Leaves the changes that have their type, which all stand in the copy at once, each beside its definition."""
    tried = [item for item in items if item.can_stand_beside()]
    typed = {item: list(range(len(item.left))) for item in tried}
    for _ in range(9):
        owners = {}
        for path in dict.fromkeys(item.path for item in tried):
            here = [item for item in tried if item.path == path]
            behind = {item.numbers[-1]: [((item, k), line) for k in typed[item] for line in item.beside(k)] for item in here}
            text = "\n".join(x or "" for item in here for k in typed[item] for x in item.left[k][1].values())
            owners[path] = written(copy, here[0].source, {}, behind, text)
        refused = {owner_of(owners, path, line) for path, line, _ in copy.errors("reads_definitions")} - {None}
        for item, k in refused:
            typed[item].remove(k)
        if not refused:
            break
    for item in tried:
        item.left = [item.left[k] for k in typed[item]]


def keep_typed(copy, items):
    """Leaves of each family the changes from the first on that has its type; of one for which none is found in some rounds,
    none."""
    families = [item for item in items if item.left and not item.can_stand_beside()]
    for number in itertools.count():
        owners = write(copy, items, [item for item in families if item.left])
        refused = {owner_of(owners, path, line) for path, line, _ in copy.errors("reads_definitions")}.intersection(families)
        refused = {item for item in refused if item.left}
        if not refused:
            break
        for item in refused:
            item.left = item.left[1:] if number < ROUNDS else []
    for item in families:
        item.left = item.left[:1]


class Seen:
    """Which lemmas of a crate see which of its definitions."""

    def __init__(self, crate, items):
        self.crate, self.own = crate, {item.definition: item for item in items}
        self.lemmas = [x for path in sorted(lemma_files(crate)) for x in antt(path).all]
        self.by = {item: set() for item in items}
        for lemma in self.lemmas:
            for item in self.of(lemma):
                self.by[item].add(lemma)

    @cache
    def of(self, definition):
        """The definitions on which one stands, or a lemma."""
        found, waiting = {definition}, [definition]
        while waiting:
            at = waiting.pop()
            cited = cites(at, but_own=False)
            if at.source.path.suffix == ".antt":
                cited = [*cited, *brought(at.source), *in_full(at.code)]
            new = {x for x in cited if x and x not in found and x.source.path.is_relative_to(CRATES / self.crate)}
            found |= new
            waiting += new
        return {self.own[x] for x in found if x in self.own}

    def lemma_at(self, path, line):
        there = [x for x in self.lemmas if x.source.path == CRATES / self.crate / path and x.first <= line]
        return there[-1] if there else None

    def apart(self, items):
        """Each of these is seen by a lemma that sees no other, and none stands on another."""
        for item in items:
            others = [x for x in items if x is not item]
            if any(x in self.of(item.definition) for x in others) or not self.by[item].difference(*(self.by[x] for x in others)):
                return False
        return True


def noticed(copy, items, seen, chosen):
    """What notices the change of each of these definitions: a lemma, or a definition, that sees that one alone."""
    owners = write(copy, items, chosen)
    found = {}
    for path, line, text in copy.errors("reads_lemmas"):
        owner = owner_of(owners, path, line)
        at = owner.definition if owner else seen.lemma_at(path, line)
        sees = [item for item in chosen if at and item is not owner and item in seen.of(at)]
        if len(sees) == 1:
            found.setdefault(sees[0], f"{path}:{line} {at.name}")
    return found


def groups(items, seen):
    """The definitions in groups that can be changed together."""
    waiting = sorted(items, key=lambda item: len(seen.by[item]))
    while waiting:
        group = []
        for item in waiting:
            if len(group) < TOGETHER and seen.apart([*group, item]):
                group.append(item)
        group = group or waiting[:1]
        waiting = [item for item in waiting if item not in group]
        yield group


def main():
    crate, names = sys.argv[1], sys.argv[2:]
    rounds = int(names.pop(0)) if names and names[0].isdigit() else 1
    with tempfile.TemporaryDirectory() as folder:
        copy = Copy(crate, Path(folder))
        if copy.errors("reads_lemmas", copy.kept):
            raise SystemExit(f"{crate} itself is refused")
        items = []
        for path in sorted((CRATES / crate / "specs").rglob("*.antt")):
            if path.name != "Lib.antt" and "formers" not in path.parts:
                scope = Scope(path.read_text())
                items += [Changed(x, scope) for x in antt(path).all if not names or x.name in names]
        keep_typed_beside(copy, items)
        keep_typed(copy, items)
        for item in items:
            if not item.left:
                print(f"{item.path}: {item.definition.name}: none that keeps its type", flush=True)
        seen = Seen(crate, items)
        tried = unnoticed = 0
        for _ in range(rounds):
            for group in groups([item for item in items if item.left and seen.by[item]], seen):
                found = noticed(copy, items, seen, group)
                for item in group:
                    if item not in found and len(group) > 1:
                        found |= noticed(copy, items, seen, [item])
                    print(f"{item.path}: {item.definition.name}: {item.left[0][0]}: {found.get(item, 'noticed by no lemma')}", flush=True)
                tried += len(group)
                unnoticed += sum(item not in found for item in group)
            for item in items:
                if item.left and not seen.by[item]:
                    print(f"{item.path}: {item.definition.name}: seen by no lemma", flush=True)
                    unnoticed += 1
                elsewhere = [change for change in item.left if set(change[1]) != set(item.left[0][1])]
                item.left = elsewhere if seen.by[item] else []
    print(f"{crate}: {len(items)} definitions, {tried} changes, {unnoticed} noticed by no lemma or row")
    sys.exit(unnoticed > 0)


if __name__ == "__main__":
    main()
