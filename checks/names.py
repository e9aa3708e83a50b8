#!/usr/bin/env python3
"""Lists the names of specifications that stand for different things in two crates, each with its places: two definitions of one
name whose texts differ. What is passed on by `pub use` or has an alias is no definition, and what stands in specs/steps is a crate's own.
Ends with 1 where there is one.

  checks/names.py
"""
import sys
from collections import defaultdict
from pathlib import Path

sys.dont_write_bytecode = True
from definitions import CRATES, antt


def definitions():
    """The definitions that contracts of several crates may cite, by name."""
    found = defaultdict(list)
    for path in sorted(CRATES.glob("*/specs/**/*.antt")):
        if "steps" not in path.parts:
            for definition in antt(path).all:
                found[definition.name].append(definition)
    return found


def crate_of(definition):
    return definition.source.path.relative_to(CRATES).parts[0]


def several():
    """The names with different texts in different crates, each with its definitions."""
    for name, found in sorted(definitions().items()):
        texts = {" ".join(definition.code.split()) for definition in found}
        if len(texts) > 1 and len({crate_of(definition) for definition in found}) > 1:
            yield name, found


def main():
    names = dict(several())
    for name in names:
        print(name, *sorted(definition.place for definition in names[name]), sep="\n  ")
    crates = [len({crate_of(definition) for definition in found}) for found in names.values()]
    print(f"{len(names)} names stand for different things in {sum(crates)} places")
    return 1 if names else 0


if __name__ == "__main__":
    sys.exit(main())
