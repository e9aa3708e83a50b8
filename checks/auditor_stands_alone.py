#!/usr/bin/env python3
"""Looks whether what audits a log stands on no part of the pipeline: neither crate has one of its crates among its dependencies,
directly or by others, nor names one in its sources and specifications. Ends with 1 where one does.

  checks/auditor_stands_alone.py
"""
import re
import sys
from pathlib import Path

TOP = Path(__file__).resolve().parent.parent
AUDITING = ("dp_auditor", "dp_view")
PIPELINE = set("""dp_lean dp_lean_code dp_columns dp_lean_turn dp_lean_judge dp_lean_epoch dp_lean_kinds dp_lean_region dp_lean_machine
    dp_prepared dp_judge dp_commit dp_pipeline dp_crew dp_epoch dp_run dp_relay dp_lane dp_ring dp_stop dp_waiting""".split())


def dependencies():
    """Each crate's direct ones."""
    lines = (line.partition(":") for line in (TOP / "crates.txt").read_text().splitlines() if line.strip())
    return {front.split()[0]: rest.split() for front, _, rest in lines}


def ways(crate, direct):
    """Each crate below this one, with a way to it."""
    found, left = {}, [(crate, ())]
    while left:
        name, way = left.pop()
        for below in direct.get(name, []):
            if below not in found:
                found[below] = (*way, name)
                left.append((below, found[below]))
    return found


def wrong(crate, direct):
    if crate not in direct:
        yield "%s: no such crate in crates.txt" % crate
    for below, way in ways(crate, direct).items():
        if below in PIPELINE:
            yield " on ".join([*way, below])
    for folder in ("src", "specs"):
        for path in sorted((TOP / "crates" / crate / folder).rglob("*")):
            named = set(re.findall(r"\w+", path.read_text())) & PIPELINE if path.is_file() else ()
            yield from ("%s names %s" % (path.relative_to(TOP), name) for name in sorted(named))


def main():
    direct = dependencies()
    unknown = ["%s: no such crate in crates.txt" % name for name in sorted(PIPELINE - direct.keys())]
    found = unknown + [it for crate in AUDITING for it in wrong(crate, direct)]
    print(*found, sep="\n", end="\n" if found else "")
    below = set().union(*(ways(crate, direct) for crate in AUDITING))
    print("%s stand on %d crates and on no part of the pipeline, but for %d" % (" and ".join(AUDITING), len(below), len(found)))
    sys.exit(len(found) > 0)


if __name__ == "__main__":
    main()
