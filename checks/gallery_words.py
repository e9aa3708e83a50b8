#!/usr/bin/env python3
"""Counts, by the second implementation of small_c.py, how many words an iteration of each program of examples/gallery/ has on
its NAME.in, and how many operators are evaluated for each of them.

  checks/gallery_words.py            compares with the table in examples/README.md
  checks/gallery_words.py --write    writes the two columns of the table

A word is an evaluation of one of the region's sites. Indexing is no operator, and what a short circuit leaves out isn't
evaluated. The closing iteration counts for neither. Ends with 1 where a number differs, or a program has no row.
"""
import re
import sys
from pathlib import Path

sys.dont_write_bytecode = True
from small_c import Program
from small_c_text import Operator
from small_c_walk import Walk

TOP = Path(__file__).resolve().parent.parent
GALLERY = TOP / "examples/gallery"


class Counting(Program):
    """A program whose iterations count the operators that are evaluated in them."""

    def compiled(self, tree, scope):
        evaluate = super().compiled(tree, scope)
        if not isinstance(tree, Operator):
            return evaluate

        def counted(walk):
            if walk.iteration is not None:
                walk.iteration.operators = getattr(walk.iteration, "operators", 0) + 1
            return evaluate(walk)

        return counted


def counted(program):
    """The words of an iteration, and the operators of a word."""
    numbers = list(map(int, program.with_suffix(".in").read_text().split()))
    bodies = [it for it in Walk(Counting(program.read_text()), numbers, 10**9).iterations if not it.leaves]
    words = sum(len(it.events) for it in bodies)
    return f"{words / len(bodies):,.0f}", f"{sum(it.operators for it in bodies) / words:.1f}"


def main():
    page = TOP / "examples/README.md"
    text = page.read_text()
    programs = sorted(GALLERY.glob("*.c"))
    differ = 0
    for program in programs:
        row = re.compile(rf"(?m)^(\| `{program.name}` \| [^|]* \| )([\d,]+ \| [\d.]+)")
        shown, wanted = row.search(text), " | ".join(counted(program))
        if shown is None or shown[2] != wanted:
            differ += 1
            print(f"{program.name}: {wanted}, and the table has {shown and shown[2]}")
        text = row.sub(rf"\g<1>{wanted}", text)
    if "--write" in sys.argv:
        page.write_text(text)
    print(f"{len(programs) - differ} of {len(programs)} rows are as counted")
    sys.exit(differ > 0)


if __name__ == "__main__":
    main()
