#!/usr/bin/env python3
"""Builds a native program: writes the crates of its code and of its `main`, has them proved and compiled over the proved crates
of dswp, and keeps what was built.

  native/build.py TREE SOURCE NAME    makes the program NAME of the text SOURCE, whose tree is TREE (`dswp tree SOURCE`)
"""
import shutil
import sys
from pathlib import Path

from builder import Builder
from crate import PROGRAM_USES, program_text
from forms import Forms
from prover import Failed
from telling import Step, say
from tree_text import Program

PROGRAM_SECONDS = 180


def unproved_parts(log, forms):
    """The parts of the code whose proofs failed, each with the lines of its statements."""
    for name, lines in forms.lines.items():
        if any(name + "Code" in line and (": not proved" in line or ": no proof" in line) for line in log.split("\n")):
            yield "%s, lines %d to %d" % (name, min(lines), max(lines))


class Build:
    """One program on its way: its crates, of the code and of the `main`."""

    def __init__(self, tree, source):
        self.builder = Builder()
        program = Program(Path(tree).read_text())
        self.forms = Forms(program)
        self.code = self.builder.code(program, self.forms)
        text = program_text(self.code.name, Path(source).name, Path(source).read_bytes())
        self.main = self.builder.crate("program", {"main.rt": text}, [PROGRAM_USES, self.code.name])

    def made(self):
        """The program, once all of it that isn't is proved and compiled."""
        prover = self.builder.prover
        if not prover.program(self.main).exists():
            self.builder.make_libraries([it for it in self.main.below() if it is not self.code])
            self.builder.make_code(self.code, self.forms, "1 of 2: ")
            with Step("2 of 2: proving the program and compiling it", PROGRAM_SECONDS):
                prover.make_program(self.main)
        return prover.program(self.main)

    def fail(self, failed):
        for part in unproved_parts(failed.log, self.forms):
            say("the proof failed at " + part)
        say("nothing was built; the crate, and what the prover wrote of it, are kept: %s" % self.builder.keep_log(failed))


def main():
    tree, source, target = sys.argv[1:4]
    build = Build(tree, source)
    try:
        shutil.copy(build.made(), target)
    except Failed as failed:
        build.fail(failed)
        return 125
    say("made %s" % target)
    build.builder.prover.forget_old()
    return 0


if __name__ == "__main__":
    sys.exit(main())
