#!/usr/bin/env python3
"""Native code of many programs under one `main`, which answers as dswp does. It is for checks and measurements: the `main` of one
program takes far longer to prove and to compile than its code, and a third of a library's check is what it loads.

  native/together.py NAME SOURCE..    makes the program NAME, which takes dswp's words and has native code of each of these texts
"""
import shutil
import subprocess
import sys
import time
from pathlib import Path

from builder import TOP, Builder
from crate import CODE_USES, code_text, filled, template
from forms import Forms
from prover import Failed
from telling import Step, duration, say
from tree_text import Program

ASKS = "#![tactic(auto)]\n"
TEN = 10  # so many programs have their code in one library
MAIN_SECONDS = 170


def chain(codes, modules=""):
    """A library that goes on in one of these codes behind the other, each of which leaves other programs than its own alone."""
    last = len(codes)
    each = (filled(template("one_code"), {"NUMBER": number, "CODE": code, "NEXT": "Code%d" % (number + 1) if number < last else "NoNativeCode"})
            for number, code in enumerate(codes, 1))
    return filled(template("codes"), {"MODULES": modules, "EACH": "".join(each)})


class Written:
    """The code that is written of a text, and how many sites have code in it."""

    def __init__(self, source):
        self.source = source
        tree = subprocess.run([TOP / "dswp", "tree", source], capture_output=True, text=True, check=True).stdout
        program = Program(tree)
        forms = Forms(program)
        self.text, self.size = code_text(program, forms).replace(ASKS, ""), len(forms.chosen)


class Together:
    """Programs on their way: the libraries with their code that are proved, and the texts whose code isn't."""

    def __init__(self):
        self.builder, self.libraries, self.lost = Builder(), [], []

    def prove(self, sources):
        """Has the code of these texts proved, the same libraries in whatever order they are named."""
        codes = sorted(map(Written, sources), key=lambda it: it.text)
        for start in range(0, len(codes), TEN):
            self.prove_library(codes[start:start + TEN])

    def prove_library(self, codes):
        """Has some programs' code proved in one library, or where that fails each half of them in one."""
        modules = {"program_%d" % number: code.text for number, code in enumerate(codes)}
        text = chain([name + "::code()" for name in modules], "".join("mod %s;\n" % name for name in modules))
        files = {"lib.rt": text, **{name + ".rt": code for name, code in modules.items()}}
        library = self.builder.crate("codes", files, ["dp_meaning", *CODE_USES.split()])
        self.builder.make_libraries(library.below())
        began = time.monotonic()
        try:
            self.builder.prover.make_library(library)
        except Failed as failed:
            self.refuse(codes, failed)
            return
        self.libraries.append(library)
        say("proved the code of %s, %d sites, in %s" % (
            ", ".join(it.source.stem for it in codes), sum(it.size for it in codes), duration(time.monotonic() - began)))

    def refuse(self, codes, failed):
        """Finds out which of some programs' code isn't proved."""
        if len(codes) == 1:
            say("not proved: %s, see %s" % (codes[0].source, self.builder.keep_log(failed)))
            self.lost.append(codes[0].source)
            return
        half = len(codes) // 2
        self.prove_library(codes[:half])
        self.prove_library(codes[half:])

    def made(self):
        """The program with all code that is proved."""
        names = [it.name for it in self.libraries]
        whole = self.builder.crate("codes", {"lib.rt": chain(["%s::Codes" % it for it in names])}, ["dp_base", "dp_meaning", *names])
        text = filled(template("together"), {"CODES": whole.name})
        main = self.builder.crate("together", {"main.rt": text}, ["dp_built", "dp_system", whole.name])
        prover = self.builder.prover
        if not prover.program(main).exists():
            self.builder.make_libraries([it for it in main.below() if it not in self.libraries])
            with Step("proving the program and compiling it", MAIN_SECONDS):
                prover.make_program(main)
        return prover.program(main)


def main():
    target, *sources = sys.argv[1:]
    together = Together()
    try:
        together.prove([Path(it) for it in sources])
        shutil.copy(together.made(), target)
    except Failed as failed:
        say("%s wasn't proved; all that the prover wrote of it is in %s" % (failed.name, together.builder.keep_log(failed)))
        return 125
    return 125 if together.lost else 0


if __name__ == "__main__":
    sys.exit(main())
