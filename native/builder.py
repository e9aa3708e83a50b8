"""Crates that are written of a program, over those of a checkout."""
import os
from pathlib import Path

from crate import CODE_USES, code_text, name_of
from crates import Crate, crates_of
from prover import Prover
from telling import Progress, Step

TOP = Path(__file__).resolve().parent.parent
CODE_SECONDS, SITE_SECONDS = 15, 1


class Builder:
    """Writes crates, and has them proved with those below."""

    def __init__(self):
        self.prover, self.crates = Prover(), crates_of(TOP)

    def folder(self, name):
        """Where a crate is kept."""
        return self.prover.cache / "crates" / name

    def crate(self, kind, files, names):
        """Writes a crate of these files, over the crates that these name."""
        name = name_of(kind, "".join(files.values()))
        folder = self.folder(name)
        (folder / "src").mkdir(parents=True, exist_ok=True)
        for file, text in files.items():
            (folder / "src" / file).write_text(text)
        os.utime(folder)
        made = self.crates[name] = Crate(name, folder, [self.crates[it] for it in names])
        return made

    def code(self, program, forms):
        """Writes the library with a program's code."""
        return self.crate("code", {"lib.rt": code_text(program, forms)}, CODE_USES.split())

    def make_libraries(self, crates):
        """Has crates of the checkout proved, and tells how far it is."""
        self.prover.make_libraries(crates, Progress(self.prover.lacking(crates)).tell)

    def make_code(self, code, forms, order):
        """Has a program's code proved."""
        if not self.prover.library(code).exists():
            with Step(order + "proving the code of %d sites" % len(forms.chosen), CODE_SECONDS + SITE_SECONDS * len(forms.chosen)):
                self.prover.make_library(code)

    def keep_log(self, failed):
        """Keeps what was written of a crate that wasn't proved, beside the crate where it is one of a program."""
        log = self.folder(failed.name) / "log"
        log.parent.mkdir(parents=True, exist_ok=True)
        log.write_text(failed.log)
        return log
