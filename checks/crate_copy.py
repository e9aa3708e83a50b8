"""A copy of a crate in which the prover reads all lemmas, or the definitions alone, and proves no function. Its libraries
are those of the checkout, or their sources."""
import re
import shutil
import subprocess
from functools import cache
from pathlib import Path

from definitions import CRATES, TOP

READER = """//! Reads all lemmas.
ghost use Rattle.std.specs.Prelude.{◌≡◌};

fn NAME(n: u32) -> u32
    ensures { result ≡ n }
{
    n
}
"""


def crates():
    """The crates that each crate names."""
    lines = (line.partition(":") for line in (TOP / "crates.txt").read_text().splitlines())
    return {head.split()[0]: names.split() for head, _, names in lines}


def below(crate, listed):
    """The crates of this project on which one stands."""
    found = []
    for name in listed[crate]:
        if name in listed:
            found += [name] + below(name, listed)
    return list(dict.fromkeys(found))


class Copy:
    """A copy of a crate with two functions that read its lemmas, and its definitions alone."""

    def __init__(self, crate, folder):
        self.crate, self.folder, self.kept, self.work = crate, folder / "crate", folder / "kept", folder / "work"
        shutil.copytree(CRATES / crate, self.folder, ignore=shutil.ignore_patterns("out"))
        modules = [f"Rattle.{crate}.{part}" for part in ("specs", "proofs")]
        modules = [name for part in modules for name in self.listed(self.folder / part.split(".")[2] / "Lib.antt", part)]
        self.add_reader("reads_lemmas", modules)
        self.add_reader("reads_definitions", [name for name in modules if ".specs." in name])

    def listed(self, path, module):
        """The modules that a file lists, and those below them; all become public."""
        if path.exists():
            text = re.sub(r"^mod ", "pub mod ", path.read_text(), flags=re.M)
            path.write_text(text)
            folder = path.parent if path.name == "Lib.antt" else path.with_suffix("")
            for name in re.findall(r"^pub mod (\S+)$", text, re.M):
                yield f"{module}.{name}"
                yield from self.listed(folder / f"{name}.antt", f"{module}.{name}")

    def add_reader(self, name, modules):
        folder = self.folder / "proofs" / name / name
        folder.mkdir(parents=True)
        uses = "".join(f"use {module} as m{number}\n" for number, module in enumerate(modules))
        (folder / "Answers.antt").write_text(
            f"use Rattle.std.proofs.Common.{{refl}}\n{uses}use Rattle.{self.crate}.proofs.{name}.{name}.Goals as goal\n\n"
            "pub returns : goal.returns\nreturns c = refl\n")
        (self.folder / f"src/{name}.rt").write_text(READER.replace("NAME", name))
        root = self.folder / "src/lib.rt"
        root.write_text(re.sub(r"^(?=(pub )?mod )", f"mod {name};\n", root.read_text(), count=1, flags=re.M))

    @cache
    def words(self):
        """The words of a check. The crates below are read from their sources where one of them has no library."""
        kit = Path(subprocess.run(["rt", "doc"], capture_output=True, text=True, check=True).stdout.split()[0]).parent
        listed = crates()
        lower = below(self.crate, listed)
        built = all((CRATES / name / "out/rlib").exists() for name in lower)
        named = ["std", *listed[self.crate]] if built else ["core", "std", *(x for name in [self.crate, *lower] for x in listed[name])]
        words = [kit / "bin/rattle", "check", "--crate-name", self.crate, "src/lib.rt", "-L", f"dependency={kit}/rlibs"]
        for name in dict.fromkeys(named):
            if built or name not in listed:
                library = CRATES / name / "out/rlib" if name in listed else kit / "rlibs"
                words += ["--extern", f"{name}={library}/{name}.rlib"]
        for name in lower:
            words += ["-L", f"dependency={CRATES}/{name}/out/rlib"] if built else \
                ["--lib", f"{name}:{','.join(['core', 'std', *listed[name]])}={CRATES}/{name}/src/lib.rt"]
        return words + ["--antt-project", kit / "rattle/logic/antt-project.json", "--logic-built", kit / "logic_built", "--jobs", "1"]

    def errors(self, reader, kept=None):
        """What a check refuses: file, line and text, without what is only not checked."""
        if kept is None:
            kept = self.work
            shutil.rmtree(kept, ignore_errors=True)
            shutil.copytree(self.kept, kept)
        words = [*self.words(), "--incremental", kept, "--only", f"{self.crate}::{reader}::{reader}"]
        told = subprocess.run(words, cwd=self.folder, capture_output=True, text=True)
        found = re.findall(r"^(?:\./)?(\S+):(\d+):\d+: error: (.*)$", told.stdout + told.stderr, re.M)
        if not found and told.returncode != 0:
            raise SystemExit(told.stdout[-2000:] + told.stderr[-2000:])
        return [(path, int(line), text) for path, line, text in found if not re.search(r"declarations? that depends? on ", text)]
