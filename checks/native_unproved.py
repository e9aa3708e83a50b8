#!/usr/bin/env python3
"""Compares what the native code of programs does up to their first marked loop with what the machine does, in runs of at most
4,000 steps: on four inputs with fuel that is spent at each tenth of the run, and where native code makes no step, the machine
makes one. The code is compiled with checks and without proofs, all of it in a minute or two of a processor, so this is quick;
native.py proves it. Tells of programs in which no step was native, and ends with 1 where there is one or an answer differs.

    native_unproved.py             the examples and the loops of bench/loops, as they are and without marks
    native_unproved.py N SEED      and so many random programs, as they are and without marks"""
import random
import shutil
import subprocess
import sys
import tempfile
from pathlib import Path

import native
from native import TOP, run

from crate import CODE_USES, code_text, filled
from forms import Forms
from together import ASKS
from tree_text import Program

USES = "dp_edge dp_load dp_meaning dp_system"


def own_words(stem):
    """The first words of an example's own input, which a loop of bench/loops has none of."""
    own = next(TOP.glob("examples/**/%s.in" % stem.removesuffix("_unmarked")), None)
    return own.read_text().split()[:60] if own else []


def copy_of_crates(folder):
    """A copy of the checkout's crates."""
    subprocess.run(["git", "init", "-q", folder], check=True)
    shutil.copytree(TOP / "crates", folder / "crates", ignore=shutil.ignore_patterns("out", "must-fail", "proofs"))
    for name in ("crates.txt", "HANDLES"):
        shutil.copy(TOP / name, folder / name)


def put_driver(folder, texts):
    """The crate of the programs' code and of what compares it; says where it stands."""
    rng = random.Random(7)
    source = folder / "crates" / "compares" / "src"
    source.mkdir(parents=True)
    for number, (_, tree) in enumerate(texts.values()):
        program = Program(tree)
        (source / ("program_%d.rt" % number)).write_text(code_text(program, Forms(program)).replace(ASKS, ""))
    each = ("        %d => compared(alloc, &program_%d::code(), program, &[%s])," % (number, number, ", ".join(own_words(stem)))
            for number, stem in enumerate(texts))
    (source / "main.rt").write_text(filled((TOP / "checks" / "native_unproved.template").read_text(), {
        "MODULES": "".join("mod program_%d;\n" % number for number in range(len(texts))), "EACH": "\n".join(each),
        "INPUT": "&[%s]" % ", ".join(str(rng.randrange(-9, 100)) for _ in range(60)),
    }))
    with (folder / "crates.txt").open("a") as listed:
        listed.write("compares: %s %s\n" % (USES, CODE_USES))
    return source.parent


def main():
    words = sys.argv[1:]
    texts = dict(native.both(native.examples([])))
    texts.update(native.both(native.random_texts(int(words[0]), words[1])) if words else ())
    with tempfile.TemporaryDirectory() as name:
        folder = Path(name)
        copy_of_crates(folder)
        for stem, text in texts.items():
            source = folder / (stem + ".c")
            source.write_text(text)
            texts[stem] = source, run(TOP / "dswp", "tree", source)[0]
        at = put_driver(folder, texts)
        done = subprocess.run(["rt", "try", "--seconds", "3000", "--", *(source for source, _ in texts.values())], cwd=at,
                              capture_output=True, text=True)
    told = [(Path(line[0]).stem, *map(int, line[1:])) for line in map(str.split, done.stdout.splitlines())]
    if len(told) < len(texts):
        print(done.stderr)
    idle, wrong = [it[0] for it in told if it[1] == 0], [it[0] for it in told if it[3]]
    print("".join("no step was native: %s\n" % it for it in idle) + "".join("other answers: %s\n" % it for it in wrong), end="")
    print("%d of %d programs were tried, %d runs, %d of their steps native, %d programs differ" % (
        len(told), len(texts), sum(it[2] for it in told), sum(it[1] for it in told), len(wrong)))
    return 1 if idle or wrong or len(told) < len(texts) else 0


if __name__ == "__main__":
    sys.exit(main())
