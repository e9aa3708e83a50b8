#!/usr/bin/env python3
"""Explains the plans of a program.

  tools/explain.py PROGRAM [OPTION..]                a text: the source with the stage of each line, what goes forward from
                                                     stage to stage, and what keeps a stage sequential
  tools/explain.py PROGRAM [OPTION..] --html PAGE    the same as a page of HTML with a picture, without outside parts
  tools/explain.py PROGRAM [OPTION..] --dot          the picture as text for Graphviz

OPTIONs are those of `dswp plan`; `--plan FILE` takes the plans of a file in place of the least ones, and `--run FILE` the text
of a run with `--why`, whose causes are told with their lines. The picture of a page is drawn by Graphviz's `dot`.
"""
import argparse
import subprocess
import sys
from pathlib import Path

sys.dont_write_bytecode = True
from explaining import page, picture, plans, reasons, sentences, terminal, tree

DSWP = Path(__file__).resolve().parent.parent / "dswp"


def answer(*words):
    run = subprocess.run([DSWP, *words], stdout=subprocess.PIPE)
    if run.returncode:
        sys.stdout.buffer.write(run.stdout)
        sys.exit(run.returncode)
    return run.stdout.decode("ascii")


def words():
    reader = argparse.ArgumentParser(description=__doc__, formatter_class=argparse.RawDescriptionHelpFormatter)
    reader.add_argument("program")
    for option in ("profile", "rate", "stages", "workers", "plan", "html", "run"):
        reader.add_argument(f"--{option}")
    reader.add_argument("--dot", action="store_true")
    return reader.parse_args()


def explained(given, program):
    """Each region's plan, with what it rests on."""
    options = [f"--{option}={value}" for option in ("profile", "rate", "stages", "workers") if (value := getattr(given, option))]
    least = plans.read_explanation(answer("explain", *options, "--", given.program))
    if not given.plan:
        return least
    own = plans.read_plans(Path(given.plan).read_text().splitlines())
    for plan in own:
        reasons.of_another_plan(plan, next(it for it in least if it.region == plan.region), program)
    return own


def main():
    given = words()
    program = tree.read_tree(answer("tree", "--", given.program))
    found = explained(given, program)
    source = Path(given.program).read_text(errors="replace").split("\n")
    if source[-1:] == [""]:
        source.pop()
    teller = sentences.Teller(program)
    causes = sentences.Causes(program, Path(given.run).read_text()) if given.run else None
    if given.dot:
        print("\n".join(picture.dot(found, program)))
    elif given.html:
        text = "\n".join(page.page(Path(given.program).name, source, found, program, teller, causes))
        Path(given.html).write_text(text + "\n", errors="xmlcharrefreplace")
    else:
        print("\n".join(terminal.text(source, found, program, teller, causes)))


if __name__ == "__main__":
    main()
