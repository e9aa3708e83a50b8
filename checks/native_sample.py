#!/usr/bin/env python3
"""Says whether crates/dp_sample is what native/crate.py writes of native/sample.c, but for its layout, and ends with 1 where it isn't."""
import re
import subprocess
import sys
from pathlib import Path

TOP = Path(__file__).resolve().parent.parent
sys.dont_write_bytecode = True
sys.path.insert(0, str(TOP / "native"))
from crate import code_text
from forms import Forms
from tree_text import Program


def tokens(text):
    """The words of a source, without the commas that stand in front of an end; its imports in one order."""
    lines = re.sub(r"use [^;]*;", lambda found: " ".join(found[0].split()), text).split("\n")
    uses = sorted(re.sub(r", \}", "}", re.sub(r"\{ ", "{", line)) for line in lines if line.startswith("use "))
    rest = "\n".join(line for line in lines if not line.startswith("use "))
    return uses, re.sub(r",([)>}\]])", r"\1", "".join(rest.split()))


def main():
    tree = subprocess.run([TOP / "dswp", "tree", TOP / "native" / "sample.c"], capture_output=True, text=True, check=True).stdout
    program = Program(tree)
    written = code_text(program, Forms(program))
    same = tokens(written) == tokens((TOP / "crates/dp_sample/src/lib.rt").read_text())
    print("crates/dp_sample is %s native/crate.py writes of native/sample.c" % ("what" if same else "not what"))
    return 0 if same else 1


sys.exit(main())
