#!/usr/bin/env python3
"""Proves and builds dswp itself: each library that it stands on, several at a time, and then the program. What is made of the
same sources is kept, for later calls and for native/build.py.

  native/prove.py TARGET    leaves the program at TARGET
"""
import shutil
import sys

from builder import Builder
from prover import Failed
from telling import Step, say

PROGRAM_SECONDS = 160


def made(builder):
    """The program, once all of it that isn't is proved and compiled."""
    dswp = builder.crates["dswp"]
    if not builder.prover.program(dswp).exists():
        builder.make_libraries(dswp.below())
        with Step("proving the program and compiling it", PROGRAM_SECONDS):
            builder.prover.make_program(dswp)
    return builder.prover.program(dswp)


def main():
    builder = Builder()
    try:
        shutil.copy(made(builder), sys.argv[1])
    except Failed as failed:
        sys.stderr.write("".join(failed.log.splitlines(True)[-20:]))
        say("%s wasn't proved; all that the prover wrote of it is in %s" % (failed.name, builder.keep_log(failed)))
        return 125
    builder.prover.forget_old()
    return 0


if __name__ == "__main__":
    sys.exit(main())
