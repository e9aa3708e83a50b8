#!/usr/bin/env python3
"""Times the loops of examples/, its gallery and loops/ with their marks, by their least plans, and without, on long inputs (65,536
words for most), in turns: wall time and processor time an iteration, how many times as long the marked program takes, and the most memory of
both. Each time is the least of nine runs, less that of an empty program.

    marks.py             all of them
    marks.py NAME..      those that are named
    marks.py --rounds N  so many rounds in place of nine

Ends with 1 where two answers differ, and tells at the end which loops take more than 2.5 times as long with their mark."""
import os
import re
import subprocess
import sys
import tempfile
import time
from math import exp, log
from pathlib import Path

TOP = Path(__file__).resolve().parent.parent
DSWP = TOP / "crates" / "dswp" / "out" / "dswp"
FUEL = ["--fuel", "1000000000"]
MOST = 2.5


class Run:
    """What one call took: seconds on the clock and of processors, and the most memory in MB."""

    def __init__(self, words):
        start = time.monotonic()
        child = subprocess.Popen([str(word) for word in words], stdout=subprocess.PIPE, stderr=subprocess.DEVNULL)
        self.text = child.stdout.read()
        _, self.status, used = os.wait4(child.pid, 0)
        self.wall, self.processors, self.memory = time.monotonic() - start, used.ru_utime + used.ru_stime, used.ru_maxrss / 1024


def least(runs):
    return min(run.wall for run in runs), min(run.processors for run in runs), max(run.memory for run in runs)


def long_input(path):
    """Many words of the kind that the program is for."""
    words = ["bash", "-c", '. "$0/bench/common.sh"; many_words "$1"', TOP, path.stem]
    return subprocess.run([str(word) for word in words], capture_output=True, check=True).stdout


def values(text):
    """An answer without the lines that tell of regions."""
    return [line for line in text.split(b"\n") if not line.startswith(b"region ")]


def iterations(text):
    return sum(int(number) for number in re.findall(rb"^region \d+ iterations (\d+)", text, re.M))


def measured(folder, path, rounds):
    """The runs of a program with and without its marks, in turns; None for the second where a break keeps the marks."""
    words = folder / "words"
    words.write_bytes(long_input(path))
    text = path.read_text()
    plain = folder / "plain.c"
    plain.write_text(re.sub(r"#pragma[ \t]+dswp", "", text))
    marked, unmarked = [], []
    for _ in range(rounds):
        marked.append(Run([DSWP, "run", path, words, *FUEL]))
        if "break" not in text:
            unmarked.append(Run([DSWP, "run", plain, words, *FUEL]))
    return marked, unmarked


def row(path, marked, unmarked, nothing):
    count = max(1, iterations(marked[0].text))
    wall, processors, memory = least(marked)
    cells = [path.stem, count, (wall - nothing[0]) * 1e9 / count, (processors - nothing[1]) * 1e9 / count, memory]
    if not unmarked:
        print("%-20s %9d %9.0f %9.0f %9s %9s %7.1f" % (*cells[:4], "-", "-", memory))
        return None
    alone = least(unmarked)
    quotient = (wall - nothing[0]) / max(1e-9, alone[0] - nothing[0])
    print("%-20s %9d %9.0f %9.0f %9.0f %9.2f %7.1f %7.1f" % (*cells[:4], (alone[0] - nothing[0]) * 1e9 / count, quotient, memory, alone[2]))
    return quotient


def main(words):
    rounds = 9
    if words[:1] == ["--rounds"]:
        rounds, words = int(words[1]), words[2:]
    paths = sorted([*TOP.glob("examples/*.c"), *TOP.glob("bench/loops/*.c"), *TOP.glob("examples/gallery/*.c")])
    paths = [path for path in paths if not words or path.stem in words]
    quotients, differ = {}, 0
    with tempfile.TemporaryDirectory() as name:
        folder = Path(name)
        empty = folder / "empty.c"
        empty.write_text("int main() { }\n")
        nothing = least([Run([DSWP, "run", empty]) for _ in range(rounds)])
        print("%-20s %9s %9s %9s %9s %9s %7s %7s" % ("ns an iteration", "count", "marked", "processor", "unmarked", "quotient", "MB", "MB"))
        for path in paths:
            marked, unmarked = measured(folder, path, rounds)
            differ += any(values(run.text) != values(marked[0].text) for run in [*marked, *unmarked])
            quotient = row(path, marked, unmarked, nothing)
            if quotient is not None:
                quotients[path.stem] = quotient
    print("%.2f times as long with its mark, in geometric mean of %d" % (exp(sum(map(log, quotients.values())) / max(1, len(quotients))), len(quotients)))
    print("more than %.1f times: %s" % (MOST, " ".join(sorted(it for it in quotients if quotients[it] > MOST)) or "none"))
    return 1 if differ else 0


if __name__ == "__main__":
    sys.exit(main(sys.argv[1:]))
