#!/usr/bin/env python3
"""Builds native programs, and compares what they answer with `dswp run`: on their own inputs, on inputs of 65,536 words and on
inputs that fault, each with fuel that is spent at each tenth of the run; and the same of a text of which one digit is another,
which no native code is of. Tells the share whose code was proved at once. The code of ten programs takes some minutes of a
processor, and the `main` over all of them three more.

    native.py                   the examples and the loops of bench/loops, as they are and without marks
    native.py NAME..            those of them
    native.py --random N SEED   so many random programs, as they are and without marks
    native.py --large SITES     a program of at least so many sites
    native.py --codes ..        proves the code of any of these, and compares nothing
    native.py --apart NAME..    each built by `dswp build`, with a `main` of its own"""
import os
import random
import re
import subprocess
import sys
import tempfile
from concurrent.futures import ThreadPoolExecutor
from pathlib import Path

from large_text import large_text
from random_runs import Text

TOP = Path(__file__).resolve().parent.parent
sys.dont_write_bytecode = True
sys.path.insert(0, str(TOP / "native"))
from together import Together

MOST_FUEL = 10**7


def run(*words):
    done = subprocess.run([str(word) for word in words], capture_output=True, text=True)
    return done.stdout, done.returncode


def unmarked(text):
    """The text as a sequential program; None where a marked loop has an early exit, which no other loop may have."""
    return None if "break" in text else re.sub(r"#pragma[ \t]+dswp", "", text)


def other_by_a_digit(text):
    """The text with one digit of its `main` changed, where there is one."""
    start = text.index("int main")
    return text[:start] + re.sub(r"\b[1-8]\b", lambda found: str(int(found[0]) + 1), text[start:], count=1)


def examples(names):
    for path in sorted([*TOP.glob("examples/**/*.c"), *TOP.glob("bench/loops/*.c")]):
        if not names or path.stem in names:
            yield path.stem, path.read_text()


def random_texts(count, seed):
    for number in range(count):
        yield "random_%d" % number, "\n".join(Text(random.Random("%s %s" % (seed, number))).lines) + "\n"


def both(texts):
    """Each text as it is, and without its marks."""
    for stem, text in texts:
        yield stem, text
        if "#pragma" in text and unmarked(text) is not None:
            yield stem + "_unmarked", unmarked(text)


def long_input(stem):
    """65,536 words of the kind that a program is for."""
    return run("bash", "-c", '. "$1/bench/common.sh"; many_words "$2"', TOP / "bench" / "native.sh", TOP, stem)[0]


def inputs(stem):
    """Inputs of a program: four that are made up, and two of the kind that it is for."""
    rng, stem = random.Random(stem), stem.removesuffix("_unmarked")
    yield ""
    yield "9223372036854775807 -9223372036854775808 0 1"
    yield " ".join(str(rng.randrange(-9, 100)) for _ in range(200))
    yield " ".join(str(rng.randrange(0, 1000)) for _ in range(65536))
    if not stem.startswith(("random", "large")):
        own = next(TOP.glob("examples/**/%s.in" % stem), None)
        yield from [own.read_text()] if own else []
        yield long_input(stem)


def spent(program, words):
    """The least fuel with which the run ends otherwise than by its fuel, or the most there is."""
    low, high = 0, MOST_FUEL
    while low < high:
        middle = (low + high) // 2
        if run(*program, words, "--fuel", middle)[0].endswith("end fuel\n"):
            low = middle + 1
        else:
            high = middle
    return low


def fuels(steps):
    return sorted({0, 1, 2, 3, steps, *(max(steps * tenth // 10 - 1, 0) for tenth in range(1, 11))})


def beside(source, end, text):
    """A file beside a source, of this text."""
    made = source.with_name(source.stem + end)
    made.write_text(text)
    return made


def differences(source, program, are_together):
    """How many runs were compared, and the words at which the native program answers other than `dswp run`: of the text, and of
    one with another digit where the program takes texts. Without its marks a text takes the same steps, in less time."""
    text, compared, wrong = source.read_text(), 0, []
    takes_texts = program[:-1] if are_together else [TOP / "dswp", "run"]
    counts, pairs = [*takes_texts, beside(source, "_plain.c", unmarked(text) or text)], [(program, source)]
    if are_together:
        other = beside(source, "_other.c", other_by_a_digit(text))
        pairs.append(([*takes_texts, other], other))
    for number, content in enumerate(inputs(source.stem)):
        words = beside(source, "_input_%d" % number, content)
        for fuel in fuels(spent(counts, words)):
            for native, each in pairs:
                compared += 1
                if run(*native, words, "--fuel", fuel) != run(TOP / "dswp", "run", each, words, "--fuel", fuel):
                    wrong.append("%s: input %d, --fuel %d" % (each.stem, number, fuel))
    return compared, wrong


def built_apart(folder, sources):
    """Each program with the words that run it, or None where it isn't built."""
    for source in sources:
        program = folder / source.stem
        yield source, [program] if run(TOP / "dswp", "build", source, "-o", program)[1] == 0 else None


def proved_together(sources):
    """The libraries with these programs' code, those without marks apart from the others, as bench/native.sh takes them."""
    together = Together()
    for are_marked in (True, False):
        together.prove([it for it in sources if it.stem.endswith("_unmarked") != are_marked])
    return together


def built_together(sources):
    """The same, of programs that have one `main`."""
    together = proved_together(sources)
    program = together.made()
    for source in sources:
        yield source, None if source in together.lost else [program, "run", source]


def compare(built, are_together):
    """Compares all that was built, several at a time; tells of each program, and answers how many weren't built, and what differs."""
    missing, wrong = 0, []
    with ThreadPoolExecutor(os.cpu_count()) as pool:
        told = [(source.stem, program and pool.submit(differences, source, program, are_together)) for source, program in built]
        for stem, made in told:
            if made is None:
                print("not built: " + stem, flush=True)
                missing += 1
                continue
            runs, found = made.result()
            print("%s: %d runs, %d differ" % (stem, runs, len(found)), flush=True)
            wrong += found
    return missing, wrong


def written(folder, texts):
    """The files of the texts, each as it is and without its marks."""
    for stem, text in both(texts):
        source = folder / (stem + ".c")
        source.write_text(text)
        yield source


def named(words):
    """The texts that the words name."""
    if words[:1] == ["--random"]:
        return random_texts(int(words[1]), words[2])
    return [("large", large_text(int(words[1])))] if words[:1] == ["--large"] else examples(words)


def main():
    words = sys.argv[1:]
    how = words.pop(0) if words[:1] in (["--codes"], ["--apart"]) else "--together"
    with tempfile.TemporaryDirectory() as name:
        folder = Path(name)
        sources = list(written(folder, named(words)))
        if how == "--codes":
            missing = len(proved_together(sources).lost)
            print("the code of %d of %d programs was proved at once" % (len(sources) - missing, len(sources)))
            return 1 if missing else 0
        missing, wrong = compare(built_apart(folder, sources) if how == "--apart" else built_together(sources), how == "--together")
    print("".join("other answers: %s\n" % each for each in wrong), end="")
    print("%d of %d programs were built and proved at once, %d other answers" % (len(sources) - missing, len(sources), len(wrong)))
    return 1 if wrong or missing else 0


if __name__ == "__main__":
    sys.exit(main())
