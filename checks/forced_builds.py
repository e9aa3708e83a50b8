"""Programs in which what is a matter of speed is forced: built of a copy of the sources in which some files have other texts,
unproved (bench/unproved.py), in four minutes of a processor each, and kept as long as neither sources nor texts change."""
import subprocess
import sys
import tempfile
from pathlib import Path

from native_unproved import TOP, copy_of_crates

from crates import crates_of, sum_of

KEPT = TOP / "crates/dswp/out/forced"


def replaced(path, *pairs):
    """The text of a file of the checkout with each of these parts, which stands in it once, replaced."""
    text = (TOP / path).read_text()
    for old, new in pairs:
        if text.count(old) != 1:
            sys.exit("%s has %d times what this check is to replace: %s" % (path, text.count(old), old))
        text = text.replace(old, new)
    return text


def built(name, texts):
    """The program of the sources with these texts of files."""
    said = [part.encode() for path, text in sorted(texts.items()) for part in (path, text)]
    program = KEPT / ("%s-%s" % (name, sum_of([crates_of(TOP)["dswp"].sum(b"").encode(), *said])))
    if not program.exists():
        KEPT.mkdir(parents=True, exist_ok=True)
        with tempfile.TemporaryDirectory() as copied:
            folder = Path(copied)
            copy_of_crates(folder)
            for path, text in texts.items():
                (folder / path).write_text(text)
            subprocess.run([sys.executable, TOP / "bench/unproved.py", program, folder], stderr=subprocess.DEVNULL)
    return program if program.exists() else sys.exit("the program %s wasn't built" % name)
