#!/usr/bin/env bash
# Compares the texts of crates/dswp/src/tests/examples.rt with the files of examples/ and examples/gallery/, byte by byte, so
# that what is tested is what is shown. Ends with 1 where a text differs or has no file.
set -eu
cd "$(dirname "$0")/.."
python3 - crates/dswp/src/tests/examples.rt examples <<'PY'
import pathlib, re, sys

source, folder = pathlib.Path(sys.argv[1]).read_text(), pathlib.Path(sys.argv[2])
escapes = {"n": "\n", "t": "\t", "r": "\r", "0": "\0", "\\": "\\", '"': '"'}
text = r'\s*b"((?:[^"\\]|\\.)*)",'

tested = {}
for name, *texts in re.findall(rf'"(\w+)",{text}{text}{text}', source):
    for end, it in zip((".c", ".in", ".out"), texts):
        tested[name + end] = re.sub(r"\\(.)", lambda found: escapes[found[1]], it)
shown = {it.name: it.read_bytes().decode() for it in folder.rglob("*") if it.suffix in (".c", ".in", ".out")}

differ = sorted(name for name in tested if tested[name] != shown.get(name))
for name in differ:
    print(f"{name}: {'differs' if name in shown else 'no such file'}")
print(f"{len(tested) - len(differ)} of {len(tested)} texts are the same")
sys.exit(bool(differ) or not tested)
PY
