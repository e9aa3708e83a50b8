#!/usr/bin/env python3
"""What a gate from nothing spends its time on.

  checks/gate_cost.py watch [FILE]   looks at the checks that run on this machine until ten seconds after the last one, and prints what each crate took of
                                     the processors: its proof, its tests, and its must-fail edits with the check that they begin with. Start it just before
                                     `rt ci`. What was seen is kept in FILE as it goes on
  checks/gate_cost.py told FILE      the same of what was kept
  checks/gate_cost.py anew FILE      what a change of each crate proves anew, by crates.txt: how many crates, and in how many minutes of a processor
  checks/gate_cost.py sizes [N]      the checked files of each crate that `rt check` left in out/incremental, in MB, by what they are, and the N dearest
                                     functions (40). A gate takes some 1.3 seconds of a processor for a MB, and 20 for each check
"""
import collections
import glob
import json
import os
import re
import sys
import time

CRATES = os.path.join(os.path.dirname(os.path.dirname(os.path.abspath(__file__))), "crates")
# the toolchain's model of a function and of the values that it moves
MODEL = re.compile(r"\.(Lts|decls|Tie|Layout|Mir|View|Kinds|Reads|Code)\b")
PROOF = re.compile(r"\.(Proof|Answers|Invariants|Met|Given)\b")


def running():
    """The checks that run: their process, crate, folder, whether of tests, and the seconds of a processor that they took."""
    tick = os.sysconf("SC_CLK_TCK")
    for process in filter(str.isdigit, os.listdir("/proc")):
        try:
            with open(f"/proc/{process}/cmdline", "rb") as it:
                words = it.read().decode(errors="replace").split("\0")
            with open(f"/proc/{process}/stat") as it:
                stat = it.read().rsplit(")", 1)[1].split()
            folder = os.readlink(f"/proc/{process}/cwd")
        except OSError:
            continue
        if words[0].endswith("/rattle") and "--crate-name" in words:
            name = words[words.index("--crate-name") + 1]
            yield f"{process}.{stat[19]}", name, folder, "--test" in words, (int(stat[11]) + int(stat[12])) / tick


def watch(file):
    """Looks once a second, until nothing has run for ten seconds after something did."""
    seen, idle = {}, None
    while idle is None or idle < 10:
        found = list(running())
        for process, name, folder, tests, seconds in found:
            seen[process] = [name, "edits" if "/rt-edit-" in folder else "tests" if tests else "proof", seconds]
        idle = 0 if found else idle if idle is None else idle + 1
        if file and found:
            with open(f"{file}.new", "w") as it:
                json.dump(seen, it)
            os.replace(f"{file}.new", file)
        time.sleep(1)
    tell(seen)


def by_crate(seen):
    took = collections.defaultdict(lambda: {"proof": 0, "tests": 0, "edits": 0})
    for name, kind, seconds in seen.values():
        took[name][kind] += seconds
    return took


def tell(seen):
    took = by_crate(seen)
    rows = sorted(took.items(), key=lambda it: -sum(it[1].values()))
    print("| crate | proof | tests | edits | seconds of a processor |\n|---|---|---|---|---|")
    for name, kinds in rows:
        print(f"| `{name}` | {kinds['proof']:.0f} | {kinds['tests']:.0f} | {kinds['edits']:.0f} | {sum(kinds.values()):.0f} |")
    whole = {kind: sum(it[kind] for it in took.values()) for kind in ("proof", "tests", "edits")}
    print(f"| all | {whole['proof']:.0f} | {whole['tests']:.0f} | {whole['edits']:.0f} | {sum(whole.values()):.0f}, {sum(whole.values()) / 60:.0f} minutes |")


def uses():
    """What each crate of crates.txt stands on, of the repository's own."""
    with open(os.path.join(os.path.dirname(CRATES), "crates.txt")) as it:
        lines = [line.split("#")[0].split(":") for line in it if ":" in line.split("#")[0]]
    named = {head.split()[0]: below.split() for head, below in lines}
    return {name: [it for it in below if it in named] for name, below in named.items()}


def anew(seen):
    below, took = uses(), by_crate(seen)
    above = {name: {name} for name in below}
    while True:
        grown = {name: above[name].union(*(above[it] for it in below if name in below[it])) for name in below}
        if grown == above:
            break
        above = grown
    print("| A change in | proves anew | minutes of a processor |\n|---|---|---|")
    minutes = {name: sum(sum(took[it].values()) for it in above[name] if it in took) / 60 for name in above}
    for name in sorted(above, key=lambda it: -minutes[it]):
        print(f"| `{name}` | {len(above[name])} crates | {minutes[name]:.0f} |")


def sizes(most):
    by_crate, by_function = collections.Counter(), collections.Counter()
    kinds = collections.Counter()
    for file in glob.glob(f"{CRATES}/*/out/incremental/*/*.oantt"):
        name, size = os.path.basename(file), os.path.getsize(file)
        crate = file[len(CRATES) + 1 :].split("/")[0]
        by_crate[crate] += size
        kinds["model" if MODEL.search(name) else "proof" if PROOF.search(name) else "specifications, lemmas, rows and the rest"] += size
        path = name.split("-proofs.", 1)[-1] if "-proofs." in name else ""
        if MODEL.search(path):
            by_function[crate, MODEL.split(path)[0]] += size
        elif PROOF.search(path):
            by_function[crate, PROOF.split(path)[0]] += size
    whole = sum(by_crate.values()) or 1
    for kind, size in kinds.most_common():
        print(f"{size / 1e6:8.0f} MB {100 * size / whole:3.0f} %  {kind}")
    print(f"{whole / 1e6:8.0f} MB        all")
    for crate, size in by_crate.most_common():
        print(f"{size / 1e6:8.0f} MB        {crate}")
    for (crate, function), size in by_function.most_common(most):
        print(f"{size / 1e6:8.1f} MB        {crate} {function}")


def main(words):
    if words[:1] == ["watch"] and len(words) <= 2:
        watch(words[1] if len(words) == 2 else None)
    elif words[:1] in (["told"], ["anew"]) and len(words) == 2:
        with open(words[1]) as it:
            {"told": tell, "anew": anew}[words[0]](json.load(it))
    elif words[:1] == ["sizes"] and len(words) <= 2:
        sizes(int(words[1]) if len(words) == 2 else 40)
    else:
        sys.exit(__doc__)


main(sys.argv[1:])
