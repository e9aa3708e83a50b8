#!/usr/bin/env python3
"""Lists the definitions and lemmas that nothing stands on: no clause, no answer to a function's goal and no row leads to
them; and the folders under proofs/ whose function is gone. Ends with 1 where there are more than are known to serve as
rows or laws.

  checks/uncited.py [CRATES..]     all crates where none is named

What a `use` line brings counts as cited by the whole file where no text of the file names it, since a tactic may find it.
"""
import re
import sys
from functools import cache

sys.dont_write_bytecode = True
from citations import cites, file_of, found_in, resolved
from definitions import CRATES, antt, rt

LIMIT = 60


def lemma_files(crate):
    """The files under proofs/ that the crate's modules list."""
    found, waiting = set(), [CRATES / crate / "proofs/Lib.antt"]
    while waiting:
        path = waiting.pop()
        if not path.exists() or path in found:
            continue
        found.add(path)
        folder = path.parent if path.name == "Lib.antt" else path.with_suffix("")
        for line in antt(path).lines:
            listed = re.match(r"(?:pub )?mod (\S+)$", line)
            if listed:
                waiting.append(folder / f"{listed[1]}.antt")
    return found


@cache
def brought(source):
    """What the file's `use` lines bring that no text of it names."""
    code = "\n".join(line for line in source.lines if not re.match(r"\s*(unfoldable )?(pub )?use |\s*--", line))
    words = set(re.findall(r"[^\s(){}\[\],;:.λ]+", code))
    return [found_in(*imported) for name, imported in source.names.items() if name not in words]


def in_full(text):
    """The definitions that a text names by their whole path."""
    for path in re.findall(r"Rattle\.[\w.+-]+", text):
        module, _, name = path.rpartition(".")
        if file_of(module):
            yield found_in(module, name)


def named_in_code(path):
    """The definitions that a file of code names: in its `ghost use` lines, behind their aliases, and in its tactics."""
    source = rt(path)
    text = "\n".join(source.lines)
    crate = path.relative_to(CRATES).parts[0]
    for name in source.names:
        yield resolved(source, [name], set())
    for alias in source.aliases:
        for name in re.findall(rf"\b{alias}\.([\w'-]+)", text):
            yield resolved(source, [alias, name], set())
    for lemma in re.findall(r"\b((?:crate|dp_\w+)(?:::\w+)*::proofs(?:::[\w+]+)+)", text):
        module, _, name = lemma.replace("crate::", f"{crate}::").replace("::", ".").rpartition(".")
        yield found_in("Rattle." + module, name)
    yield from in_full(text)


def roots(crates, lemmas):
    """What is there for its own sake: code, answers to goals, rows, and what the kit asks for by name."""
    for crate in crates:
        for path in (CRATES / crate / "src").rglob("*.rt"):
            yield from named_in_code(path)
        for path in (CRATES / crate).glob("proofs/**/*.antt"):
            if path not in lemmas or "rows" in path.parts:
                yield from antt(path).all
        for path in (CRATES / crate).glob("specs/formers/**/*.antt"):
            yield from antt(path).all


def live(crates, lemmas):
    """All that the roots lead to."""
    found, waiting = set(), list(roots(crates, lemmas))
    while waiting:
        definition = waiting.pop()
        if definition is None or definition in found:
            continue
        found.add(definition)
        waiting += cites(definition, but_own=False)
        if definition.source.path.suffix == ".antt":
            waiting += brought(definition.source)
            waiting += in_full(definition.code)
    return found


def gone(crate, lemmas):
    """The folders of answers under proofs/ that no function has."""
    code = "\n".join(path.read_text() for path in (CRATES / crate / "src").rglob("*.rt"))
    functions = set(re.findall(r"\bfn (\w+)", code))
    names = functions | set(re.findall(r"#\[cycle\((\w+)\)\]", code))
    for path in (CRATES / crate).glob("proofs/**/*.antt"):
        if path not in lemmas and path.name != "Lib.antt" and "formers" not in path.parts:
            last = path.parent.name.lstrip("+")
            if last not in names:
                yield path.parent.relative_to(CRATES)


def main():
    crates = sorted(path.name for path in CRATES.iterdir() if (path / "src").exists())
    lemmas = set().union(*(lemma_files(crate) for crate in crates))
    alive = live(crates, lemmas)
    wanted = sys.argv[1:] or crates
    count = 0
    for crate in wanted:
        files = sorted(path for kind in ("specs", "proofs") for path in (CRATES / crate).glob(f"{kind}/**/*.antt"))
        dead = [d for path in files for d in antt(path).all if d not in alive]
        lines = [f"{d.place}  {d.name}" for d in dead] + [f"crates/{path}  no function" for path in sorted(set(gone(crate, lemmas)))]
        count += len(lines)
        print(*lines, sep="\n", end="\n" if lines else "")
    print(f"{count} that nothing stands on")
    return 0 if count <= LIMIT else 1


if __name__ == "__main__":
    sys.exit(main())
