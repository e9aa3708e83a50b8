#!/usr/bin/env python3
"""The crates of a program: its code as types, and the `main` that runs it.

  native/crate.py TREE SOURCE PLACE    writes the crates of the program SOURCE, whose text as a tree is TREE (`dswp tree SOURCE`),
                                       into the clone PLACE of this repository, beside its crates, and prints their names
"""
import hashlib
import sys
from pathlib import Path

from forms import Forms
from tree_text import Program

HERE = Path(__file__).resolve().parent
NAMES = {
    "dp_base": ["Row"],
    "dp_forms": """Add And Binary Code Composed Div Element Eq Ge Gt If InputLen Le Lt Mul Ne Neg Not Nothing Number Or Other
                   Outermost Put Rem Say Scalar Set State Sub Then Unary Value While Word""".split(),
    "dp_native": ["Native"],
    "dp_tree": ["Expr", "Program", "Stmt"],
}
CODE_USES = "dp_base dp_tree dp_native dp_forms"
PROGRAM_USES = "dp_built"


def name_of(kind, text):
    """A name of a crate that no other text's has."""
    return kind + "_" + hashlib.sha256(text.encode()).hexdigest()[:12]


def filled(template, values):
    """A template with each `@NAME@` replaced."""
    for name, value in values.items():
        template = template.replace("@%s@" % name, str(value))
    return template


def template(name):
    return (HERE / (name + ".template")).read_text()


def words_in(text):
    return set("".join(c if c.isalnum() else " " for c in text).split())


def imports(body):
    """The lines that import what a text names of the libraries."""
    used = words_in(body)
    for library, names in NAMES.items():
        names = [name for name in names if name in used]
        if names:
            yield "use %s::%s;\n" % (library, names[0] if len(names) == 1 else "{%s}" % ", ".join(names))


def code_text(program, forms):
    """The library with the program's code as a type."""
    homes = [program.variables[v].first for v in forms.homes]
    kinds = (("expression", forms.expressions), ("part", forms.named))
    parts = "".join(filled(template(kind), {"NAME": name, "TYPE": code, "COUNT": len(homes)}) for kind, named in kinds for name, code in named)
    body = filled(template("code"), {
        "PARTS": parts, "GHOSTS": template("ghosts") if forms.named else "", "COUNT": len(homes), "WHOLE": forms.whole.text,
        "HOMES": ", ".join(map(str, homes)), "SIZE": program.cell_count(), "SITES": program.site_count,
    })
    return body.replace("@IMPORTS@", "".join(imports(body)))


def literal(text):
    """The text as a byte string of Rust."""
    plain = {"\n": "\\n", '"': '\\"', "\\": "\\\\"}
    return "".join(plain.get(chr(b), chr(b) if 32 <= b < 127 else "\\x%02x" % b) for b in text)


def program_text(code, source_name, text):
    """The program's `main`."""
    return filled(template("main"), {"CODE": code, "NAME": source_name, "TEXT": literal(text)})


def put_crate(place, name, root, text, uses):
    """Puts a crate beside those of dswp."""
    source = place / "crates" / name / "src"
    source.mkdir(parents=True, exist_ok=True)
    (source / root).write_text(text)
    listed = place / "crates.txt"
    lines = [line for line in listed.read_text().splitlines() if line.split(":")[0].split()[:1] != [name]]
    listed.write_text("\n".join(lines + [uses]) + "\n")


def main():
    tree, source, place = sys.argv[1:4]
    tree, source, place = Path(tree).read_text(), Path(source), Path(place)
    program = Program(tree)
    text = code_text(program, Forms(program))
    code = name_of("code", text)
    put_crate(place, code, "lib.rt", text, "%s: %s" % (code, CODE_USES))
    text = program_text(code, source.name, source.read_bytes())
    name = name_of("program", text)
    put_crate(place, name, "main.rt", text, "%s may_wait=1: %s %s" % (name, PROGRAM_USES, code))
    print(code, name)


if __name__ == "__main__":
    main()
