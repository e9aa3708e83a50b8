"""What a definition cites: the names of its text, looked up where its file takes them from."""
import re
from functools import cache

from definitions import CRATES, AnttFile, RtFile, antt, rust_items


@cache
def file_of(module):
    """The file of a module of this project, or None."""
    parts = module.split(".")
    if parts[0] != "Rattle" or len(parts) < 3:
        return None
    path = CRATES.joinpath(*parts[1:]).with_suffix(".antt")
    return path if path.exists() else None


@cache
def rust_type(module, name):
    """The type that a generated module is about."""
    parts = module.split(".")
    if parts[0] != "Rattle" or len(parts) < 4 or parts[2] != "specs" or parts[3] not in ("declared", "contracts"):
        return None
    items = rust_items(parts[1]) if (CRATES / parts[1]).exists() else {}
    for wanted in [name] + parts[:3:-1]:
        for item in items.get(wanted, []):
            if item.kind != "fn":
                return item
    return None


@cache
def found_in(module, name):
    """The definition of this name in a module, through `pub use`."""
    path = file_of(module)
    if path is None:
        return rust_type(module, name)
    source = antt(path)
    if name in source.own or name in source.constructors:
        return source.own.get(name) or source.constructors[name]
    return found_in(*source.passed[name]) if name in source.passed else None


def resolved(source, parts, local):
    """The definition that a name with dots stands for in this file, or None."""
    first = parts[0]
    if first in local:
        return None
    if isinstance(source, AnttFile) and (first in source.own or first in source.constructors):
        return source.own.get(first) or source.constructors[first]
    if first in source.names:
        return found_in(*source.names[first])
    if first in source.aliases and len(parts) > 1:
        return found_in(source.aliases[first], parts[1])
    if isinstance(source, RtFile):
        if first in source.own and source.own[first].kind != "fn":
            return source.own[first]
        module = source.rust_uses().get(first)
        crate = source.path.relative_to(CRATES).parts[0]
        if module is not None:
            crate = crate if module.startswith(("crate", "super", "self")) else module.split("::")[0]
            for item in rust_items(crate).get(first, []) if (CRATES / crate).exists() else []:
                if item.kind != "fn":
                    return item
    return None


def bound(code):
    """The names that a text binds itself, by λ, by typed binders and by `let`."""
    names = set(re.findall(r"λ ([^.]*)\.", code))
    names |= set(re.findall(r"[({]([^(){}:]*) : ", code))
    names |= set(re.findall(r"\blet (\w+) [:=]", code))
    return {name for group in names for name in group.replace("(", " ").split()}


def cites(definition, but_own=True):
    """The definitions that one cites, in the order in which it names them. A name that it binds itself is none, unless
    that is asked for."""
    code = re.sub(r'"(?:[^"\\]|\\.)*"', " ", definition.code)
    if isinstance(definition.source, RtFile):
        code = re.sub(r"#\[[^]]*\]", " ", code)
    code = "\n".join(definition.inside) + code
    local = bound(code) - {definition.name} if but_own and isinstance(definition.source, AnttFile) else set()
    seen = []
    signs = [f"◌{sign}◌" for sign in (">>=", ">>", "<$>") if f" {sign} " in code]
    for token in re.findall(r"[^\s(){}\[\],;:<>&|=]+", code) + signs:
        parts = token.strip(".").split(".")
        cited = resolved(definition.source, parts, local)
        if cited and cited is not definition and cited not in seen:
            seen.append(cited)
    return seen
