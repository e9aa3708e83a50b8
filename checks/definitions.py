"""Reads the definitions and lemmas of the .antt files and the types of the .rt files: each with its lines. citations.py
says which of them one cites."""
import re
from functools import cache, cached_property
from pathlib import Path

TOP = Path(__file__).resolve().parent.parent
CRATES = TOP / "crates"
ANTT_USE = re.compile(r"\s*(?:unfoldable )?(?:pub )?use ([\w.+◌-]+)(?:\.\{(.*)\}| as (\S+))\s*$")
RT_GHOST_USE = re.compile(r"\s*ghost use ([\w.+-]+)(?:\.\{(.*)\}| as (\w+));")
ANTT_HEAD = re.compile(
    r"(?P<kind>(?:(?:pub|abbrev|unfoldable|opaque|record|data|ruleset) )*)(?P<name>◌\S+◌|[^\s(){}\[\],;:=]+)(?= *[:({=]|$)")
RT_ITEM = re.compile(r"\s*(?:pub(?:\([a-z]+\))? )?(?:const |unsafe )*(?P<kind>struct|enum|trait|type|fn) (?P<name>\w+)")
OPERATOR = re.compile(r"◌?(>>=|>>|<\$>)◌?")


class Definition:
    """A definition, a lemma or a type: its name, where it stands, its lines from the comment in front on, and its block's
    head where it stands in one."""

    def __init__(self, kind, name, source, first, lines, comments, inside=()):
        self.kind, self.name, self.source, self.first = kind, name, source, first
        self.lines, self.comments, self.inside = lines, comments, inside

    @property
    def place(self):
        return f"{self.source.path.relative_to(TOP)}:{self.first + self.comments}"

    @cached_property
    def code(self):
        """Its text without comments."""
        return "\n".join(re.sub(r"(^|\s)(--|//).*", "", line) for line in self.lines)


def indent_of(line):
    return len(line) - len(line.lstrip())


class AnttFile:
    """A file of definitions or lemmas."""

    def __init__(self, path):
        self.path = path
        self.names, self.aliases, self.passed, self.used = {}, {}, {}, []
        self.own, self.all = {}, []
        self.lines = path.read_text().splitlines()
        for line in self.lines:
            self.read_use(line)
        self.read_block(0, len(self.lines), 0, ())

    def read_use(self, line):
        used = ANTT_USE.match(line)
        if not used:
            return
        module, listed, alias = used.groups()
        self.used.append((module, listed or "", alias))
        if alias:
            self.aliases[alias] = module
            return
        for item in filter(None, (x.strip() for x in listed.split(","))):
            name, _, local = item.partition(" as ")
            self.names[local or name] = (module, name)
            if line.lstrip().startswith("pub use"):
                self.passed[local or name] = (module, name)

    def read_block(self, at, end, depth, inside):
        """The declarations between two lines that stand this deep."""
        comments, last = [], None
        while at < end:
            line = self.lines[at]
            text = line.strip()
            if not text:
                comments = []
            elif indent_of(line) > depth:
                (last.lines if last else comments).append(line)
            elif text.startswith("--"):
                comments.append(line)
            elif re.match(r"(unfoldable )?(pub )?(use|mod|open|infix[lr]?) ", text):
                comments, last = [], None
            elif re.match(r"((abbrev|unfoldable|opaque) )?mutual$|module ", text):
                begin = at + 1
                while text.startswith("module") and not self.lines[begin - 1].rstrip().endswith("where"):
                    begin += 1
                stop = begin
                while stop < end and (not self.lines[stop].strip() or indent_of(self.lines[stop]) > depth):
                    stop += 1
                inner = next((indent_of(x) for x in self.lines[begin:stop] if x.strip()), depth + 2)
                self.read_block(begin, stop, inner, inside + (" ".join(self.lines[at:begin]),))
                comments, last, at = [], None, stop
                continue
            elif re.match(r"unfolding( |$)", text):
                (last.lines if last else comments).append(line)
            elif last and self.continues(last, text):
                last.lines.append(line)
            else:
                last = self.declared(at, line, text, comments, inside)
                comments = []
            at += 1

    @staticmethod
    def continues(last, text):
        """A clause of the same function, by its name or by its sign, or a bracket that closes."""
        first = re.split(r"[\s({]", text, maxsplit=1)[0]
        sign = OPERATOR.search(last.name)
        return first == last.name or text[0] in "})]" or (sign and f" {sign[1]} " in text and " : " not in text)

    def declared(self, at, line, text, comments, inside):
        head = ANTT_HEAD.match(text)
        if not head:
            raise SystemExit(f"{self.path}:{at + 1}: not understood: {text}")
        front = at + 1 - len(comments)
        definition = Definition(head["kind"].strip(), head["name"], self, front, comments + [line], len(comments), inside)
        self.own[definition.name] = definition
        self.all.append(definition)
        return definition

    @cached_property
    def constructors(self):
        """The constructors of the file's families, each with its family."""
        found = {}
        for definition in self.all:
            if "data" in definition.kind:
                for line in definition.lines[definition.comments + 1:]:
                    made = re.match(r"\s+(\S+) :(?: |$)", line)
                    if made:
                        found[made[1]] = definition
        return found


class RtFile:
    """A file of code, with the types and functions at its top."""

    def __init__(self, path):
        self.path = path
        self.names, self.aliases, self.own, self.all, self.passed = {}, {}, {}, [], {}
        self.used = []
        self.lines = path.read_text().splitlines()
        for line in self.lines:
            used = RT_GHOST_USE.match(line)
            if used:
                module, listed, alias = used.groups()
                self.used.append((module, listed or "", alias))
                if alias:
                    self.aliases[alias] = module
                for item in filter(None, (x.strip() for x in (listed or "").split(","))):
                    name, _, local = item.partition(" as ")
                    self.names[local or name] = (module, name)
        self.read_items()

    def read_items(self):
        front = []
        at = 0
        while at < len(self.lines):
            line = self.lines[at]
            item = RT_ITEM.match(line) if indent_of(line) == 0 else None
            if item:
                stop = at
                while not re.match(r"\}|\);|\{\}", self.lines[stop]) and not (stop == at and re.search(r"[;}]$", line)):
                    stop += 1
                definition = Definition(item["kind"], item["name"], self, at + 1 - len(front), front + self.lines[at:stop + 1], len(front))
                self.own[definition.name] = definition
                self.all.append(definition)
                front, at = [], stop
            elif re.match(r"///|#\[", line):
                front.append(line)
            else:
                front = []
            at += 1

    @cache
    def rust_uses(self):
        """The names that `use` lines bring, each with the crate or module that it comes from."""
        found = {}
        for use in re.finditer(r"^(?:pub )?use ([\w:]+?)(?:::\{([^}]*)\})?;", "\n".join(self.lines), re.M):
            module, listed = use.groups()
            if listed is None:
                module, _, listed = module.rpartition("::")
            for name in (x.strip() for x in listed.split(",")):
                found[name.split("::")[-1]] = module
        return found


@cache
def antt(path):
    return AnttFile(path)


@cache
def rt(path):
    return RtFile(path)


@cache
def rust_items(crate):
    """The types, traits and functions of a crate by name, outside its tests."""
    found = {}
    for path in sorted((CRATES / crate / "src").rglob("*.rt")):
        if "tests" not in path.parts and path.name != "tests.rt":
            for definition in rt(path).all:
                found.setdefault(definition.name, []).append(definition)
    return found
