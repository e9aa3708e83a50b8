"""The changes of a definition of an .antt file that may keep its type: another sign, number, branch, part, constructor,
variable or field, and another clause's answer. changed_definitions.py finds which do."""
import re
from itertools import chain, zip_longest

from definitions import OPERATOR

TOKEN = re.compile(r'"[^"]*"|[^\s(){}\[\],;.]+|[(){}\[\],;.]|\s+')
WORD = re.compile(r"[A-Za-z_][\w'-]*$")
OTHER_SIGN = {
    "&&": "||", "||": "&&", "nat_le": "nat_lt", "nat_lt": "nat_le", "≤": "<", "<": "≤", "true": "false", "false": "true",
    "-": "+", "min": "max", "list_all": "list_any", "list_any": "list_all", "take": "drop", "drop": "take", "×": "⊎", "⊎": "×"}
KEYWORDS = {"if", "then", "else", "let", "in", "record", "λ"}


class Scope:
    """What a file's text has for a change: the constructors of one family, and the fields that it names."""

    def __init__(self, text):
        self.families = [[x.strip() for x in m[1].split(",")] for m in re.finditer(r"^use \S+\.\{([^}]*)\}", text, re.M)]
        self.families = [[x for x in names if re.match(r"[A-Z]", x)] for names in self.families]
        self.qualified = {}
        for alias, name in re.findall(r"\b([a-z_]\w*)\.([A-Z]\w*)", text):
            self.qualified.setdefault(alias, {})[name] = None
        body = "\n".join(x for x in text.splitlines() if not re.match(r"\s*(pub )?(use|--)", x))
        self.fields = list(dict.fromkeys(re.findall(r"\.([a-z_]\w*|\d)(?![\w.]*\.[A-Z])", body)))


def split_at(text, sign):
    """The text before and behind the first such sign that no bracket holds, or None."""
    depth = 0
    for at, letter in enumerate(text):
        depth += (letter in "([{") - (letter in ")]}")
        if depth == 0 and text.startswith(f" {sign} ", at):
            return text[:at], text[at + len(sign) + 2:]
    return None


def other_tokens(tokens, scope):
    """Another sign, number, text or constructor."""
    for at, token in enumerate(tokens):
        before = tokens[at - 1] if at else ""
        others = []
        if token in OTHER_SIGN:
            others = [OTHER_SIGN[token]]
        elif token.isdigit() and before != ".":
            others = [str(int(token) + 1)]
        elif token.startswith('"'):
            others = [token[:-1] + 'x"']
        elif before == "." and token in scope.qualified.get(tokens[at - 2], ()):
            others = [x for x in scope.qualified[tokens[at - 2]] if x != token]
        elif before != ".":
            others = [x for names in scope.families if token in names for x in names if x != token]
        for other in others:
            yield f"{token} to {other}", "".join([*tokens[:at], other, *tokens[at + 1:]])


def other_parts(text, is_type):
    """Parts exchanged or left out."""
    choice = re.match(r"(?s)if (.*?) then (.*?) else (.*)$", text)
    if choice and "if " not in choice[1] and " then " not in choice[3]:
        yield "the other branch", f"if not ({choice[1]}) then {choice[2]} else {choice[3]}"
    for sign in ("++", "×", "→", "∷"):
        two = split_at(text, sign)
        if two and sign == "++":
            yield "++ turned round", f"({two[1]}) ++ ({two[0]})"
        elif two and not (sign == "→" and re.match(r"\(\w[^)]* : ", two[0])) and (sign == "∷") != is_type:
            yield f"without what stands before {sign}", two[1]
    front, arrow, equation = text.rpartition(" → ")
    two = split_at(equation, "≡")
    if two and "×" not in equation and equation.count("(") == equation.count(")"):
        for longer in ("suc ({0})", "not ({0})", "{0} ++ {0}"):
            yield "≡ " + longer.format(".."), f"{front}{arrow}{two[0]} ≡ " + longer.format(f"({two[1]})")
    for call in re.finditer(r"([A-Za-z_][\w'.-]*) \(([^()]*)\)", text):
        yield f"without {call[1]}", text[:call.start()] + f"({call[2]})" + text[call.end():]
    if not is_type:
        yield "one more", f"suc ({text})"
        yield "the opposite", f"not ({text})"


def other_names(tokens, bound, scope):
    """Other variables, two words that stand beside each other turned round, and other fields."""
    def put(at, *new):
        return "".join([*tokens[:at], *new, *tokens[at + len(new):]])
    for at, token in enumerate(tokens):
        if token in bound:
            for other in bound:
                if other != token:
                    yield f"{token} to {other}", put(at, other)
    for at in range(2, len(tokens) - 2):
        x, between, y = tokens[at:at + 3]
        if between == " " and x != y and WORD.match(x) and WORD.match(y) and not KEYWORDS & {x, y} and tokens[at - 1] == " ":
            yield f"{x} {y} turned round", put(at, y, " ", x)
    for at, token in enumerate(tokens):
        if at > 1 and tokens[at - 1] == "." and token in scope.fields and tokens[at - 2] not in scope.qualified:
            for other in scope.fields:
                if other != token:
                    yield f".{token} to .{other}", put(at, other)


def other_texts(text, is_type, bound, scope):
    """The changes of an expression: each with a word on it."""
    lead, body = re.match(r"(?s)(\s*)(.*)$", text).groups()
    tokens = TOKEN.findall(body)
    found = chain(other_tokens(tokens, scope), other_parts(body, is_type), other_names(tokens, bound, scope))
    return [(word, lead + new) for word, new in found if new != body]


def in_turns(lists):
    """One of each list after the other."""
    return [x for row in zip_longest(*lists) for x in row if x is not None]


def clauses(definition, numbers, lines):
    """The clauses of a function: the numbers of each one's lines, what stands before `=`, and what stands behind it."""
    found, signed = [], False
    for at in numbers:
        text = lines[at].strip()
        if text.startswith("--") or re.match(r"unfolding( |$)", text):
            continue
        if not signed:
            signed = " : " in text
        elif text.split()[0] == definition.name or OPERATOR.search(definition.name):
            found.append([at])
        elif found:
            found[-1].append(at)
    for own in found:
        text = "\n".join(lines[at] for at in own)
        depth = 0
        for at, letter in enumerate(text):
            depth += (letter in "([{") - (letter in ")]}")
            if depth == 0 and re.match(r" =[ \n]", text[at:at + 3]):
                yield own, text[:at + 2], text[at + 2:]
                break


def in_place(own, text):
    """The change that puts a text in the place of these lines."""
    return {own[0]: text, **dict.fromkeys(own[1:])}


def changes_of_clauses(definition, numbers, lines, scope):
    """The changes of a function."""
    found = list(clauses(definition, numbers, lines))
    is_type = "Type" in lines[numbers[0]]
    lists = []
    for own, left, right in found:
        names = [x for x in dict.fromkeys(re.findall(r"[a-z_][\w'-]*", left)) if x != definition.name]
        mine = [(word, in_place(own, left + new)) for word, new in other_texts(right, is_type, names, scope)]
        for number, (_, other_left, other_right) in enumerate(found, 1):
            wanted = set(re.findall(r"[a-z_][\w'-]*", other_left)) - {definition.name}
            if other_right.strip() != right.strip() and wanted & set(TOKEN.findall(other_right)) <= set(names):
                mine.append((f"answers as clause {number}", in_place(own, left + other_right)))
        lists.append(mine)
    return in_turns(sorted(lists, key=len, reverse=True))


def changes_of_fields(numbers, lines, scope):
    """The changes of a record's fields, or of what a family's constructors want."""
    lists = []
    starts = [at for at in numbers[1:] if re.match(r"\s+(pub )?\S+ : ", lines[at])]
    for at, end in zip(starts, [*starts[1:], numbers[-1] + 1]):
        own = [x for x in range(at, end) if x in numbers and not lines[x].strip().startswith("--")]
        head, text = re.match(r"(?s)(\s+(?:pub )?\S+ : )(.*)$", "\n".join(lines[x] for x in own)).groups()
        bound = re.findall(r"[\w'-]+", " ".join(re.findall(r"\(([^():]*) :", lines[numbers[0]])))
        name = head.replace("pub ", "").split()[0]
        lists.append([(f"{name}: {word}", in_place(own, head + new)) for word, new in other_texts(text, True, bound, scope)])
    return in_turns(sorted(lists, key=len, reverse=True))


def changes(definition, numbers, lines, scope):
    """The changes of a definition, whose lines have these numbers: each with a word on it, and with the new text of lines."""
    if re.search(r"record|data", definition.kind):
        return changes_of_fields(numbers, lines, scope)
    return changes_of_clauses(definition, numbers, lines, scope)
