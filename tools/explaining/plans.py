"""Plans and what they rest on, as `dswp explain` writes it."""
import collections
import dataclasses


@dataclasses.dataclass(frozen=True)
class Edge:
    start: int
    end: int
    kind: str  # control, intra or carried
    variable: int | None = None


@dataclasses.dataclass
class Stage:
    kind: str  # seq or par
    sites: list


@dataclasses.dataclass
class Plan:
    region: int
    version: int
    stages: list
    assumed: dict
    edges: list = dataclasses.field(default_factory=list)
    minded: list = dataclasses.field(default_factory=list)
    checked: set = dataclasses.field(default_factory=set)
    units: list = dataclasses.field(default_factory=list)  # the weight and the sites of each, in order
    compared: list = dataclasses.field(default_factory=list)  # pairs of a site that loads and one that stores
    forward: dict = dataclasses.field(default_factory=lambda: collections.defaultdict(list))  # behind each stage, edges
    runs: dict = dataclasses.field(default_factory=dict)
    flows: dict = dataclasses.field(default_factory=dict)

    def stage_of(self, site):
        """The number of a site's stage, from 1."""
        return next(number for number, stage in enumerate(self.stages, 1) if site in stage.sites)

    def units_of(self, stage):
        """The sites of each unit of a stage."""
        return [sites for _, sites in self.units if sites[0] in stage.sites]

    def weight(self, stage):
        return sum(weight for weight, sites in self.units if sites[0] in stage.sites)

    def shown(self, edge):
        """How often the profile saw a flow."""
        return self.flows.get((edge.start, edge.end, edge.kind), 0)

    def rare(self):
        """The edges that the plan doesn't mind, since the profile saw them rarely."""
        minded = set(self.minded)
        return [edge for edge in self.edges if edge not in minded]


def read_plans(lines):
    """The plans of a text of plans, up to its end."""
    plans, version = [], 2
    for line in lines:
        head, *words = line.split()
        if head == "plan":
            version = int(words[0])
        elif head == "region":
            plans.append(Plan(int(words[0]), version, [], {}))
        elif head in ("seq", "par"):
            plans[-1].stages.append(Stage(head, [int(word) for word in words]))
        elif head == "assume":
            plans[-1].assumed[int(words[0])] = int(words[1])
        elif head == "end":
            break
    return plans


def read_edge(words):
    return Edge(int(words[0]), int(words[1]), words[2], int(words[3]) if len(words) > 3 else None)


def read_reason(plan, head, words):
    """A line of what a plan rests on."""
    if head in ("edge", "minded"):
        {"edge": plan.edges, "minded": plan.minded}[head].append(read_edge(words))
    elif head == "checked":
        plan.checked.add(int(words[0]))
    elif head == "unit":
        weight, *sites = map(int, words)
        plan.units.append((weight, sites))
    elif head == "compared":
        plan.compared.append((int(words[0]), int(words[1])))
    elif head == "forward":
        plan.forward[int(words[0])].append(read_edge(words[1:]))
    elif head == "runs":
        plan.runs[int(words[0])] = int(words[1])
    elif head == "flow":
        plan.flows[int(words[0]), int(words[1]), words[2]] = int(words[3])


def read_explanation(text):
    """The plans of a text that explains them, with what each rests on."""
    lines = iter(text.splitlines())
    plans = read_plans(lines)
    plan = None
    for head, *words in map(str.split, lines):
        if head == "region":
            plan = next(it for it in plans if it.region == int(words[0]))
        else:
            read_reason(plan, head, words)
    return plans
