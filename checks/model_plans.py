"""Plans of regions as docs/FORMATS.md has them, the sites that are checked under them, and least plans, as docs/MEANING.md
says. A program is one of small_c.py, so calls are expanded in it, and a `for` is a `while`."""
import itertools


class Plan:
    """The plan of a region: whether each stage is replicated, the stage of each site, what is assumed, and the most words."""

    def __init__(self, version, words):
        self.version, self.words, self.replicated, self.stage, self.assumed = version, words, [None], {}, {}

    def add(self, kind, numbers):
        if kind == "assume":
            self.assumed[numbers[0]] = numbers[1]
            return
        self.stage.update((number, len(self.replicated)) for number in numbers)
        self.replicated.append(kind == "par")


def read_plans(text):
    """The plan of each region, in order."""
    plans, version = [], 0
    for kind, *words in map(str.split, text.splitlines()):
        if kind == "plan":
            version = int(words[0])
        elif kind == "region":
            plans.append(Plan(version, int(words[2])))
        elif kind != "end":
            plans[-1].add(kind, list(map(int, words)))
    return plans


class Access:
    """What a site loads and stores, as variables, and the conditions around it, as numbers."""

    def __init__(self, site):
        self.site, self.kind, self.stores = site, site.kind, site.target
        self.loads = {variable for variable, _ in site.loads}
        self.around = [around.number for around in site.around]


class Accesses:
    """Those of a region's sites, and which of them lie apart."""

    def __init__(self, program, region):
        self.number, self.numbers, self.first = region.number, region.sites(), region.condition.number
        self.sites = {number: Access(program.sites[number]) for number in self.numbers}
        self.locals = {site.stores for site in self.sites.values() if site.stores and site.stores.region == region.number}
        self.storing = {}
        for number, site in self.sites.items():
            self.storing.setdefault(site.stores, []).append(number)

    def moved(self, variable):
        """By how much each iteration moves the variable, and at which site, or None."""
        storing = self.storing.get(variable, [])
        if len(storing) != 1 or variable in self.locals:
            return None
        site = self.sites[storing[0]].site
        moves = site.stride and site.stride[0] is variable and not site.place and not site.around and site.stride[1]
        return (moves, storing[0]) if moves else None

    def way(self, start, to, index):
        """How far it is from the place of a load to that of a store, seen from the start of an iteration, and the stride, or
        None."""
        stored = self.sites[start].site.stored_at
        if not index or not stored or index[0] is not stored[0] or not self.moved(index[0]):
            return None
        stride, mover = self.moved(index[0])
        return stored[1] - index[1] + stride * ((start > mover) - (to > mover)), stride

    def is_never_reached(self, way):
        """No number of strides from 1 on leads from the load's place to the store's."""
        return way is not None and (way[0] * way[1] <= 0 or way[0] % way[1] != 0)

    def one_loop(self, start, to):
        """Whether an inner `while` is around both."""
        both = set(self.sites[start].around + [start]) & set(self.sites[to].around + [to])
        return any(self.sites[number].kind == "while" and number != self.first for number in both)

    def apart(self, start, to):
        """Whether no store at the one site is to what the other loads in a later iteration, and in the same one."""
        variable = self.sites[start].stores
        ways = [self.way(start, to, index) for loaded, index in self.sites[to].site.loads if loaded is variable]
        return all(map(self.is_never_reached, ways)), all(way and way[0] for way in ways)

    def needs_check(self, plan, to, variable, index, start):
        """Whether this load at site `to` can see another value because of the store at site `start`."""
        later = plan.stage[start] > plan.stage[to]
        own = plan.stage[start] == plan.stage[to] and plan.replicated[plan.stage[to]] and variable not in self.locals
        if not later and not own:
            return False
        way = self.way(start, to, index)
        if plan.version == 1 or not self.is_never_reached(way):
            return True
        return later and way[0] == 0 and (to >= start or self.one_loop(start, to))

    def checked(self, plan):
        """The numbers of the checked sites."""
        return {to for to in self.numbers for variable, index in self.sites[to].site.loads for start in self.storing.get(variable, [])
                if self.needs_check(plan, to, variable, index, start)}


class LeastPlan:
    """The search for a region's least plan: through every cut of its units, and every choice of replicated stages. Without a
    profile no site has runs."""

    def __init__(self, accesses, profile=None, rate=10):
        self.sites, self.numbers, self.first = accesses.sites, accesses.numbers, accesses.first
        self.accesses, self.profile, self.rate = accesses, profile, rate
        self.chosen = {number: outcome for number in self.numbers for outcome in self.outcomes(number)}
        self.edges = set(self.control()) | set(self.flow())
        self.order = self.ordered_units()
        self.weights = [sum(self.runs(number)[0] if profile else 1 for number in unit) for unit in self.order]
        place = {number: at for at, unit in enumerate(self.order) for number in unit}
        self.carried = [(place[start], place[to]) for start, to, kind in self.edges if kind == "carried"]

    def runs(self, number):
        """How often a site was evaluated, and how often its condition was other than 0."""
        return self.profile.runs[number] if self.profile else (0, 0)

    def is_rare(self, count, number):
        """Whether the count is at most the rate, in thousandths of the site's runs, and it ran."""
        runs = self.runs(number)[0]
        return runs > 0 and count * 1000 <= self.rate * runs

    def outcomes(self, number):
        """The outcome of a condition that may be assumed, if any."""
        runs, nonzero = self.runs(number)
        often = {0: runs - nonzero, 1: nonzero}
        may = [outcome for outcome in (0, 1) if self.is_rare(often[1 - outcome], number)]
        if self.sites[number].kind == "if" and may:
            yield max(may, key=lambda outcome: often[outcome])

    def control(self):
        for to in self.numbers:
            if to != self.first:
                yield self.first, to, "control"
            yield from ((start, to, "control") for start in self.sites[to].around if start not in self.chosen)

    def flow(self):
        for start, to in itertools.product(self.numbers, self.numbers):
            variable = self.sites[start].stores
            if variable is None or variable not in self.sites[to].loads:
                continue
            later, within = self.accesses.apart(start, to)
            may = {"intra": (start < to or self.accesses.one_loop(start, to)) and not within,
                   "carried": variable not in self.accesses.locals and not later}
            for kind in (it for it in may if may[it]):
                if not self.is_rare(self.profile.flows.get((start, to, kind), 0) if self.profile else 0, to):
                    yield start, to, kind

    def ordered_units(self):
        """The sites that lead to each other, each time those with the least site that wait for none."""
        reach, grown = {number: {number} for number in self.numbers}, True
        while grown:
            grown = False
            for (start, to, _), found in itertools.product(self.edges, reach.values()):
                if start in found and not reach[to] <= found:
                    found |= reach[to]
                    grown = True
        units = {frozenset(b for b in reach[a] if a in reach[b]) for a in reach}
        order = []
        while units:
            waiting = {to for start, to, _ in self.edges for unit in units if start in unit and to not in unit}
            order.append(min((unit for unit in units if not unit & waiting), key=min))
            units.remove(order[-1])
        return order

    def cost(self, low, high, replicated, workers):
        weight = sum(self.weights[low:high])
        return -(-weight // workers) if replicated else weight

    def may_be_replicated(self, low, high):
        return low > 0 and not any(low <= start < high and low <= to < high for start, to in self.carried)

    def cuts(self, stages, workers):
        """Each cut as its rank and its ends. Cuts that cost more than one that was found are left out."""
        count, least = len(self.order), sum(self.weights)
        for places in (it for cuts in range(min(stages, count)) for it in itertools.combinations(range(1, count), cuts)):
            ends = list(zip((0, *places), (*places, count)))
            kinds_of = [(0, 1) if self.may_be_replicated(*end) else (0,) for end in ends]
            if any(self.cost(*end, kinds[-1], workers) > least for end, kinds in zip(ends, kinds_of)):
                continue
            for kinds in itertools.product(*kinds_of):
                cost = max(self.cost(*end, kind, workers) for end, kind in zip(ends, kinds))
                if cost <= least and not any(one and other for one, other in zip(kinds, kinds[1:])):
                    least = cost
                    yield (cost, places, sum(kinds), kinds), ends

    def lines(self, stages, workers):
        """The lines of the least plan."""
        (*_, kinds), ends = min(self.cuts(stages, workers))
        stage_of, lines = {}, ["region %d words 4096" % self.accesses.number]
        for stage, ((low, high), kind) in enumerate(zip(ends, kinds)):
            sites = sorted(number for unit in self.order[low:high] for number in unit)
            stage_of.update((number, stage) for number in sites)
            lines.append(" ".join([("seq", "par")[kind], *map(str, sites)]))
        late = {start for to in self.numbers for start in self.sites[to].around if stage_of[to] < stage_of[start]}
        return lines + ["assume %d %d" % (number, self.chosen[number]) for number in sorted(late) if number in self.chosen]


def least_plans(program, stages=4, workers=2, profile=None, rate=10):
    """The text of the least plans."""
    lines = ["plan 2"]
    for region in program.regions:
        lines += LeastPlan(Accesses(program, region), profile, rate).lines(stages, workers)
    return "\n".join(lines + ["end", ""])
