"""Why a plan is as it is: what goes forward, what keeps a stage sequential, and which loads are checked."""
import collections


def ways(edges, start):
    """The edges by which each site is reached from one, on a shortest walk."""
    after = collections.defaultdict(list)
    for edge in edges:
        after[edge.start].append(edge)
    found, waiting = {start: None}, collections.deque([start])
    while waiting:
        for edge in after[waiting.popleft()]:
            if edge.end not in found:
                found[edge.end] = edge
                waiting.append(edge.end)
    return found


def walk(edges, start, end):
    """A shortest walk between two sites, or None."""
    found = ways(edges, start)
    if end not in found:
        return None
    steps, site = [], end
    while site != start:
        steps.append(found[site])
        site = found[site].start
    return steps[::-1]


def shortest_cycle(plan, stage):
    """The shortest cycle of a stage with an edge that an earlier iteration begins, or else such an edge alone."""
    inside = [edge for edge in plan.minded if edge.start in stage.sites and edge.end in stage.sites]
    carried = [edge for edge in inside if edge.kind == "carried"]
    cycles = [[edge, *back] for edge in carried if (back := walk(inside, edge.end, edge.start)) is not None]
    if cycles:
        return min(cycles, key=len)
    return carried[:1]


def forward(plan, number):
    """What stages up to this one tell later ones: edges by the variable that they pass on, or by a condition's site."""
    passed = collections.defaultdict(list)
    for edge in plan.forward[number]:
        passed[("condition", edge.start) if edge.kind == "control" else ("variable", edge.variable)].append(edge)
    return dict(passed)


def stale(plan):
    """The pairs by which an iteration may be executed again: the store may come first in the source."""
    near = {(edge.start, edge.end) for edge in plan.edges if edge.kind != "control"}
    return [(load, store) for load, store in plan.compared if (store, load) in near]


def of_another_plan(plan, explained, tree):
    """A plan of a file: what doesn't depend on the plan is that of the least one of its region, and the rest is worked out."""
    plan.edges, plan.minded, plan.units = explained.edges, explained.minded, explained.units
    plan.runs, plan.flows = explained.runs, explained.flows
    for number in range(1, len(plan.stages)):
        plan.forward[number] = [edge for edge in plan.minded if plan.stage_of(edge.start) <= number < plan.stage_of(edge.end)]
    near = {(edge.start, edge.end, edge.kind) for edge in plan.edges}
    sites = sorted(site for stage in plan.stages for site in stage.sites)
    plan.compared = [(load, store) for load in sites for store in sites if is_compared(plan, tree, near, tree.sites[load], tree.sites[store])]
    plan.checked = {load for load, _ in plan.compared}


def is_compared(plan, tree, near, load, store):
    if store.stores not in load.loads:
        return False
    here, there = plan.stage_of(load.number), plan.stage_of(store.number)
    is_local = tree.variables[store.stores].region == plan.region
    carried = (store.number, load.number, "carried") in near
    if there > here:
        return plan.version == 1 or is_local or carried or (store.number, load.number, "intra") in near
    return there == here and plan.stages[here - 1].kind == "par" and not is_local and (plan.version == 1 or carried)
