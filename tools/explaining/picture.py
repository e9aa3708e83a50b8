"""Plans as text for Graphviz."""
from . import reasons


def quoted(*lines):
    signs = {'"': '\\"', "\\": "\\\\"}
    return '"' + "".join("".join(signs.get(letter, letter) for letter in line) + "\\l" for line in lines) + '"'


def names(plan, tree, number):
    """The variables that go forward behind a stage; outcomes of conditions go with them, and aren't drawn."""
    return sorted({tree.variables[key].name for kind, key in reasons.forward(plan, number) if kind == "variable"})


def early(plan, tree, here, behind):
    """The variables that a stage may load before one behind it has stored them."""
    stores = [store for load, store in reasons.stale(plan) if (plan.stage_of(load), plan.stage_of(store)) == (here, behind)]
    return sorted({tree.variables[tree.sites[store].stores].name for store in stores})


def region_lines(plan, tree):
    number = plan.region
    assumed = [f"assumed: site {site} {value}" for site, value in plan.assumed.items()]
    yield f"  subgraph cluster_{number} {{"
    yield f"    label={quoted(f'region {number}, line {tree.regions[number][0]}', *assumed)} labeljust=l style=dotted"
    for place, stage in enumerate(plan.stages):
        is_par = stage.kind == "par"
        title = f"stage {place + 1}, {'several workers' if is_par else 'one thread'}"
        rows = [f"{site:>3}  {tree.sites[site].text}" for site in stage.sites]
        yield f"    stage_{number}_{place} [class=\"stage{place + 1}\" label={quoted(title, '', *rows)}{' peripheries=2' if is_par else ''}]"
    yield f'    end_{number} [label={quoted("judged by value,", "committed in order")} style=rounded]'
    yield "  }"
    for place in range(len(plan.stages)):
        to = f"stage_{number}_{place + 1}" if place + 1 < len(plan.stages) else f"end_{number}"
        yield f"  stage_{number}_{place} -> {to} [label={quoted(*names(plan, tree, place + 1))}]"
        for behind in range(place + 1, len(plan.stages)):
            if found := early(plan, tree, place + 1, behind + 1):
                yield f"  stage_{number}_{behind} -> stage_{number}_{place} [label={quoted(*found)} style=dashed constraint=false]"


def dot(plans, tree):
    yield "digraph plan {"
    yield "  rankdir=LR fontname=\"monospace\" fontsize=11"
    yield '  node [shape=box fontname="monospace" fontsize=11]'
    yield '  edge [fontname="monospace" fontsize=11]'
    for plan in plans:
        yield from region_lines(plan, tree)
    yield "}"
