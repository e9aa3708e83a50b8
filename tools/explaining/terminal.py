"""An explanation for a terminal."""


def stages_of_lines(plan, tree):
    """The stages of each line's sites."""
    stages = {}
    for number, stage in enumerate(plan.stages, 1):
        for site in stage.sites:
            stages.setdefault(tree.sites[site].line, set()).add(number)
    return stages


def mark(numbers, plan):
    """The stages of a line, as in `2` or `2,3 par`."""
    text = ",".join(map(str, sorted(numbers)))
    return text + (" par" if any(plan.stages[number - 1].kind == "par" for number in numbers) else "")


def shown(text):
    """What a terminal may be given of a text."""
    return "".join(letter if letter.isprintable() or letter == "\t" else "?" for letter in text)


def listing(source, plan, tree):
    yield f"{'stage':>9} |line"
    stages = stages_of_lines(plan, tree)
    first, last = min(stages), max(stages)
    for number, line in enumerate(source, 1):
        if first <= number <= last or number in stages:
            yield f"{mark(stages.get(number, ()), plan):>9} |{number:>4}  {shown(line)}"


def stage_text(plan, teller, number):
    stage = plan.stages[number - 1]
    held = plan.units_of(stage)
    yield f"stage {number}, {'several workers' if stage.kind == 'par' else 'one thread'}: weight {plan.weight(stage)}, {len(held)} unit{'s' * (len(held) != 1)}"
    for unit in held:
        yield f"    sites {' '.join(map(str, unit))}" if len(unit) > 1 else f"    site {unit[0]}"
    if stage.kind == "seq":
        yield "  kept so:"
        yield from (f"    {sentence}" for sentence in teller.kept(plan, number))


def region_text(source, plan, tree, teller):
    yield f"region {plan.region}, line {tree.regions[plan.region][0]}, in {len(plan.stages)} stage{'s' * (len(plan.stages) != 1)}"
    yield ""
    yield from listing(source, plan, tree)
    for number in range(1, len(plan.stages) + 1):
        yield ""
        yield from stage_text(plan, teller, number)
        if number < len(plan.stages):
            yield f"goes forward from stage {number} to {number + 1}:"
            yield from (f"    {sentence}" for sentence in teller.boundary(plan, number))
    yield from titled("assumed:", [f"the condition of line {teller.line(site)} is {'other than 0' if value else '0'}" for site, value in plan.assumed.items()])
    yield from titled("checked:", [teller.check(plan, load, store) for load, store in plan.compared])
    rare = [edge for edge in plan.rare() if edge.kind != "control"]
    yield from titled("rare by the profile:", [f"{teller.edge(edge)}: {plan.shown(edge)} times in {plan.runs[edge.end]} runs" for edge in rare])


def titled(title, sentences):
    if sentences:
        yield ""
        yield title
        yield from (f"    {sentence}" for sentence in sentences)


def causes_text(causes):
    yield f"executed again: {causes.total} iteration{'s' * (causes.total != 1)}"
    for line in causes.lines():
        for why, count in causes.of_line(line):
            often = "once" if count == 1 else f"{count} times"
            yield f"    {often} in line {line}: {why}" if line else f"    {often}: {why}"


def text(source, plans, tree, teller, causes):
    for place, plan in enumerate(plans):
        yield from [""] * (place > 0)
        yield from region_text(source, plan, tree, teller)
    if not plans:
        yield "no loop is marked"
    if causes:
        yield ""
        yield from causes_text(causes)
