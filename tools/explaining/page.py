"""An explanation as one page of HTML without outside parts and without scripts."""
import html
import subprocess

from . import picture, terminal

COLOURS = 8

STYLE = """
:root { color-scheme: light dark; --paper: #fff; --ink: #1c1c1c; --faint: #777; --rule: #ddd; --panel: #f6f6f4;
  --s1: #dbe9ff; --s2: #d9f2d9; --s3: #ffe9c7; --s4: #f4dcf5; --s5: #d5f0f2; --s6: #f7dcd6; --s7: #e8e6c4; --s8: #e2e0ff; }
@media (prefers-color-scheme: dark) { :root { --paper: #16181c; --ink: #e4e4e0; --faint: #999; --rule: #3a3d44; --panel: #20232a;
  --s1: #1f3a5f; --s2: #1f4a2a; --s3: #5a4213; --s4: #4d2550; --s5: #174a50; --s6: #5c2a20; --s7: #4a4716; --s8: #37336b; } }
* { box-sizing: border-box }
body { margin: 0; padding: 1.5rem 2rem 4rem; background: var(--paper); color: var(--ink); font: 15px/1.5 system-ui, sans-serif }
h1, h2, h3 { font-weight: 600; line-height: 1.25 }
h1 { font-size: 1.5rem; margin: 0 0 1rem } h2 { font-size: 1.2rem; margin: 2rem 0 .5rem } h3 { font-size: 1rem; margin: 1.2rem 0 .3rem }
.both { display: grid; grid-template-columns: minmax(30rem, 3fr) minmax(18rem, 2fr); gap: 1.5rem; align-items: start }
.source { border: 1px solid var(--rule); border-radius: 6px; padding: .5rem 0; overflow-x: auto; font: 13px/1.55 ui-monospace, monospace }
.line { display: grid; grid-template-columns: 5.5rem 2.5rem auto 1fr; padding: 0 .8rem; white-space: pre; outline-offset: -2px;
  border-left: .3rem solid transparent }
.line.par { border-left: .3rem double var(--ink) }
.line:hover, .line:focus { outline: 2px solid var(--faint) }
.number, .again { color: var(--faint); text-align: right; padding-right: .8rem }
.again { font-weight: 600 } .again:not(:empty)::after { content: "×" } .with-causes .again { min-width: 4rem }
.why { display: none; position: fixed; right: 2rem; bottom: 1.5rem; width: 30rem; max-width: 45vw; max-height: 60vh;
  overflow: auto; white-space: normal;
  background: var(--panel); color: var(--ink); border: 1px solid var(--rule); border-radius: 6px; padding: .8rem 1rem;
  font: 14px/1.45 system-ui, sans-serif; box-shadow: 0 4px 20px #0004 }
.line:hover .why, .line:focus .why { display: block }
.line:hover .why { z-index: 2 }
.why ul, ul { margin: .2rem 0; padding-left: 1.2rem } .key span { padding: .1rem .6rem; border-radius: 4px; margin-right: .4rem }
.graph { overflow-x: auto } svg { max-width: 100%; height: auto }
svg text { fill: var(--ink) }
svg polygon, svg path { stroke: var(--ink); fill: none } svg .graph > polygon { stroke: none } svg .edge polygon { fill: var(--ink) }
code { font: 13px ui-monospace, monospace }
@media (max-width: 60rem) { .both { display: block } }
"""


def safe(text):
    """Text that can't be taken for markup."""
    return html.escape(text, quote=True)


def sentence(text):
    """A sentence, with what stands between backquotes as code."""
    return "".join(f"<code>{safe(part)}</code>" if place % 2 else safe(part) for place, part in enumerate(text.split("`")))


def listed(sentences):
    return "<ul>" + "".join(f"<li>{sentence(it)}</li>" for it in sentences) + "</ul>"


def style():
    rule = ".s{0} {{ background: var(--s{0}) }} svg .stage{0} polygon:first-of-type {{ fill: var(--s{0}) }}"
    return STYLE + "\n".join(rule.format(number) for number in range(1, COLOURS + 1))


def edges_of_line(number, plans, teller):
    """The sentences on the edges of a line's sites, those that come from it and those that lead to it."""
    found = []
    for plan in plans:
        rare = set(plan.rare())
        for edge in plan.edges:
            if number in (teller.line(edge.start), teller.line(edge.end)):
                found.append(teller.edge(edge) + (" (rare by the profile)" if edge in rare else ""))
        found += [teller.check(plan, load, store) for load, store in plan.compared if teller.line(load) == number]
    return list(dict.fromkeys(found))


def line_row(number, text, marks, sentences, causes):
    stages, kinds = marks
    again = sum(count for _, count in causes.of_line(number)) if causes else 0
    told = sentences + [f"executed again {'once' if count == 1 else f'{count} times'}: {why}" for why, count in (causes.of_line(number) if causes else [])]
    classes = " ".join(["line", *([f"s{min(stages)}"] if stages else []), *(["par"] if "par" in kinds else [])])
    why = f'<div class="why"><b>line {number}</b>{listed(told)}</div>' if told else ""
    focus = ' tabindex="0"' if told else ""
    stage = ("stage " + ",".join(map(str, sorted(stages)))) if stages else ""
    cells = f'<span>{stage}</span><span class="number">{number}</span><span class="again">{again or ""}</span>'
    return f'<div class="{classes}"{focus}>{cells}<span>{safe(terminal.shown(text))}</span>{why}</div>'


def marks_of_lines(plans, tree):
    """The stages of each line, with their kinds."""
    found = {}
    for plan in plans:
        for line, numbers in terminal.stages_of_lines(plan, tree).items():
            stages, kinds = found.setdefault(line, (set(), set()))
            stages |= numbers
            kinds |= {plan.stages[number - 1].kind for number in numbers}
    return found


def graph(plans, tree):
    """The picture as SVG, without its first lines; a note where Graphviz is missing."""
    text = "\n".join(picture.dot(plans, tree))
    try:
        drawn = subprocess.run(["dot", "-Tsvg"], input=text, stdout=subprocess.PIPE, text=True, check=True).stdout
    except (OSError, subprocess.CalledProcessError):
        return "<p>Graphviz's <code>dot</code> isn't here, so there is no picture.</p>"
    return drawn[drawn.index("<svg"):]


def region_part(plan, tree, teller):
    yield f"<h2>Region {plan.region}, line {tree.regions[plan.region][0]}</h2>"
    for number, stage in enumerate(plan.stages, 1):
        kind = "several workers" if stage.kind == "par" else "one thread"
        yield f'<h3 class="key"><span class="s{number}">stage {number}</span> {kind}, weight {plan.weight(stage)}</h3>'
        if stage.kind == "seq":
            yield "<div>Kept so:</div>" + listed(teller.kept(plan, number))
        if number < len(plan.stages):
            yield f"<div>Goes forward to stage {number + 1}:</div>" + listed(teller.boundary(plan, number))


def page(name, source, plans, tree, teller, causes):
    marks = marks_of_lines(plans, tree)
    yield f"""<!doctype html>
<html lang="en"><head><meta charset="utf-8"><meta name="viewport" content="width=device-width">
<meta http-equiv="Content-Security-Policy" content="default-src 'none'; style-src 'unsafe-inline'">
<title>The plan of {safe(name)}</title><style>{style()}</style></head><body>
<h1>The plan of {safe(name)}</h1><div class="both"><div class="source{' with-causes' if causes else ''}">"""
    for number, text in enumerate(source, 1):
        yield line_row(number, text, marks.get(number, (set(), set())), edges_of_line(number, plans, teller) if number in marks else [], causes)
    yield "</div><div>"
    for plan in plans:
        yield from region_part(plan, tree, teller)
    if causes:
        yield f"<h2>Executed again: {causes.total}</h2>" + listed([it.strip() for it in list(terminal.causes_text(causes))[1:]])
    yield "</div></div>"
    if plans:
        yield f'<h2>The stages</h2><div class="graph">{graph(plans, tree)}</div>'
    yield "</body></html>"
