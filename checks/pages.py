#!/usr/bin/env python3
"""Looks at what tools/explain.py makes: that the pages of programs whose comments and names of files are markup have the tags
of pages of plain programs and no other, and that what it works out for plans of files is what `explain` writes of least plans.

  checks/pages.py

Shows each difference; ends with 1 where there is one. Needs Graphviz's `dot`.
"""
import html.parser
import subprocess
import sys
import tempfile
from pathlib import Path

sys.dont_write_bytecode = True
TOP = Path(__file__).resolve().parent.parent
sys.path.insert(0, str(TOP / "tools"))
from explaining import plans, reasons, tree
from worked_runs import dswp

PROGRAM = """int h[4]; // %s
int main() { /* %s */
  int i = 0;
  #pragma dswp
  while (i < input_len) { /* %s */
    h[i %% 4] = h[i %% 4] + 1 < 2 && 3 > 1; i = i + 1; }
}
"""
PLAIN = ("a comment", "more", "and more")
HOSTILE = ("</span></div><script>alert(1)</script><img src=x onerror=alert(2)>", "</style></body> ]]> --> <svg onload=alert(3)>", '"];} \\"\\l\n<b>&amp;\'`')
NAMES = ("plain.c", "<b onclick=a>&\"'`.c")


class Tags(html.parser.HTMLParser):
    """The tags of a page, each with the names of its attributes."""

    def __init__(self, text):
        super().__init__()
        self.found = []
        self.feed(text)

    def handle_starttag(self, tag, attributes):
        self.found.append((tag, *(name for name, _ in attributes)))


def tags(name, texts):
    with tempfile.TemporaryDirectory() as work:
        program, page = Path(work) / name, Path(work) / "page.html"
        program.write_text(PROGRAM % texts)
        subprocess.run([TOP / "tools/explain.py", program, "--html", page], check=True, stderr=subprocess.DEVNULL)
        return Tags(page.read_text()).found


def is_as_plain():
    wanted = tags(NAMES[0], (*PLAIN[:2], PLAIN[2] + "\n"))
    got = tags(NAMES[1], HOSTILE)
    if got != wanted:
        print("other tags:", *(set(got) ^ set(wanted)), sep="\n")
    return got == wanted


def finds_the_same(program):
    """What is worked out for a plan of a file, of the least plan, is what `explain` writes of it."""
    read = tree.read_tree(dswp("tree", program)[0])
    for plan in plans.read_explanation(dswp("explain", program)[0]):
        own = plans.Plan(plan.region, plan.version, plan.stages, plan.assumed)
        reasons.of_another_plan(own, plan, read)
        found, wanted = ((it.checked, it.compared, dict(it.forward)) for it in (own, plan))
        wanted = (*wanted[:2], {number: wanted[2].get(number, []) for number in found[2]})
        if found != wanted:
            print(f"{program}: found {found}, and written are {wanted}")
            return False
    return True


def main():
    subprocess.run([TOP / "dswp", "--prove"], check=True)
    results = [is_as_plain()] + [finds_the_same(program) for program in sorted(TOP.glob("examples/*.c"))]
    print(f"{sum(results)} of {len(results)} as they should be")
    sys.exit(not all(results))


if __name__ == "__main__":
    main()
