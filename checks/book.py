#!/usr/bin/env python3
"""Prints the book: the definitions that the headline rests on, in reading order, from the contract of `drive` down. Each
stands once, under its file, with its line. The first part is what a call answers, given its words, the program that
its text is read as, the input, the plans and what is reported of each region; the later parts say what that is, and how
texts are read and made. Each part ends with its number of lines. Ends with 1 where a part has too many.

  checks/book.py [--names] [--counts]     the whole text, the places alone, or the numbers alone

It follows names from definition to definition, and not whole files. Those of the kit's libraries aren't followed.
"""
import sys

sys.dont_write_bytecode = True
from citations import cites
from definitions import CRATES, TOP, Definition, antt, rt, rust_items

# lines of definitions in a part; comments are counted apart, and attributes of types are left out
LIMIT = 1500
# each later part, and the definitions that it begins with
LATER = [
    ("What is reported of a region", [("dp_semantics/specs/Reported", "region_report"), ("dp_semantics/specs/Recovery", "recovered")]),
    ("What is written of logs, saved runs and batches", [
        ("dp_drive/specs/Audit", "log_of"), ("dp_drive/specs/Audit", "first_difference"), ("dp_drive/specs/Pieces", "saved_text"),
        ("dp_drive/specs/Pieces", "saved_status"), ("dp_drive/specs/Pieces", "resumed_text"), ("dp_drive/specs/Pieces", "resumed_end"),
        ("dp_batch/specs/BatchText", "texts_from"),
    ]),
    ("Which texts are programs", [("dp_load/specs/Program", "Reads")]),
    ("How words, inputs, plans and profiles are read and made", [
        ("dp_words/specs/Words", "Asks"), ("dp_words/specs/Words", "AsksNothing"), ("dp_load/specs/Inputs", "input_of"),
        ("dp_load/specs/Plans", "ReadsPlans"), ("dp_load/specs/Plans", "MakesPlans"), ("dp_load/specs/Profiles", "ReadsProfile"),
        ("dp_load/specs/Last", "LastOf"), ("dp_load/specs/Lists", "Inputs"), ("dp_load/specs/Lists", "IsNextListed"),
        ("dp_profile/specs/Observed", "observed"), ("dp_plan_text/specs/WrittenText", "plans_text"),
        ("dp_profile_text/specs/WrittenText", "profile_text"), ("dp_report/specs/SiteText", "site_bytes"),
        ("dp_tree_text/specs/TreeText", "tree_bytes"), ("dp_explain/specs/Explanation", "IsExplanation"), ("dp_refusal/specs/Refusal", "refusal_line"),
    ]),
]


def headline():
    """The contract of `drive`, and the traits of what it reads and writes."""
    drive = rt(CRATES / "dp_drive/src/answer.rt").own["drive"]
    contract = drive.lines[:drive.lines.index("{")]
    outside = [rust_items("dp_edge")[name][0] for name in ("Shelf", "Sink")]
    return [Definition(drive.kind, drive.name, drive.source, drive.first, contract, drive.comments)] + outside


def reached(begin, but):
    """The definitions, in the order in which a reader meets them: behind each one those that it cites."""
    order, waiting = {}, list(begin)
    while waiting:
        definition = waiting.pop(0)
        if definition not in order and definition not in but:
            order[definition] = True
            waiting = cites(definition) + waiting
    return list(order)


def book():
    """The parts, each with its title and its definitions."""
    later = [(title, [antt(CRATES / f"{file}.antt").own[name] for file, name in begin]) for title, begin in LATER]
    parts, before = [], []
    for title, begin in [("What a call answers", headline())] + later:
        waits = [definition for other, heads in later if other != title for definition in heads]
        part = reached(begin, set(before + waits) - set(begin))
        parts.append((title, part))
        before += part
    return parts


def chapters(order):
    """The same, file by file: a file where its first definition is met, and its definitions as they stand there."""
    files = {}
    for definition in order:
        files.setdefault(definition.source.path, []).append(definition)
    return [sorted(group, key=lambda definition: definition.first) for group in files.values()]


def lines_of(definition):
    return [line for line in definition.lines if line.strip() and not line.startswith("#[")]


def counts(order):
    """The number of lines, and the number of comments."""
    lines = [line for definition in order for line in lines_of(definition)]
    comments = sum(line.lstrip().startswith(("--", "//")) for line in lines)
    return len(lines) - comments, comments


def show(chapter):
    print(f"==== {chapter[0].source.path.relative_to(TOP)}\n")
    for definition in chapter:
        if "--names" in sys.argv:
            print(f"{definition.place}  {definition.name}")
        else:
            blocks = [head.strip() for head in definition.inside if head.lstrip().startswith("module")]
            print(f"-- {definition.place}", *blocks, *lines_of(definition), "", sep="\n")
    print()


def main():
    sums, status = [0, 0, 0], 0
    for title, order in book():
        if "--counts" not in sys.argv:
            print(f"######## {title}\n")
            for chapter in chapters(order):
                show(chapter)
        lines, comments = counts(order)
        print(f"{title}: {len(order)} definitions of {len(chapters(order))} files, {lines} lines and {comments} of comments")
        sums = [a + b for a, b in zip(sums, (len(order), lines, comments))]
        status |= lines > LIMIT
    print(f"In all: {sums[0]} definitions, {sums[1]} lines and {sums[2]} of comments; a part has at most {LIMIT} lines")
    return status


if __name__ == "__main__":
    sys.exit(main())
