#!/usr/bin/env bash
# Checks the documents' links: each link to a file or a heading of the repository, and each path in backquotes that begins
# with one of its folders, leads somewhere. Prints those that don't; ends with 1 where there is one.
set -eu
cd "$(dirname "$0")/.."
python3 - <<'PY'
import re, subprocess, sys
from pathlib import Path

FOLDERS = {path.name for path in Path(".").iterdir() if path.is_dir()}
documents = [Path(name) for name in subprocess.run(["git", "ls-files", "*.md"], capture_output=True, text=True, check=True).stdout.split()]


def without_code(text):
    return re.sub(r"^```.*?^```", "", text, flags=re.S | re.M)


def anchors(path):
    """The headings of a document as links name them."""
    heads = re.findall(r"^#+ (.*)", without_code(path.read_text()), re.M)
    return {re.sub(r"[^\w\- ]", "", head.lower()).replace(" ", "-") for head in heads}


total, lost = 0, []
for document in documents:
    text = without_code(document.read_text())
    for target in re.findall(r"\]\(([^)\s]+)\)", text):
        if "://" in target:
            continue
        total += 1
        name, _, heading = target.partition("#")
        path = document.parent / name if name else document
        if not path.exists() or heading and heading not in anchors(path):
            lost.append(f"{document}: {target}")
    for name in re.findall(r"`([\w.-]+/[\w./-]*)`", text):
        if name.split("/")[0] in FOLDERS:
            total += 1
            if not Path(name).exists():
                lost.append(f"{document}: {name}")
print("\n".join(lost) + "\n" * bool(lost) + f"{total - len(lost)} of {total} links lead somewhere")
sys.exit(bool(lost) or not total)
PY
