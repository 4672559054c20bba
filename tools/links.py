#!/usr/bin/env python3
"""Says which links of the pages lead nowhere: to no file, or to no heading of one. It ends with status 1 if one does.

    tools/links.py

It reads every page (`*.md`) of the repository, and the lines of sources that name a page of docs/.
"""

import re
import subprocess
import sys
from pathlib import Path

ROOT = Path(__file__).resolve().parent.parent
LINK = re.compile(r"\[[^\]\[]*(?:\[[^\]]*\][^\]\[]*)*\]\(([^)\s]+)\)", re.S)
HEADING = re.compile(r"^#+ (.+)$", re.M)
CODE = re.compile(r"^```.*?^```$", re.M | re.S)
NAMED = re.compile(r"docs/(\w+\.md)")


def anchor(heading):
    """The anchor that a heading has: small letters, hyphens for blanks, and no other marks."""
    return re.sub(r"[^\w\- ]", "", heading.replace("`", "").lower()).replace(" ", "-")


def anchors(path):
    return {anchor(heading) for heading in HEADING.findall(CODE.sub("", path.read_text()))}


def faults(path):
    text = CODE.sub("", path.read_text())
    for link in LINK.findall(text):
        if re.match(r"[a-z]+:", link):
            continue
        target, _, heading = link.partition("#")
        page = (path.parent / target).resolve() if target else path
        if not page.exists():
            yield f"{path.relative_to(ROOT)}: no file {link}"
        elif heading and page.suffix == ".md" and heading not in anchors(page):
            yield f"{path.relative_to(ROOT)}: no heading {link}"


def main():
    files = subprocess.run(["git", "ls-files", "-co", "--exclude-standard"], cwd=ROOT, text=True, capture_output=True, check=True)
    files = [ROOT / name for name in files.stdout.split("\n") if name]
    found = [fault for path in files if path.suffix == ".md" and path.exists() for fault in faults(path)]
    for path in files:
        if path.suffix in (".rt", ".antt", ".py", ".txt") and path.exists():
            for name in sorted(set(NAMED.findall(path.read_text()))):
                if not (ROOT / "docs" / name).exists():
                    found.append(f"{path.relative_to(ROOT)}: no page docs/{name}")
    print("\n".join(found) if found else "Each link leads to a file and a heading.")
    return 1 if found else 0


if __name__ == "__main__":
    sys.exit(main())
