#!/usr/bin/env python3
"""Compares the examples of the README, of the guide and of the page on callers with the texts that the gate builds and runs.

    tools/readme.py           says which example differs, and ends with status 1 if one does
    tools/readme.py --write   puts the text of the source in the place of each function that differs

Each block of Rust is a whole file, or functions that stand in a file one after another. The table with the columns Pattern, Text
and Finds is compared with the rows that the gate asks, crates/calls/rows.txt, and the output of the program with what the gate
wants it to print.
"""

import re
import sys
from pathlib import Path

import rows

ROOT = Path(__file__).resolve().parent.parent
PAGES = [ROOT / "README.md", ROOT / "docs/GUIDE.md", ROOT / "crates/fancy_regex/CALLING.md"]
EXAMPLES = [ROOT / "crates/examples/src/searches.rt", ROOT / "crates/examples/src/texts.rt"]
PROGRAM = ROOT / "crates/dates"
SOURCES = [
    *EXAMPLES,
    ROOT / "crates/examples/src/callers.rt",
    *sorted(PROGRAM.glob("src/*.rt")),
]

BLOCK = re.compile(r"^```(\w+)\n(.*?)^```$", re.M | re.S)
FUNCTION = re.compile(r"^(?:///[^\n]*\n|#\[[^\n]*\]\n)*(?:pub )?fn (\w+)\b.*?^}\n", re.M | re.S)
ROW = re.compile(r"^\| `(.+?)` \| `(.+?)` \| (?:(\d+)\.\.(\d+)|none) \|$", re.M)


def functions_of(text):
    """The text of each function of a source, by its name."""
    return {found.group(1): found.group(0) for found in FUNCTION.finditer(text)}


def is_in_a_source(example, sources):
    return any(source == example or f"\n\n{example}\n" in source or source.endswith(f"\n\n{example}") for source in sources)


def renewed(page, functions):
    """The page with the text of the source in the place of each function that differs."""

    def renew(block):
        if block.group(1) != "rust":
            return block.group(0)
        code = FUNCTION.sub(lambda found: functions.get(found.group(1), found.group(0)), block.group(2))
        return f"```rust\n{code}```"

    return BLOCK.sub(renew, page)


def searches():
    """The searches of whole texts under the default options that the gate asks: pattern, text and match."""
    for _, (kind, *fields) in rows.rows():
        if kind == "find in" and len(fields) == 4 and fields[2] == 0:
            yield fields[0], fields[1], fields[3]


def row_of(pattern, text, start, end):
    """A row of the table as the gate asks it."""
    return pattern.replace("\\|", "|"), text.replace("\\|", "|"), (int(start), int(end)) if start else None


def differences(page, sources, asked):
    """What a page says that no source does."""
    for block in BLOCK.finditer(page):
        if block.group(1) == "rust" and not is_in_a_source(block.group(2), sources):
            yield "no source has this example:\n" + block.group(2)
    for row in ROW.finditer(page):
        if row_of(*row.groups()) not in asked:
            yield f"the gate does not ask this row: {row.group(0)}"


def missing_output(readme):
    """What the program prints, and its line in crates.txt, if the README lacks them."""
    texts = [block.group(2) for block in BLOCK.finditer(readme) if block.group(1) == "text"]
    if (PROGRAM / "stdout").read_text() not in texts:
        yield "the README lacks what the program prints:\n" + (PROGRAM / "stdout").read_text()
    for line in (ROOT / "crates.txt").read_text().splitlines():
        if line.startswith(f"{PROGRAM.name}:") and f"`{line}`" not in readme:
            yield "the README lacks this line: " + line


def main():
    sources = [path.read_text() for path in SOURCES]
    functions = {name: text for source in sources for name, text in functions_of(source).items()}
    asked, found = [*searches()], []
    for path in PAGES:
        if not path.exists():
            continue
        page = path.read_text()
        if "--write" in sys.argv:
            page = renewed(page, functions)
            path.write_text(page)
        found += [f"{path.name}: {what}" for what in differences(page, sources, asked)]
    found += missing_output(PAGES[0].read_text())
    print("\n".join(found) if found else "Each example is as its source.")
    return 1 if found else 0


if __name__ == "__main__":
    sys.exit(main())
