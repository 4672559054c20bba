#!/usr/bin/env python3
"""Compares the tables of docs/COMING_FROM.md with the rows that the gate asks, crates/calls/rows.txt.

    tools/coming.py   says which result of the page no row has, and ends with status 1 if there is one

A row of the page has a pattern, the text that it is asked on, and what is found; what to write instead stands likewise, as
`PATTERN`: RESULT, with `OPTION` or on `TEXT` between them. A pattern that is refused has the name of its error. A table without
the column Here is not compared.
"""

import re
import sys

import facade
import rows

PAGE = facade.CRATES.parent / "docs/COMING_FROM.md"
ERRORS = facade.CRATES / "fancy_tree/src/error.rt"
CONTROLS = {r"\n": "\n", r"\t": "\t", r"\v": "\x0b", r"\0": "\0"}
RESULT = r"none|nothing|\d+\.\.\d+(?:, \d+\.\.\d+)*(?: \([^)]*\))?"
INSTEAD = re.compile(rf"`([^`]+)`(?: with `(\w+)`)?(?: on `([^`]+)`)?: ({RESULT})")
WORDS = re.compile(r'#\[error\("([^"]*)"\)\]\n    (\w+)')


def cells(line):
    return [one.strip().replace(r"\|", "|") for one in re.split(r"(?<!\\)\|", line)[1:-1]]


def told(place):
    return "%d..%d" % place if isinstance(place, tuple) else "none"


def asked():
    """What the gate asks: of each pattern, text and options the results that are wanted; refusals and templates likewise."""
    found, refused, expanded = {}, {}, {}
    for _, (kind, *fields) in rows.rows():
        if kind == "refused":
            refused[fields[0]] = fields[1].split(": ")[-1]
        elif kind == "expand":
            expanded[tuple(fields[:3])] = fields[3]
        elif kind == "expand as in Python":
            expanded[tuple(fields[:3])] = fields[4]
        elif kind in ("find", "matches", "captures") and not isinstance(fields[2], dict):
            pattern, text, wanted, *options = fields
            if kind == "matches" and wanted:
                wanted = ", ".join(map(told, wanted))
            elif kind == "captures" and wanted:
                wanted = told(wanted[0]) + (" (%s)" % ", ".join(map(told, wanted[1:])) if wanted[1:] else "")
            else:
                wanted = told(wanted)
            found.setdefault((pattern, text, *options), set()).add(wanted)
    return found, refused, expanded


def text_of(cell):
    for written, control in CONTROLS.items():
        cell = cell.replace(written, control)
    return cell


def code_in(cell):
    return re.findall(r"`([^`]+)`", cell)


def faults(header, line, found, refused, expanded, kinds):
    """What a row of the page says that no row of the gate does."""
    row = dict(zip(header, cells(line)))
    written, here = code_in(row[header[0]]), row["Here"]
    text = text_of(code_in(row["On"])[0]) if "On" in row else None
    if "Match of" in row:
        pattern, text = code_in(row["Match of"])
        wanted = [(written[0], "" if here.startswith("nothing") else code_in(here)[0])]
        wanted += re.findall(r"`([^`]+)`: `([^`]+)`", row["Write"])
        yield from (one for one in wanted if expanded.get((pattern, text, one[0])) != one[1])
        return
    if "On" in row:
        result = re.match(RESULT, here).group(0)
        if result not in found.get((written[0], text), ()):
            yield written[0], text, result
    else:
        for pattern in written:
            if refused.get(pattern) != kinds[code_in(here)[0]]:
                yield pattern, here
    for pattern, option, other, result in INSTEAD.findall(row["Write"]):
        key = (pattern, text_of(other) if other else text, *([option] if option else []))
        if result not in found.get(key, ()):
            yield (*key, result)


def main():
    kinds = {name: words for words, name in WORDS.findall(ERRORS.read_text())}
    kinds |= {name: words for words, name in re.findall(r'#\[error\("([^"]*)"\)\]\n    (\w+)\(', ERRORS.read_text())}
    known, header, count, lacking = asked(), None, 0, []
    for line in PAGE.read_text().split("\n"):
        if not line.startswith("|"):
            header = None
        elif header is None:
            header = cells(line)
        elif "Here" in header and not line.startswith("|---"):
            count += 1
            lacking += faults(header, line, *known, kinds)
    for one in lacking:
        print("no row of rows.txt says this:", *map(repr, one))
    if not lacking:
        print("Each of the %d rows of docs/COMING_FROM.md is asked by the gate." % count)
    return 1 if lacking else 0


if __name__ == "__main__":
    sys.exit(main())
