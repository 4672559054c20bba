#!/usr/bin/env python3
"""Writes the contracts into crates/fancy_regex/CALLING.md, as the sources have them, or says whether they differ.

    tools/calling.py           ends with status 1 if the page differs from the sources
    tools/calling.py --write   writes the section "Contracts" anew
"""

import re
import sys
from pathlib import Path

CRATES = Path(__file__).resolve().parent.parent / "crates"
PAGE = CRATES / "fancy_regex/CALLING.md"
HEAD = "## Contracts\n"

# file, the type that the functions belong to, and the functions
QUOTED = [
    ("fancy_core/src/regex.rt", "Regex", ["new", "as_str", "captures_len", "is_easy", "code_len", "can_search"]),
    ("fancy_core/src/regex.rt", "Regex", ["find", "find_from_pos", "find_input", "find_input_counted", "is_match"]),
    ("fancy_core/src/capturing.rt", "Regex", ["captures", "captures_input"]),
    ("fancy_core/src/captures/views.rt", "Captures", ["get", "len"]),
    ("fancy_core/src/captures/named.rt", "Captures", ["name"]),
    ("fancy_core/src/iter.rt", "Regex", ["find_iter", "find_iter_input"]),
    ("fancy_core/src/iter/captures.rt", "Regex", ["captures_iter"]),
    ("fancy_core/src/split.rt", "Regex", ["split"]),
    ("fancy_core/src/replace.rt", "Regex", ["replace_all", "try_replacen_by"]),
    ("fancy_regex/src/options.rt", "RegexOptionsBuilder", ["new", "build", "case_insensitive"]),
    ("fancy_regex/src/escapes.rt", "", ["escape"]),
    ("fancy_regex/src/set.rt", "RegexSet", ["new", "can_search"]),
    ("fancy_regex/src/set/matches.rt", "RegexSet", ["find_input"]),
    ("fancy_regex/src/tokens.rt", "RegexSet", ["tokens"]),
    ("fancy_regex/src/tokens.rt", "Tokens", ["place"]),
    ("fancy_regex/src/laws.rt", "", ["tokens_cut_the_text"]),
]

CLAUSE = re.compile(r"^\s+(requires|ensures)\*? *(\w+)? *\{(.*)\}$", re.S)


def squeezed(text):
    """A text on one line, with no blank and no comma before what closes."""
    line = re.sub(r"\s+", " ", text).strip()
    return re.sub(r",? ?\)", ")", line.replace("( ", "("))


def quote(source, owner, name):
    """The signature and the clauses of a public function."""
    lines = source.split("\n")
    start = next(at for at, line in enumerate(lines) if re.match(rf"\s*pub fn {name}\b", line))
    end = next(at for at in range(start, len(lines)) if re.match(r"\s*\{\}?$", lines[at]))
    signature, clauses = [], []
    for line in lines[start:end]:
        if re.match(r"\s+(requires|ensures)\b", line):
            clauses.append(line)
        elif clauses:
            clauses[-1] += " " + line.strip()
        else:
            signature.append(line)
    prefix = f"fn {owner}::{name}" if owner else f"fn {name}"
    yield re.sub(rf"pub fn {name}\b", prefix, squeezed("\n".join(signature)), count=1)
    for clause in clauses:
        kind, label, fact = CLAUSE.match(clause).groups()
        yield f"  {kind} {label}: {fact.strip()}" if label else f"  {kind}: {fact.strip()}"


def contracts():
    for path, owner, names in QUOTED:
        source = (CRATES / path).read_text()
        for name in names:
            yield from quote(source, owner, name)


def main():
    page = PAGE.read_text()
    before, section = page.split(HEAD)
    introduction = section[: section.index("```text\n")]
    wanted = before + HEAD + introduction + "```text\n" + "\n".join(contracts()) + "\n```\n"
    if "--write" in sys.argv:
        PAGE.write_text(wanted)
    elif wanted != page:
        print("The contracts on the page differ from the sources: run tools/calling.py --write.")
        return 1
    print("Each contract is as its source has it.")
    return 0


if __name__ == "__main__":
    sys.exit(main())
