#!/usr/bin/env python3
"""Tells how large the crates are, and where their contracts and functions are hard to read.

    tools/house.py [--list] [CRATE..]   a row for each crate of the library, or for these; with --list the places too

A clause is a `requires` or `ensures`; it is shared where its text stands in a second function of its crate. Lines are counted as
they stand: code in src/, definitions in specs/, lemmas in proofs/. A lemma is unused where no other line names it.
"""

import collections
import pathlib
import re
import sys

CRATES = pathlib.Path(__file__).resolve().parent.parent / "crates"
HEAD = re.compile(r"^ *(?:pub(?:\([a-z]+\))? )?fn (\w+)", re.M)
NEXT = re.compile(r"\bghost \w+: \{|\b(?:requires|ensures)(?: \w+)? \{|\{|;(?! \w+\])")
NAME = re.compile(r"[A-Za-z_][\w'-]*")
OWN = re.compile(r"^(?:pub )?([a-z_][\w'-]*)", re.M)
BLANKED = re.compile(r"""//.*|"(?:\\.|[^"\\])*"|'(?:\\u\{\w+\}|\\x..|\\.|[^'\\\n])'""")
PAIRS = {"(": ")", "[": "]", "{": "}"}
COLUMNS = ("functions", "code", "specs", "proofs", "clauses", "shared", "past 100", "past 160", "bodies past 40", "parameters past 6", "unused lemmas")


class Function:
    """A function of a source: its place, how many parameters it has, its clauses with their places, and the lines of its body."""

    def __init__(self, path, source, head):
        self.name, self.place = head.group(1), place_of(path, source, head.start())
        opened = source.index("(", head.end())
        closed = end_of(source, opened)
        self.parameters = parts(source[opened + 1:closed])
        self.clauses, at = [], closed + 1
        while (part := NEXT.search(source, at)) and part.group().startswith(("ghost", "requires", "ensures")):
            at = end_of(source, part.end() - 1) + 1
            if not part.group().startswith("ghost"):
                self.clauses.append(" ".join(source[part.start():at].split()))
        has_body = part and part.group() == "{"
        self.body = source.count("\n", part.start(), end_of(source, part.start())) - 1 if has_body else 0


def end_of(source, opened):
    """Where the bracket that opens there is closed."""
    ends, at = [], opened
    while True:
        letter = source[at]
        if letter in "([{":
            ends.append(PAIRS[letter])
        elif ends and letter == ends[-1]:
            ends.pop()
        if not ends:
            return at
        at += 1


def parts(parameters):
    """How many parameters a list has."""
    depth, commas = 0, 0
    for letter in parameters.replace("->", "").rstrip().rstrip(","):
        depth += (letter in "([{<") - (letter in ")]}>")
        commas += letter == "," and depth == 0
    return commas + bool(parameters.strip())


def place_of(path, source, at):
    return "%s:%d" % (path.relative_to(CRATES), source.count("\n", 0, at) + 1)


def bare(source):
    """The source with its comments, texts and characters blanked, so that places stay."""
    return BLANKED.sub(lambda found: re.sub(r"[^\n]", " ", found.group()), source)


def functions_of(crate):
    for path in sorted((CRATES / crate / "src").glob("**/*.rt")):
        source = bare(path.read_text())
        for head in HEAD.finditer(source):
            if source[head.end():].lstrip()[:1] in ("(", "<"):
                yield Function(path, source, head)


def lines_of(crate, folder, suffix):
    return sum(len(path.read_text().splitlines()) for path in (CRATES / crate / folder).glob("**/*" + suffix))


def wide(crate, columns):
    """The lines of contracts that are wider."""
    for path in sorted((CRATES / crate / "src").glob("**/*.rt")):
        for number, line in enumerate(path.read_text().splitlines(), 1):
            if len(line) > columns and not re.search(r"//|\buse ", line):
                yield "%s:%d  %d columns" % (path.relative_to(CRATES), number, len(line))


def words():
    """How often each name stands in all sources, definitions and lemmas."""
    paths = [path for suffix in (".rt", ".antt") for path in CRATES.glob("*/*/**/*" + suffix)]
    return collections.Counter(name for path in paths for name in NAME.findall(path.read_text()))


def unused(crate, words):
    """The lemmas of a crate that nothing names but their own lines."""
    for path in sorted((CRATES / crate / "proofs").glob("*.antt")):
        own = collections.Counter(OWN.findall(path.read_text()))
        yield from ("%s  %s" % (path.relative_to(CRATES), name) for name, lines in own.items() if words[name] <= lines)


def row(crate, words):
    """The numbers of a crate, in the order of the columns, and the places that are told with --list."""
    functions = list(functions_of(crate))
    users = collections.defaultdict(set)
    for function in functions:
        for text in function.clauses:
            users[text].add(function.place)
    clauses = [text for function in functions for text in function.clauses]
    shared = [text for text in clauses if len(users[text]) > 1]
    long = [f"{f.place}  {f.name}: {f.body} lines" for f in functions if f.body > 40]
    many = [f"{f.place}  {f.name}: {f.parameters} parameters" for f in functions if f.parameters > 6]
    wider, widest = list(wide(crate, 100)), list(wide(crate, 160))
    recurring = ["%d times  %s" % (len(places), text) for text, places in sorted(users.items(), key=lambda one: -len(one[1])) if len(places) >= 5]
    idle = list(unused(crate, words))
    lines = [lines_of(crate, *one) for one in (("src", ".rt"), ("specs", ".antt"), ("proofs", ".antt"))]
    return [len(functions), *lines, len(clauses), len(shared), len(wider), len(widest), len(long), len(many), len(idle)], [*recurring, *widest, *long, *many, *idle]


def library():
    """The crates that the public one stands on, and itself, in the order of crates.txt."""
    lines = (line.partition("#")[0].partition(":") for line in (CRATES.parent / "crates.txt").read_text().splitlines())
    below = {name.split()[0]: libraries.split() for name, colon, libraries in lines if colon}
    found, left = set(), ["fancy_regex"]
    while left:
        name = left.pop()
        if name in below and name not in found:
            found.add(name)
            left += below[name]
    return [name for name in below if name in found]


def main():
    crates = [word for word in sys.argv[1:] if not word.startswith("-")] or library()
    known = words()
    rows = {crate: row(crate, known) for crate in crates}
    print("| Crate | %s |\n|---%s|" % (" | ".join(COLUMNS), "|--:" * len(COLUMNS)))
    for crate, (numbers, _) in rows.items():
        print("| %s | %s |" % (crate, " | ".join(map(str, numbers))))
    print("| together | %s |" % " | ".join(str(sum(column)) for column in zip(*(numbers for numbers, _ in rows.values()))))
    if "--list" in sys.argv:
        print("".join("\n%s\n%s" % (crate, "".join("  %s\n" % place for place in places)) for crate, (_, places) in rows.items() if places), end="")


if __name__ == "__main__":
    main()
