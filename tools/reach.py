#!/usr/bin/env python3
"""Tells which modules of definitions a reader of public contracts meets: those that `fancy_regex` passes on, and of its own modules
those that a public contract cites, with all that these import, and so on.

    tools/reach.py [--order]   modules and lines of each crate; with --order each module first, after all that it imports
"""

import re
import sys

import facade

IMPORT = re.compile(r"^(?:pub )?use Rattle\.(\w+)\.specs\.(\w+)", re.M)


def path_of(module):
    return facade.CRATES / module[0] / "specs" / (module[1] + ".antt")


def imports_of(module):
    """The modules of the repository that a module imports; of the page of `fancy_regex` those that it passes on."""
    return [one for one in IMPORT.findall(path_of(module).read_text()) if path_of(one).exists()]


def cited_in(path, types, laws):
    """The modules that the public contracts of a source cite."""
    source = path.read_text()
    for _, _, clauses in facade.public_parts(path, types, path in laws):
        for module in facade.cited(source, clauses):
            _, crate, _, name, *_ = module.split(".")
            yield crate, name


def reached(module, order):
    """Adds a module and all that it leads to, each after what it imports."""
    if module not in order and path_of(module).exists():
        order[module] = None
        for one in imports_of(module):
            reached(one, order)
        order[module] = order.pop(module)
    return order


def main():
    order, (types, laws) = reached(("fancy_regex", "Lib"), {}), facade.re_exports()
    for path in sorted(facade.FACADE.glob("src/**/*.rt")):
        for module in cited_in(path, types, laws):
            reached(module, order)
    lines = {one: len(path_of(one).read_text().splitlines()) for one in order if one[1] != "Lib"}
    if "--order" in sys.argv:
        print("".join("%5d %s.%s\n" % (lines[one], *one) for one in lines), end="")
    for crate in [*sorted({one[0] for one in lines}), "together"]:
        some = [count for one, count in lines.items() if crate in (one[0], "together")]
        print("%s: %d modules, %d lines" % (crate, len(some), sum(some)))


if __name__ == "__main__":
    main()
