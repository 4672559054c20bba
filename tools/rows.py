#!/usr/bin/env python3
"""Makes the input of crates/calls, and the output that it must have, from the rows of crates/calls/rows.txt.

    tools/rows.py           compares the files stdin and stdout beside the rows with them, and ends with status 1 if one differs
    tools/rows.py --write   writes both files

The first lines of both files are written by hand, and stay as they are. What a call must answer is worked out from its row alone.
The first lines of rows.txt say what a row of each kind means.
"""

import ast
import re
import sys
from pathlib import Path

import asking

CALLS = Path(__file__).resolve().parent.parent / "crates/calls"
# How many lines of both files are written by hand.
BY_HAND = 24
# The options that rows have, and their letters in a line. A limit stands after a comma, with its number.
LETTERS = {
    "case_insensitive": "i", "no_unicode_mode": "U", "only_named": "N", "find_not_empty": "E", "leftmost_longest": "L",
    "seek": "S", "ascii": "a", "unicode_bytes": "b", "multi_line": "m", "ignore_whitespace": "x", "dot_matches_new_line": "s",
    "crlf": "R", "overrides": "O", "anchored": "A", "no_start": "H", "no_end": "Z", "no_match_before": "G", "as_bytes": "Y",
}
LIMITS = {"backtrack_limit": "B", "stack_limit": "K", "step_limit": "W", "max_prog_size": "P", "from": "F", "to": "T"}
TOO_COMPLEX = "error compiling regex: pattern with more than 4000000 nodes, or too much code"
REFUSALS = {
    "given up": "error executing regex: limit for backtracking exceeded",
    "too many saved": "error executing regex: too many saved branches",
    "out of steps": "error executing regex: limit for steps exceeded",
}


def span(place):
    return "none" if place is None else "%d..%d" % place


def groups(places):
    return "none" if places is None else "".join(span(one) + "," for one in places)


def text(one):
    """An item that is a text, or a refusal, which is written {"refused": text}, or none."""
    if one is None:
        return "none"
    if isinstance(one, dict):
        return "!" + REFUSALS.get(one["refused"], one["refused"])
    return "x" + one.encode().hex()


def item(one, form=span):
    """An item of a list, which may be a refusal."""
    return text(one) if isinstance(one, dict) else form(one)


def has_groups(pattern):
    """Whether the pattern may have a group besides the whole match: it has a parenthesis that is not followed as in `(?:`."""
    return bool(re.search(r"\((?!\?(:|=|!|>|<=|<!|[a-zA-Z-]*[:)]))", pattern))


def in_options(options, *more):
    if isinstance(options, list):
        return ";".join(in_options(one, *more) for one in options)
    words = {*options.split(), *more}
    limits = sorted(one.split("=") for one in words if "=" in one)
    letters = "".join(sorted(LETTERS[one] for one in words if "=" not in one))
    return ",".join([*filter(None, [letters]), *(LIMITS[name] + number for name, number in limits)]) or "-"


def found(place):
    """What a search answers by the calls that take a text alone, and by those from a start on, with the counts that are told."""
    if isinstance(place, dict):
        return [text(place)] * 2, [text(place)] * 4 + ["within true"]
    is_found = str(place is not None).lower()
    return [is_found, span(place)], [is_found] + [span(place)] * 3 + ["within true"]


def in_forms(haystack, options):
    """The letters of a search of the haystack, whether it seeks or not. What is bytes, or has bytes as a part, is searched as bytes."""
    parts = haystack if isinstance(haystack, tuple) else (haystack,)
    form = ["as_bytes"] * any(isinstance(one, bytes) for one in parts)
    return in_options(options, *form), in_options(options, *form, "seek")


def answered(line, items):
    """A line whose calls, each made twice, answer these items."""
    answer = "".join(one + "|" for one in items)
    return line, ">%s<%s" % (answer, answer)


def find(pattern, haystack, place, options=""):
    by_text, by_input = found(place)
    plain, seeking = in_options(options), in_options(options, "seek")
    yield answered(asking.line("find", plain, pattern, haystack), by_text)
    yield answered(asking.line("find_from", plain, pattern, haystack), by_input)
    yield answered(asking.line("find_from", seeking, pattern, haystack), by_input)


def find_from(pattern, haystack, start, place, options=""):
    for letters in (in_options(options), in_options(options, "seek")):
        yield answered(asking.line("find_from", letters, pattern, haystack, start), found(place)[1])


def find_in(pattern, haystack, start, place, options=""):
    items = [*found(place)[1][:3], "within true"]
    for letters in in_forms(haystack, options):
        yield answered(asking.line("find_in", letters, pattern, haystack, start), items)


def find_with(patterns, haystack, start, all, options=""):
    items = [item(places, form) for places in all for form in (lambda it: span(it and it[0]), groups)]
    for letters in (in_options(options), in_options(options, "seek")):
        yield answered(asking.line("find_with", letters, patterns, haystack, start), items)


def find_by_overrides(pattern, haystack, switches, without, place):
    yield from find_in(pattern, haystack, 0, without, switches)
    yield from find_in(pattern, haystack, 0, place, switches + " overrides")


def given_up(pattern, haystack, refusal, options=""):
    yield answered(asking.line("find", in_options(options), pattern, haystack), [text(refusal)] * 2)
    yield answered(asking.line("find_in", in_options(options), pattern, haystack), [text(refusal)] * 3 + ["within true"])


def none_in_parts(pattern, haystack):
    for count in range(len(haystack)):
        front, rest = haystack[:count], haystack[count:]
        for part in (front, rest):
            yield answered(asking.line("find_in", "-", pattern, part), [*found(None)[1][:3], "within true"])
        yield answered(asking.line("steps", "S", pattern, front), ["none", "0", "0", "true"])


def counts(pattern, haystack, start, place, steps, returns, options=""):
    call, told = ("returns", []) if steps is None else ("steps", [str(steps)])
    items = [item(place), *told, str(returns), "true"]
    yield answered(asking.line(call, in_forms(haystack, options)[0], pattern, haystack, start), items)


def work(pattern, haystack, place, units, options=""):
    less = [text({"refused": "out of steps"}), "true"] * 3
    items = [item(place), str(units), "true", item(place), "true", *less]
    yield answered(asking.line("work", in_forms(haystack, options)[0], pattern, haystack), items)


def bytes_in(pattern, complement, ranges):
    members = bytes(one for one in range(256) if any(first <= one <= last for first, last in ranges))
    others = bytes(one for one in range(256) if one not in members)
    for options in ("ascii", "unicode_bytes no_unicode_mode"):
        for of, told in ((pattern, members), (complement, others)):
            yield answered(asking.line("bytes_in", in_options(options), of, ""), ["".join("x%02x" % one for one in told)])


def told_characters(pattern, haystack, members, options):
    items = ["".join(map(text, members))]
    return answered(asking.line("characters_in", in_options(options), pattern, haystack), items)


def ascii_in(pattern, ranges, *all_options):
    first = "".join(map(chr, range(256)))
    members = [one for one in first if any(low <= ord(one) <= high for low, high in ranges)]
    for options in all_options:
        yield told_characters(pattern, first, members, options)
        yield told_characters(pattern, "\u0660\u3000\uFF21\uFF3F\U0001D7CE\U0010FFFF", "", options)


def characters_in(pattern, complement, members, others):
    for options in ("", "unicode_bytes"):
        yield told_characters(pattern, members, members, options)
        yield told_characters(pattern, others, "", options)
        yield told_characters(complement, members, "", options)
        yield told_characters(complement, others, others, options)


def regex_told(pattern, number, is_easy):
    return "%d groups, easy %s, %s" % (number, str(is_easy).lower(), text(pattern))


def told(pattern, number, by_default, is_easy, options=""):
    items = [regex_told(pattern, number, by_default)] * 2 + [regex_told(pattern, number, is_easy)]
    yield answered(asking.line("build", in_options(options), pattern, ""), items)


def size(pattern, number, is_easy, most, is_refused):
    """A pattern whose code may be so large, by each builder."""
    plain = regex_told(pattern, number, is_easy)
    answer = text({"refused": TOO_COMPLEX}) if is_refused else plain
    options = "max_prog_size=%d" % most
    yield answered(asking.line("build", in_options(options), pattern, ""), [plain, plain, answer])
    yield answered(asking.line("build_again", in_options(options), pattern, pattern), [answer, answer])


def code(pattern, number, length):
    """A hard pattern whose code may be as long as it is, or one instruction shorter."""
    yield answered(asking.line("code", "-", pattern, ""), [str(length)])
    yield from size(pattern, number, False, length, False)
    yield from size(pattern, number, False, length - 1, True)


def cannot(pattern, haystack, start, options=""):
    yield answered(asking.line("find_from", in_options(options), pattern, haystack, start), ["?cannot"])


def captures(pattern, haystack, places, options=""):
    yield answered(asking.line("captures", in_options(options), pattern, haystack), [item(places, groups)] * 3)


def captures_from(pattern, haystack, start, places, first, options=""):
    items = [item(first, groups)] + [item(places, groups)] * 2
    yield answered(asking.line("captures", in_options(options), pattern, haystack, start), items)


def names(pattern, wanted, options=""):
    yield answered(asking.line("names", in_options(options), pattern, ""), map(text, wanted))


def matches(pattern, haystack, places, options=""):
    for letters in (in_options(options), in_options(options, "seek")):
        yield answered(asking.line("matches", letters, pattern, haystack), [item(one) for one in places])
        if not has_groups(pattern):
            items = [item(one, lambda place: groups([place])) for one in places]
            yield answered(asking.line("capture_matches", letters, pattern, haystack), items)


def matches_after(pattern, filler, count, tail, places):
    """The matches, by places from where the tail begins: in text, in bytes, and from there on."""
    haystack, start = (filler, count, tail), len(filler.encode()) * count
    items = [span((start + first, start + last)) for first, last in places]
    yield answered(asking.line("matches", "-", pattern, haystack), items)
    yield answered(asking.line("matches", "Y", pattern, haystack), items)
    yield answered(asking.line("matches", "-", pattern, haystack, start), items)


def list_in(pattern, haystack, start, places, options=""):
    told = [text(pattern), "x" + asking.data(haystack).hex()]
    items = [*told, *map(span, places), "true", *told, str(start), *map(span, places)]
    for letters in in_forms(haystack, options):
        yield answered(asking.line("list", letters, pattern, haystack, start), items)


def walk(pattern, haystack, start, places, starts, options=""):
    yield from list_in(pattern, haystack, start, places, options)
    ends = len(asking.data(haystack)) + 3 - len(places)
    known = [*starts[:len(places) + 1], *[starts[-1]] * (ends - 1)]
    items = [it for pair in zip(map(str, known), [*map(span, places), *["end"] * ends]) for it in pair]
    for letters in in_forms(haystack, options):
        yield answered(asking.line("walk", letters, pattern, haystack, start), items)


def groups_of_matches(pattern, haystack, start, all_groups, options=""):
    items = [item(one, groups) for one in all_groups]
    yield answered(asking.line("capture_matches", in_options(options), pattern, haystack, start), items)


def split(pattern, haystack, pieces, options=""):
    letters = in_options(options)
    yield answered(asking.line("split", letters, pattern, haystack), map(text, pieces))
    for limit in (len(pieces), 2**64 - 1):
        yield answered(asking.line("splitn", letters, pattern, haystack, limit), map(text, pieces))


def splitn(pattern, haystack, limit, pieces, options=""):
    yield answered(asking.line("splitn", in_options(options), pattern, haystack, limit), map(text, pieces))


def replace(pattern, haystack, limit, template, texts, options=""):
    yield answered(asking.line("replace", in_options(options), pattern, haystack, limit, template), map(text, texts))


def expand(pattern, haystack, template, wanted):
    alone, after = text(wanted), text("t" + wanted)
    yield answered(asking.line("expand", "-", pattern, haystack, 0, template), [alone] + [after] * 4)
    yield answered(asking.line("write", "-", pattern, haystack, 0, template), [wanted])


def expand_as_in_python(pattern, haystack, template, wanted, by_default):
    alone, after, otherwise = text(wanted), text("t" + wanted), text("t" + by_default)
    yield answered(asking.line("expand", "-", pattern, haystack, 1, template), [alone, after, otherwise, otherwise, after])


def check(pattern, template, *told):
    yield answered(asking.line("check", "-", pattern, "", 0, template), [item(one, str) for one in told])


def escape(haystack, *escaped):
    yield answered(asking.line("escape", "-", "", haystack), map(text, escaped))


def bytes_of(one):
    """An item that is a set of bytes, which the row has in hexadecimal."""
    return " ".join(["%d bytes" % len(one.split()), *one.split()])


def bytes_of_matches(pattern, first, required, options=""):
    items = [text(None) if first is None else item(first, bytes_of), item(required, bytes_of)]
    yield answered(asking.line("bytes", in_options(options), pattern, ""), items)


def of_pattern(one):
    return "%d %s" % (one[0], span(one[1]))


def groups_of_pattern(one):
    return "%d %s" % (one[0], groups(one[1]))


def size_of_set(patterns, count):
    if isinstance(count, dict):
        yield answered(asking.line("set", "-", patterns, ""), [text(count)] * 2)
        return
    yield answered(asking.line("set", "-", patterns, ""), ["%d patterns" % count] * 2)
    yield answered(asking.line("tell_set", "-", patterns, ""), [str(count == 0).lower(), str(count), "0", "0"])


def matches_of_set(call, form):
    def lines(patterns, haystack, start, place, items, options=""):
        where = text(place) if place is None or isinstance(place, dict) else "at %d" % place
        items = [where, *(item(one, form) for one in items)]
        yield answered(asking.line(call, in_options(options), patterns, haystack, start), items)

    return lines


def tokens(patterns, haystack, start, items, end, place, options=""):
    refusals = {"end": [], "unmatched": ["error executing regex: no token at position %d" % place]}
    items = [*map(of_pattern, items), *(text({"refused": one}) for one in refusals.get(end, [end])), "at %d" % place]
    yield answered(asking.line("tokens", in_options(options), patterns, haystack, start), items)


def refused(pattern, words, options=""):
    """A pattern that is refused is so before any call, but for the call that builds."""
    refusal = text({"refused": words})
    yield asking.line("names", in_options(options), pattern, ""), refusal + "|"
    if not options:
        yield answered(asking.line("build", "-", pattern, ""), [refusal] * 3)


def explained(pattern, haystack, explanation, options=""):
    yield answered(asking.line("explain", in_options(options), pattern, haystack), [text(explanation)])


def explained_tokens(patterns, haystack, explanation, options=""):
    yield answered(asking.line("explain_tokens", in_options(options), patterns, haystack), [text(explanation)])


def accepted(pattern, options=""):
    yield answered(asking.line("splitn", in_options(options), pattern, ""), [])


def of_any_size(kind):
    """The lines of a kind for the patterns of a row alone, and with so many others that a set has them in groups of two and of three."""
    def lines(patterns, *found):
        for count in (0, 128, 258):
            yield from kind([*patterns, *["q"] * count], *found)

    return lines


in_set = matches_of_set("in_set", of_pattern)
groups_in_set = matches_of_set("groups_in_set", groups_of_pattern)

KINDS = {
    "find": find, "find from": find_from, "find in": find_in, "find with": find_with, "find by overrides": find_by_overrides, "given up": given_up,
    "none in parts": none_in_parts, "counts": counts, "work": work, "cannot": cannot, "bytes in": bytes_in, "ASCII in": ascii_in,
    "characters in": characters_in, "told": told, "size": size, "code": code, "matches after": matches_after, "list": list_in,
    "walk": walk, "captures": captures, "captures from": captures_from,
    "names": names, "matches": matches, "groups of matches": groups_of_matches, "split": split, "splitn": splitn,
    "replace": replace, "expand": expand, "expand as in Python": expand_as_in_python, "check": check, "escape": escape,
    "bytes": bytes_of_matches, "set": size_of_set, "in set": in_set, "groups in set": groups_in_set, "in sets": of_any_size(in_set),
    "tokens": tokens, "tokens of sets": of_any_size(tokens), "refused": refused, "accepted": accepted,
    "explained": explained, "explained tokens": explained_tokens,
}


def rows():
    """The rows, each with the number of its line."""
    for number, line in enumerate((CALLS / "rows.txt").read_text().split("\n"), 1):
        if line and not line.startswith("#"):
            yield number, ast.literal_eval(line)


def made():
    """The lines that the rows ask for, with their answers."""
    for number, (kind, *fields) in rows():
        try:
            yield from KINDS[kind](*fields)
        except Exception as error:
            raise SystemExit("rows.txt, line %d: %s" % (number, error)) from error


def renewed(path, lines):
    by_hand = path.read_text().split("\n")[:BY_HAND]
    return "\n".join([*by_hand, *lines, ""])


def main():
    asked, answers = zip(*made())
    differs = False
    for name, lines in (("stdin", asked), ("stdout", answers)):
        path = CALLS / name
        wanted = renewed(path, lines)
        if path.read_text() != wanted:
            differs = True
            if "--write" in sys.argv:
                path.write_text(wanted)
            else:
                print("%s is not that of the rows" % path)
    print("%d rows, %d lines" % (sum(1 for _ in rows()), len(asked)))
    return int(differs and "--write" not in sys.argv)


if __name__ == "__main__":
    sys.exit(main())
