#!/usr/bin/env python3
"""Writes the signatures of the calls, and the errors, into docs/GUIDE.md, from the lines of the sources.

    tools/guide.py           says where the page differs from the sources, and ends with status 1 if it does
    tools/guide.py --write   writes these parts of the page anew

A part stands between the lines `<!-- made: NAME -->` and `<!-- end -->`. A call has its signature and the first sentence of its
doc comment. A public call that no part has, and an error without advice in REMEDIES, is a difference too.
"""

import re
import sys

import facade
from calling import squeezed

PAGE = facade.CRATES.parent / "docs/GUIDE.md"
ERRORS = facade.CRATES / "fancy_tree/src/error.rt"
PART = re.compile(r"(<!-- made: (.+?) -->\n).*?(<!-- end -->)", re.S)
FUNCTION = re.compile(r"^ *(pub )?(?:final )?fn (\w+)")
VARIANT = re.compile(r"^    (\w+)(?:\(([^)]*)\))?,$")

# The parts of the page: of each the types in order, and of each type its calls. A free function has no type.
CALLS = {
    "building": {
        "Regex": "new try_from with_options",
        "RegexOptionsBuilder": "new default build options",
        "RegexBuilder": "new pattern build",
    },
    "options": {
        "RegexOptionsBuilder": "case_insensitive multi_line dot_matches_new_line ignore_whitespace verbose_mode crlf unicode_mode "
        "bytes_mode ignore_numbered_groups_when_named_groups_exist allow_input_assertion_overrides find_not_empty "
        "leftmost_longest backtrack_limit stack_limit step_limit max_prog_size seek",
    },
    "searches": {
        "Regex": "is_match is_match_input find find_from_pos find_input captures captures_from_pos captures_input can_search "
        "find_input_with captures_input_with find_input_counted",
        "SearchCache": "new",
        "Work": "new after steps returns units work reset is_spent has_work_for add add_attempt count_step_within count_return count_returns count_return_within count_units",
    },
    "lists": {
        "Regex": "find_iter find_iter_input resume_matches captures_iter captures_iter_input resume_captures split splitn",
        "Matches": "regex text input onward",
        "CaptureMatches": "regex text input onward",
        "Onward": "first",
    },
    "inputs": {
        "RegexInput": "new from_pos range anchored start_text end_text continue_from_previous_match_end haystack start get_range "
        "effective_start request again",
        "Request": "effective_start last_position",
    },
    "matches": {
        "Match": "start end range as_str new",
        "MatchBytes": "start end range as_bytes new",
        "Captures": "get name len iter text text_of expand input_as_bytes",
    },
    "replacement": {
        "Regex": "replace replace_all replacen try_replacen try_replacen_by",
        "ReplaceFn": "new",
        "Replacer": "replace_append fixed_text no_expansion by_ref",
    },
    "templates": {
        "Expander": "default python check expansion append_expansion write_expansion write_expansion_vec escape steps",
        "Writer": "write_some",
        "": "escape",
    },
    "sets": {
        "RegexSet": "new new_with_options from_regexes len is_empty can_search find_input find_input_counted",
        "RegexSetMatchesAt": "regex_set haystack start",
        "RegexSetMatch": "pattern start end as_str get captures",
    },
    "tokens": {
        "RegexSet": "tokens",
        "Tokens": "regex_set haystack place",
        "Token": "pattern start end as_str get captures",
    },
    "patterns": {
        "Regex": "as_str captures_len capture_names is_easy code_len may_start_before",
        "RegexOptionsBuilder": "start_bytes required_bytes",
        "ByteSet": "contains len is_empty iter new of all insert union intersection",
        "BytesMode": "default meaning keeps_characters",
        "Error": "name",
        "Explain": "explain",
        "ParseErrorKind": "name",
        "CompileError": "name",
        "RuntimeError": "name",
    },
    "lines": {
        "LineIndex": "new text line_column offset line_column_in_characters offset_in_characters",
        "": "line_at",
    },
}
# Builders have the same setters, so the page has those of one.
SAME_AS = {"RegexBuilder": "RegexOptionsBuilder"}
# Traits that forms of haystacks, matches and regexes implement, and the record that builders fill.
LEFT_OUT = {"Haystack", "Input", "GroupTexts", "GroupNames", "Options"}

REMEDIES = {
    "Memory": "give the process more memory, or search less at once",
    "GeneralParseError": r"write `\)`, or in a template the mark twice",
    "UnclosedOpenParen": r"write the `)`, or `\(`",
    "InvalidRepeat": "write the lower bound first, both at most 4,294,967,295",
    "TargetNotRepeatable": r"write a group around what is to be repeated, or `\?`",
    "RecursionExceeded": "take out groups that capture nothing",
    "TrailingBackslash": r"write `\\`",
    "InvalidEscape": "write the character without the backslash",
    "InvalidHex": r"write two digits after `\x`, four after `\u`, eight after `\U`, or one to eight in braces",
    "InvalidCodepointValue": "write a number up to 10FFFF that is no surrogate",
    "InvalidClass": "see [classes](DIALECT.md#classes) and [meanings](DIALECT.md#three-meanings)",
    "UnknownFlag": "use `i`, `m`, `s`, `x`, `u`, `R`",
    "InvalidGroupName": "rename the group: letters, numbers and `_`",
    "ChangingUnicodeModeUnsupported": "set `unicode_mode` or `bytes_mode` on the builder",
    "NotInProfile": "see [what is left out](DIALECT.md#not-in-the-dialect)",
    "InvalidBackref": "count the groups, or give the group a name",
    "InvalidGroupNameBackref": "mend the name",
    "NamedBackrefOnly": "refer by name",
    "LookBehindNotConst": "write an alternative of bodies that each have one size",
    "PatternCanNeverMatch": "leave the option out",
    "PatternTooComplex": "lower the counts of its repeats, or raise `max_prog_size`",
    "BacktrackLimitExceeded": "raise `backtrack_limit`, set `seek`, or write an easy pattern",
    "StackOverflow": "raise `stack_limit`, or write an easy pattern",
    "StepLimitExceeded": "raise `step_limit`, set `seek`, or write a pattern with less to try at each place",
    "Unmatched": "add a pattern for what is there",
}


def first_sentence(doc):
    """The first sentence of a doc comment, on one line and without links."""
    paragraph = " ".join(line.strip()[3:].strip() for line in doc).split("  ")[0]
    sentence = re.split(r"(?<=\.) (?=[A-Z`\[])", paragraph)[0]
    return re.sub(r"\[(`[^`]+`)\]", r"\1", sentence).replace("|", r"\|")


def doc_before(lines, at):
    """The doc comment right before a line, over attributes, up to its first empty line."""
    start = at
    while re.match(r"\s*(///|#\[)", lines[start - 1]):
        start -= 1
    doc = [line for line in lines[start:at] if line.strip().startswith("///")]
    empty = [number for number, line in enumerate(doc) if line.strip() == "///"]
    return doc[: empty[0]] if empty else doc


def public_calls():
    """Signature and first sentence of each public function, by its type and its name."""
    types, laws = facade.re_exports()
    calls = {}
    for path in sorted(facade.CRATES.glob("fancy_*/src/**/*.rt")):
        crate = path.relative_to(facade.CRATES).parts[0]
        own = [name for name in types if types[name] == crate]
        lines, head, opening = path.read_text().split("\n"), None, 0
        for at, line in enumerate(lines):
            if facade.OWNER.match(line):
                head, opening = line.split("{")[0], at
            elif line.startswith("}"):
                head = None
            found = FUNCTION.match(line)
            if not found or path in laws:
                continue
            is_public, name = found.groups()
            bare = facade.without_arguments(head.replace("->", "")) if head else ""
            owners = re.findall(r"\w+", bare.split(" for ")[-1])[-1:] if head else [""]
            is_one = " for " not in bare or name in ("try_from", "default")
            is_shown = is_public or bare.startswith("pub trait") or " for " in bare
            if is_one and is_shown and owners[0] in (own if head else [""]) and (head or name in own):
                signature = squeezed(facade.signature_at(lines, at)[0].rstrip("{} \n").rstrip(";"))
                signature = re.sub(r"^(pub )?(final )?fn |\bmut (?=self\b|replacer\b)(?<!&mut )| where .*$", "", signature)
                full = f"{owners[0]}::{signature}" if owners[0] else signature
                calls.setdefault((owners[0], name), (full, first_sentence(doc_before(lines, at) or doc_before(lines, opening)) or "The default."))
    return calls


def table_of_calls(part, calls):
    yield "| Call | What it does |"
    yield "|---|---|"
    for owner, names in CALLS[part].items():
        for name in names.split():
            signature, sentence = calls[owner, name]
            yield f"| `{signature}` | {sentence} |"


def errors_of(lines, name):
    """The kinds of an enum of errors: name, what it holds, and the first sentences of its doc comment."""
    start = lines.index(f"pub enum {name} {{")
    for at in range(start, lines.index("}", start)):
        found = VARIANT.match(lines[at])
        if found:
            yield *found.groups(), " ".join(line.strip()[4:] for line in doc_before(lines, at))


def table_of_errors():
    lines = ERRORS.read_text().split("\n")
    yield "| Error | Cause | What to do |"
    yield "|---|---|---|"
    for name, held, cause in errors_of(lines, "Error"):
        kind = (held or "").split(", ")[-1]
        yield f"| `{name}{f'({held})' if held else ''}` | {cause} | {REMEDIES.get(name, 'by its kind:' if kind else '')} |"
        if f"pub enum {kind} {{" in lines:
            for variant, inner, why in errors_of(lines, kind):
                yield f"| .. `{variant}{f'({inner})' if inner else ''}` | {why} | {REMEDIES.get(variant, '')} |"


def missing(calls):
    """The public calls that no part has."""
    told = {(owner, name) for part in CALLS.values() for owner, names in part.items() for name in names.split()}
    for owner, name in calls:
        if owner not in LEFT_OUT and not {(owner, name), (SAME_AS.get(owner), name)} & told:
            yield f"no part of tools/guide.py has {owner}::{name}"


def main():
    calls, page = public_calls(), PAGE.read_text()

    def renew(found):
        rows = table_of_errors() if found.group(2) == "errors" else table_of_calls(found.group(2), calls)
        return found.group(1) + "\n" + "\n".join(rows) + "\n\n" + found.group(3)

    wanted = PART.sub(renew, page)
    found = list(missing(calls))
    kinds = re.findall(r"^    (\w+)(?:\(.*\))?,$", ERRORS.read_text(), re.M)
    found += [f"tools/guide.py has no advice for {kind}" for kind in kinds if kind not in REMEDIES and not kind.endswith("Error")]
    found += [f"docs/GUIDE.md lacks the part {part}" for part in [*CALLS, "errors"] if f"<!-- made: {part} -->" not in page]
    if "--write" in sys.argv:
        PAGE.write_text(wanted)
    elif wanted != page:
        found.append("docs/GUIDE.md differs from the sources: run tools/guide.py --write.")
    print("\n".join(found) if found else "Each call and each error is as its source has it.")
    return 1 if found else 0


if __name__ == "__main__":
    sys.exit(main())
