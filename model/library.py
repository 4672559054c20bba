"""Asks the library itself, by the programs `calls` and `ranges`.

`calls` (crates/calls) makes the calls that take a text: a line is a call, options, a number, a text, a template and patterns.
`ranges` (model/ranges, of which the gate knows nothing) searches parts of texts and of bytes, and tells the returns. Half of the
cases go to each."""
import os
import random
import re
import subprocess
import sys
import unicodedata
from dataclasses import replace

import templates
from cases import Gen, needs
from dialect import ASCII_MODE, UNICODE, UNICODE_BYTES, Options, Refused, Unknown
from meaning import Counts, Explosion, Input, Limit, Regex, RegexSet, decode_all
from templates import Expander

HERE = os.path.dirname(os.path.abspath(__file__))
sys.path.append(f"{os.path.dirname(HERE)}/tools")

import unproved

# The texts of refusals, and what stands before them.
TEXTS = {
    "unmatched parenthesis, or an incomplete reference in a template": "GeneralParseError",
    "opening parenthesis without closing parenthesis": "UnclosedOpenParen", "invalid bounds of a repeat": "InvalidRepeat",
    "nothing to repeat before the quantifier": "TargetNotRepeatable", "parentheses or brackets are nested too deep": "RecursionExceeded",
    "backslash at the end of the pattern": "TrailingBackslash", "invalid escape": "InvalidEscape",
    "invalid hexadecimal digits": "InvalidHex", "number of no character": "InvalidCodepointValue", "invalid class": "InvalidClass",
    "unknown flag": "UnknownFlag", "invalid group name": "InvalidGroupName",
    "changing the Unicode mode is not supported": "ChangingUnicodeModeUnsupported", "form that is not in the dialect": "NotInProfile",
    "no group has the number": "InvalidBackref", "no group has the name": "InvalidGroupNameBackref",
    "groups are referred to by name alone here": "NamedBackrefOnly", "look-behind of no constant size": "LookBehindNotConst",
    "pattern that can never match": "PatternCanNeverMatch", "pattern with more than": "PatternTooComplex",
    "limit for backtracking exceeded": "BacktrackLimitExceeded", "too many saved branches": "StackOverflow",
    "no token at position": "Unmatched",
}
BEFORE = re.compile(r"!(?:parsing error at position \d+: |error compiling regex: |error executing regex: )?")
LETTERS = {
    "case_insensitive": "i", "multi_line": "m", "dot_matches_new_line": "s", "ignore_whitespace": "x", "crlf": "R",
    "ignore_numbered_groups_when_named_groups_exist": "N", "allow_input_assertion_overrides": "O", "find_not_empty": "E",
    "leftmost_longest": "L", "seek": "S",
}
# Bytes that are no text, and ends of characters.
ODD = [b"\x80", b"\xbf", b"\xc3", b"\xe6\x97", b"\xf0\x9f\x98", b"\xc0\x80", b"\xe0\x80\x80", b"\xed\xa0\x80", b"\xf4\x90\x80\x80", b"\xff"]
FAR = [2 ** 64 - 1, 2 ** 64 - 2, 2 ** 63, 2 ** 63 - 1]


def build(name, path, constants):
    """Builds `fre`, `calls` or `ranges` without proof, with other values of the library's constants of these names."""
    sources = {}
    for file in os.listdir(f"{HERE}/ranges"):
        with open(f"{HERE}/ranges/{file}", encoding="utf-8") as text:
            sources[f"src/{file.removesuffix('.txt')}"] = text.read()
    try:
        with unproved.repository_with("ranges: fancy_regex", sources) as files:
            for constant, value in constants.items():
                set_constant(f"{files}/crates", constant, value)
            unproved.program(name, path, files)
    except unproved.NotBuilt as why:
        sys.exit(f"{name} was not built: {why}")
    return path


def set_constant(crates, constant, value):
    """Gives a constant another value in the one file of the crates that declares it."""
    declared = re.compile(rf"^((?:pub(?:\(crate\))? )?const {constant}: \w+ = )[^;]+;", re.M)
    found = []
    for folder, _, names in os.walk(crates):
        for path in (f"{folder}/{it}" for it in names if it.endswith(".rt")):
            with open(path, encoding="utf-8") as file:
                text = file.read()
            if declared.search(text):
                found.append((path, text))
    if len(found) != 1:
        sys.exit(f"{len(found)} files declare a constant {constant}")
    with open(found[0][0], "w", encoding="utf-8") as file:
        file.write(declared.sub(rf"\g<1>{value};", found[0][1]))


# ------------------------------------------------------------------ options and inputs

def options_of(r):
    """Random options, and in one of six cases limits that a search soon meets."""
    def flip(chance):
        return r.random() < chance

    options = Options(
        case_insensitive=flip(.2), multi_line=flip(.2), ignore_whitespace=flip(.1), dot_matches_new_line=flip(.2), crlf=flip(.2),
        unicode_mode=flip(.75), bytes_mode=r.choice((UNICODE, UNICODE, ASCII_MODE, UNICODE_BYTES)), find_not_empty=flip(.1),
        leftmost_longest=flip(.1), ignore_numbered_groups_when_named_groups_exist=flip(.1),
        allow_input_assertion_overrides=flip(.2), seek=flip(.3))
    if flip(.1):
        options = replace(options, backtrack_limit=r.randrange(6))
    if flip(.1):
        options = replace(options, stack_limit=r.randrange(6))
    return options


def letters_of(options):
    """The options as both programs read them."""
    out = "".join(letter for name, letter in LETTERS.items() if getattr(options, name))
    out += {UNICODE: "", ASCII_MODE: "a", UNICODE_BYTES: "b"}[options.bytes_mode] + ("" if options.unicode_mode else "U")
    if options.backtrack_limit != Options.backtrack_limit:
        out += f",B{options.backtrack_limit}"
    if options.stack_limit != Options.stack_limit:
        out += f",K{options.stack_limit}"
    return out or "-"


def limited(r, regex, given):
    """Options under which a search takes exactly the returns or the saved branches that it may, or one too many, or far more."""
    options = replace(regex.options, backtrack_limit=Options.backtrack_limit, stack_limit=Options.stack_limit)
    counts = Counts()
    try:
        Regex(regex.pattern.text, options).search(given, counts=counts)
    except Explosion:
        pass                            # (the counts so far are more than the limits may be)
    if r.random() < .75:
        most = r.choice((counts.returns, counts.returns - 1, counts.returns - 1, r.randrange(counts.returns + 1)))
        options = replace(options, backtrack_limit=max(0, most))
    if r.random() < .4:
        options = replace(options, stack_limit=max(0, r.choice((counts.held, counts.held, counts.held - 1, r.randrange(6)))))
    return options


def haystack_of(r, makes, regex):
    """A random haystack, and whether it is asked as a text."""
    options = regex.options
    text = makes.text([regex.tree] if options.meaning != "byte" else [])
    if options.bytes_mode != UNICODE and r.random() < .7:
        text = "".join(it for it in text if it.isascii())
    data = text.encode()
    if r.random() < .5:
        return data, True
    for _ in range(r.choice((0, 1, 1, 2))):
        at = r.randrange(len(data) + 1)
        odd = data[:at] + r.choice(ODD) * r.choice((1, 1, 5)) + data[at + r.randrange(2):]
        data = odd if is_old(odd) else data
    return data, False


def is_old(data):
    """Whether Python knows each character of the bytes. One that is newer may come of an odd byte within another."""
    return all(it is None or unicodedata.category(chr(it[0])) != "Cn" for it in decode_all(data))


def input_of(r, data, is_text):
    """A random input over a haystack."""
    whole = Input(data, is_text)
    places = [it for it in range(len(data) + 1) if not is_text or whole.is_char_boundary(it) or r.random() < .03]

    def flip(chance):
        return r.random() < chance

    return replace(
        whole, range=tuple(sorted((r.choice(places), r.choice(places)))) if flip(.4) else None,
        start=r.choice([r.choice(places)] * 8 + [len(data) + 1] + FAR) if flip(.3) else 0, anchored=flip(.2), start_text=flip(.8),
        end_text=flip(.8), continue_from_previous_match_end=flip(.8))


def can_search(regex, given):
    """Whether a regex may search an input."""
    if not given.text:
        return True
    if regex.options.bytes_mode != UNICODE and not given.hay.isascii():
        return False
    if given.start <= len(given.hay) and not given.is_char_boundary(given.start):
        return False
    return all(given.is_char_boundary(it) for it in given.limits)


# ------------------------------------------------------------------ items of answers

def span(place):
    return "none" if place is None else f"{place[0]}..{place[1]}"


def spans(match):
    return "none" if match is None else "".join(span(it) + "," for it in match.groups)


def hexadecimal(text):
    return "none" if text is None else "x" + text.encode().hex()


def item(work, show):
    """An item that shows what `work` gives, or the name of the limit that it meets."""
    try:
        return show(work())
    except Limit as limit:
        return "!" + limit.kind


def listed(matches, show):
    """Items of a list, whose last may be a limit."""
    return ["!" + it.kind if isinstance(it, Limit) else show(it) for it in matches]


def by_name(text):
    """An item of a program, with a refusal's name in the place of its text."""
    if not text.startswith("!"):
        return text
    told = BEFORE.sub("", text, count=1)
    return next(("!" + name for start, name in TEXTS.items() if told.startswith(start)), text)


# ------------------------------------------------------------------ the program ranges

def range_case(r, makes):
    """A line for `ranges`, and the items that it must answer; of a refused pattern the names that it may have."""
    regex, line, refused = built(r, makes)
    if refused:
        return f"{line} text 0 - - 0111  {regex.encode().hex()}", refused
    data, is_text = haystack_of(r, makes, regex)
    given = input_of(r, data, is_text)
    if makes.has("runs") and r.random() < .7 and can_search(regex, given):
        regex = Regex(regex.pattern.text, limited(r, regex, given))
        line = letters_of(regex.options)
    first, last = given.range or ("-", "-")
    switches = "".join("01"[it] for it in (given.anchored, given.start_text, given.end_text, given.continue_from_previous_match_end))
    words = (line, "text" if is_text else "bytes", given.start, first, last, switches, data.hex(), regex.pattern.text.encode().hex())
    items = items_of_range(regex, given)
    if makes.has("runs") and items[0] in ("?cannot", "0 returns") and r.random() < .6:
        return None                     # nothing is counted
    return " ".join(map(str, words)), items


def items_of_range(regex, given):
    """The items of the answer. The returns of an easy search are the engine's own affair."""
    if not can_search(regex, given):
        return ["?cannot"]
    counts = Counts()
    try:
        found = regex.search(given, counts=counts)
    except Limit as limit:
        return [f"{counts.returns} returns", "!" + limit.kind, "kept", *["!" + limit.kind] * 2]
    matches = list(regex.matches(given))
    first = [span(found and found.span), spans(found)]
    return [f"{counts.returns} returns" if regex.hard else None, *first, "kept", *first, "all", *listed(matches, lambda it: span(it.span)), "groups", *listed(matches, spans)]


# ------------------------------------------------------------------ the program calls

def built(r, makes):
    """A random pattern under random options: its regex, the letters of the options, and None; or the pattern, these, and the
    names of its refusals."""
    while True:
        options = options_of(r)
        pattern = makes.faulty() if makes.has("malformed") and r.random() < .1 else makes.pattern()
        if not needs(pattern) <= makes.on | {"core"}:
            continue
        try:
            return Regex(pattern, options), letters_of(options), None
        except Unknown:
            continue
        except Refused as refused:
            if r.random() < .2:
                return pattern, letters_of(options), refused_names(refused)


def refused_names(refused):
    """What a program may say of a refused pattern."""
    return frozenset("!" + it for it in refused.names)


CALLS = ["find", "find_from", "captures", "names", "matches", "capture_matches", "split", "splitn", "replace", "check", "expand",
         "build", "bytes", "escape"]
# Those that search, and where each limit is met.
SEARCHES = ["find", "find_from", "captures", "matches", "capture_matches", "split", "splitn", "replace", "expand"]
CALLS_OF_SETS = ["in_set", "groups_in_set", "tokens"]


def call_case(r, makes):
    """A line for `calls`, and the items that it must answer."""
    calls = CALLS + CALLS_OF_SETS * 2 * (makes.has("sets") or makes.has("tokens")) if not makes.alone else SEARCHES
    call = r.choice(calls)
    if call in CALLS_OF_SETS:
        return set_case(r, makes)
    regex, letters, refused = built(r, makes)
    template = makes.template()
    if refused:
        line = " ".join((call, letters, "0", ",".join(it.encode().hex() for it in ("", template, regex))))
        return (line, refused) if call not in ("build", "bytes", "escape") else None
    text = makes.text([regex.tree] if regex.options.meaning != "byte" else [])
    if regex.options.bytes_mode != UNICODE and r.random() < .9:
        text = "".join(it for it in text if it.isascii())
    number = r.choice((0, 0, 1, 2, 3)) if call != "expand" else r.randrange(2)
    given = Input.of(text, start=number if call != "expand" else 0)
    if makes.has("runs") and r.random() < .5 and can_search(regex, given):
        regex = Regex(regex.pattern.text, limited(r, regex, given))
        letters = letters_of(regex.options)
    line = " ".join((call, letters, str(number), ",".join(it.encode().hex() for it in (text, template, regex.pattern.text))))
    return line, Calls([regex], text, template, number).items(call)


def set_case(r, makes):
    """A line of a call of a set for `calls`, and the items that it must answer: a set whose members have the options of the line, or
    each its own, asked in a part of a text; some hard members have limits that they meet at a place of it."""
    common = options_of(r)
    members = makes.accepted(makes.members(), common)
    if r.random() < .15:
        members = [one for it in members for one in makes.accepted([it.pattern.text], replace(options_of(r), bytes_mode=common.bytes_mode))]
    if not members:
        return None
    text = makes.text_of_members([it.tree for it in members if it.options.meaning != "byte"])
    if common.bytes_mode != UNICODE and r.random() < .9:
        text = "".join(it for it in text if it.isascii())
    given = input_of(r, text.encode(), True) if r.random() < .6 else Input.of(text)
    if r.random() < .4:
        members = [member_limited(r, it, given) for it in members]
    each = [letters_of(it.options) for it in members]
    letters = ";".join(each if len(each) > 1 and len(set(each)) > 1 else each[:1]) + part_letters(given)
    call = r.choice(CALLS_OF_SETS)
    line = " ".join((call, letters, str(given.start), ",".join(it.encode().hex() for it in (text, "", *(it.pattern.text for it in members)))))
    return line, Calls(members, text, "", given.start, given).items(call)


def member_limited(r, regex, given):
    """The regex, or one that takes at a place of the input exactly the returns or branches that it may, or one too many."""
    places = [it for it in given.positions() if given.is_char_boundary(it)]
    if not regex.hard or not places or r.random() < .4:
        return regex
    return Regex(regex.pattern.text, limited(r, regex, replace(given, start=r.choice(places), anchored=True)))


def part_letters(given):
    """What an input asks for, as `calls` reads it."""
    first, last = given.range or (None, None)
    out = "" if given.range is None else f",F{first},T{last}"
    switches = (("A", given.anchored), ("H", not given.start_text), ("Z", not given.end_text),
                ("G", not given.continue_from_previous_match_end))
    return out + "".join(f",{letter}" for letter, is_set in switches if is_set)


class Calls:
    """What `calls` answers to a line."""

    def __init__(self, members, text, template, number, part=None):
        self.members, self.regex, self.text, self.template, self.number = members, members[0], text, template, number
        self.whole = Input.of(text)
        self.part = part or Input.of(text, start=number)

    def items(self, call):
        """The items of the answer; None where a line has no answer."""
        asks = {"names": None, "check": None, "build": None, "bytes": None, "escape": None, "split": self.whole, "splitn": self.whole,
                "replace": self.whole, "expand": self.whole, "find": self.whole}
        given = asks.get(call, self.part)
        if given is not None and not all(can_search(it, given) for it in self.members):
            return None if call == "expand" else ["?cannot"]
        return getattr(self, call)()

    def find(self):
        return [item(lambda: self.regex.search(self.whole), lambda it: "true" if it else "false"),
                item(lambda: self.regex.search(self.whole), lambda it: span(it and it.span))]

    def find_from(self):
        found = item(lambda: self.regex.search(self.part), lambda it: span(it and it.span))
        matched = found if found.startswith("!") else "false" if found == "none" else "true"
        return [matched, found, found, found, "within true"]

    def find_with(self):
        return [item(lambda: it.search(self.part), show) for it in self.members for show in (lambda found: span(found and found.span), spans)]

    def captures(self):
        return [item(lambda: self.regex.search(it), spans) for it in (self.whole, self.part, self.part)]

    def names(self):
        return [hexadecimal(it) for it in self.regex.pattern.names]

    def matches(self):
        return listed(self.regex.matches(self.part), lambda it: span(it.span))

    def capture_matches(self):
        return listed(self.regex.matches(self.part), spans)

    def split(self):
        return listed(self.regex.split(self.text), hexadecimal)

    def splitn(self):
        return listed(self.regex.splitn(self.text, self.number), hexadecimal)

    def replaced(self, limit, expands):
        def new(match):
            return Expander().expansion(self.template, self.regex.pattern, match, self.text) if expands else self.template

        def work():
            made = self.regex.replacen(self.text, limit, new)
            return self.text if made is None else made

        return item(work, hexadecimal)

    def replace(self):
        return [self.replaced(self.number, True), self.replaced(1, True), self.replaced(self.number, False), self.replaced(0, True)]

    def check(self):
        faults = (it.check(self.template, self.regex.pattern) for it in (Expander(), Expander.python()))
        return ["fits" if it is None else "!" + it[0] for it in faults]

    def expand(self):
        try:
            match = self.regex.search(self.whole)
        except Limit as limit:
            return frozenset(["!" + limit.kind])
        if match is None:
            return None
        asked = Expander.python() if self.number == 1 else Expander()
        one, plain = (it.expansion(self.template, self.regex.pattern, match, self.text) for it in (asked, Expander()))
        return [hexadecimal(it) for it in (one, "t" + one, "t" + plain, "t" + plain, "t" + one)]

    def build(self):
        return of_build(self.regex.pattern.text, self.regex.options)

    def bytes(self):
        return of_bytes(self.regex.pattern.text, self.regex.options)

    def escape(self):
        ways = (templates.escape, Expander().escape, Expander.python().escape)
        return [hexadecimal(self.text if way(self.text) is None else way(self.text)) for way in ways]

    def in_set(self, show=lambda it: span(it.span)):
        try:
            answer = RegexSet(self.members).find(self.part)
        except Limit as limit:
            return ["!" + limit.kind]
        if answer is None:
            return ["none"]
        members = ("!" + it.kind if isinstance(it, Limit) else f"{at} {show(it)}" for at, it in answer[1])
        return [f"at {answer[0]}", *members]

    def groups_in_set(self):
        return self.in_set(spans)

    def tokens(self):
        out, place = [], self.part.effective_start
        for one in RegexSet(self.members).tokens(self.part):
            if isinstance(one, Limit):
                out.append("!" + one.kind)
            elif one[0] == "Unmatched":
                out.append("!Unmatched")
            else:
                out.append(f"{one[0]} {span(one[1].span)}")
                place = one[1].end
        return [*out, f"at {place}"]


def of_build(pattern, options):
    """The items of a build: twice under the default options, and under these."""
    return [told(pattern, it) for it in (Options(), Options(), options)]


def of_bytes(pattern, options):
    """The items of the byte sets of a pattern."""
    try:
        regex = Regex(pattern, options)
    except Refused as refused:
        return [refused_names(refused)] * 2
    return [byte_set(regex.start_bytes), byte_set(regex.required)]


def told(pattern, options):
    """What is told of a regex without a search, or the refusals that its pattern may have."""
    try:
        regex = Regex(pattern, options)
    except Refused as refused:
        return refused_names(refused)
    return f"{regex.pattern.groups} groups, easy {'false' if regex.hard else 'true'}, {hexadecimal(pattern)}"


def byte_set(members):
    if members is None:
        return "none"
    return f"{len(members)} bytes" + "".join(f" {it:02x}" for it in sorted(members))


# ------------------------------------------------------------------ asking

def agrees(wanted, got):
    """Whether the items of a program, or None, are what the model allows. An item of the model is a text, a set of texts of which it is
    one, or None, which may be anything."""
    if isinstance(wanted, frozenset):
        wanted = [wanted]
    if wanted is None or got is None:
        return wanted is None and got is None
    return len(wanted) == len(got) and all(
        one is None or (other in one if isinstance(one, frozenset) else one == other) for one, other in zip(wanted, got))


def items_of(text):
    """The items of an answer, or None where there is none."""
    return [by_name(it) for it in text.split("|")[:-1]] if text else None


def answers_of_calls(line):
    """The items of an answer of `calls`, which are there twice."""
    _, began, rest = line.partition(">")
    if not began:
        return items_of(line)
    first, _, second = rest.partition("<")
    return items_of(first) or [] if first == second else [f"twice: {first} and {second}"]


def ask(path, lines):
    """The lines that a program answers."""
    ran = subprocess.run([path], input="".join(it + "\n" for it in lines).encode(), capture_output=True)
    answers = ran.stdout.decode(errors="replace").split("\n")[:-1]
    # (one that ends early gives fewer)
    return answers + [f"ended with status {ran.returncode}|"] * (len(lines) - len(answers))


def of_library(asked, program):
    """Asks the library, and gives what the model and the programs say of each case where they differ."""
    r = random.Random(f"library {asked.seed}")
    makes = Gen(f"library {asked.seed} {','.join(sorted(asked.features))}", asked.features, Options())
    kinds = {"ranges": (range_case, items_of), "calls": (call_case, answers_of_calls)}
    if makes.of_sets:
        kinds = {"calls": (set_case, answers_of_calls)}
    made = {name: [] for name in kinds}
    given_up = 0
    while sum(map(len, made.values())) < asked.cases:
        name = min(made, key=lambda it: len(made[it]))
        try:
            case = kinds[name][0](r, makes)
        except Explosion:
            given_up += 1
            continue
        if case:
            made[name].append(case)
    wrong = []
    for name, asked_of in made.items():
        answers = ask(program(name, asked.constants), [line for line, _ in asked_of])
        for (line, wanted), answer in zip(asked_of, answers):
            got = kinds[name][1](answer)
            if not agrees(wanted, got):
                wrong.append((f"{name}: {line}", wanted, got))
    kinds = ", ".join(f"{len(it)} of {name}" for name, it in made.items())
    return wrong, f"{kinds}; {given_up} more were too dear"
